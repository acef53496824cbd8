//! The C face of the library that is judged.

#[repr(C)]
#[derive(Clone, Copy, Debug, PartialEq, Eq)]
pub struct Answer {
    pub number: u32,
    pub index: u32,
    pub length: u64,
}

#[repr(C)]
#[derive(Clone, Copy, Debug, PartialEq, Eq)]
pub struct Edit {
    pub number: u32,
    pub length: u32,
    pub checksum: u8,
}

extern "C" {
    fn acpi_encode(file: *const u8, file_len: usize, out: *mut u8, out_len: usize) -> Answer;
    fn acpi_read(arities: *const u8, arities_len: usize, table: *const u8, table_len: usize, out: *mut u8, out_len: usize) -> Answer;
    fn acpi_new(identity: *const u8, length: u32, buffer: *mut u8, buffer_len: usize) -> Edit;
    fn acpi_append(buffer: *mut u8, buffer_len: usize, length: u32, checksum: u8, piece: *const u8, piece_len: usize) -> Edit;
    fn acpi_write(
        buffer: *mut u8,
        buffer_len: usize,
        length: u32,
        checksum: u8,
        offset: u64,
        piece: *const u8,
        piece_len: usize,
    ) -> Edit;
}

// Each call reads and writes only within the slices that are handed over.

pub fn encode(file: &[u8], out: &mut [u8]) -> Answer {
    unsafe { acpi_encode(file.as_ptr(), file.len(), out.as_mut_ptr(), out.len()) }
}

pub fn read(arities: &[u8], table: &[u8], out: &mut [u8]) -> Answer {
    unsafe { acpi_read(arities.as_ptr(), arities.len(), table.as_ptr(), table.len(), out.as_mut_ptr(), out.len()) }
}

pub fn new(identity: &[u8; 31], length: u32, buffer: &mut [u8]) -> Edit {
    unsafe { acpi_new(identity.as_ptr(), length, buffer.as_mut_ptr(), buffer.len()) }
}

pub fn append(buffer: &mut [u8], length: u32, checksum: u8, piece: &[u8]) -> Edit {
    unsafe { acpi_append(buffer.as_mut_ptr(), buffer.len(), length, checksum, piece.as_ptr(), piece.len()) }
}

pub fn write(buffer: &mut [u8], length: u32, checksum: u8, offset: u64, piece: &[u8]) -> Edit {
    unsafe { acpi_write(buffer.as_mut_ptr(), buffer.len(), length, checksum, offset, piece.as_ptr(), piece.len()) }
}
