//! Safe calls of the proved static library `monitor`: tables from term files and back, and tables that grow in place.
//!
//! Each call works in the buffers that it is lent. A refused call changes no byte of them; a call that succeeds leaves what
//! stands behind its output as it was.

use std::fmt;

/// The declarations, as `acpi_tables.h` has them; `check-face` holds both to the library's source.
mod face {
    #[repr(C)]
    pub struct AcpiAnswer {
        pub number: u32,
        pub index: u32,
        pub length: u64,
    }

    #[repr(C)]
    pub struct AcpiEdit {
        pub number: u32,
        pub length: u32,
        pub checksum: u8,
    }

    #[rustfmt::skip]
    extern "C" {
        pub fn acpi_encode(file: *const u8, file_len: usize, out: *mut u8, out_len: usize) -> AcpiAnswer;
        pub fn acpi_read(arities: *const u8, arities_len: usize, table: *const u8, table_len: usize, out: *mut u8, out_len: usize) -> AcpiAnswer;
        pub fn acpi_normalise(file: *const u8, file_len: usize, out: *mut u8, out_len: usize) -> AcpiAnswer;
        pub fn acpi_check(file: *const u8, file_len: usize) -> AcpiAnswer;
        pub fn acpi_new(identity: *const [u8; 31], length: u32, buffer: *mut u8, buffer_len: usize) -> AcpiEdit;
        pub fn acpi_append(buffer: *mut u8, buffer_len: usize, length: u32, checksum: u8, piece: *const u8, piece_len: usize) -> AcpiEdit;
        pub fn acpi_write(buffer: *mut u8, buffer_len: usize, length: u32, checksum: u8, offset: u64, piece: *const u8, piece_len: usize) -> AcpiEdit;
    }
}

/// Why a call was refused: document 01's number, and the record's index (0 outside 4 to 10; the record count for 10).
#[derive(Clone, Copy, Debug, PartialEq, Eq, PartialOrd, Ord, Hash)]
pub struct Refusal {
    pub number: u32,
    pub index: u32,
}

impl Refusal {
    /// What the number stands for, in document 01's words.
    pub fn words(&self) -> &'static str {
        match self.number {
            1 => "header or section lengths wrong",
            2 => "over 65,536 records or 4,096 arities; in reading, an arity file with any record",
            3 => "an arity entry wrong",
            4 => "kind unknown",
            5 => "field out of range, unused field or empty text's start not 0, text outside the pool",
            6 => "text malformed or of wrong length",
            7 => "child count wrong",
            8 => "kind not allowed in its place",
            9 => "depth over 64",
            10 => "records end with children still owed",
            11 => "normal form over 65,536 records or 64 deep",
            12 => "table over 268,435,455 bytes",
            13 => "a body over 268,435,451 bytes",
            14 => "output too short",
            20 => "table under 36 bytes, or its length field not the slice's length; in edits, a bad table record",
            21 => "bytes don't sum to 0",
            22 => "no accepted file with these arities gives this table",
            23 => "write outside the table or on bytes 4-7 or 9",
            _ => "a number that document 01 does not have",
        }
    }
}

impl fmt::Display for Refusal {
    fn fmt(&self, f: &mut fmt::Formatter<'_>) -> fmt::Result {
        write!(f, "refused {} at {}: {}", self.number, self.index, self.words())
    }
}

impl std::error::Error for Refusal {}

fn answered(a: face::AcpiAnswer) -> Result<usize, Refusal> {
    match a.number {
        0 => Ok(a.length as usize),
        number => Err(Refusal { number, index: a.index }),
    }
}

/// Writes the table of the term file to the beginning of `out` and says how many bytes it has.
pub fn encode(file: &[u8], out: &mut [u8]) -> Result<usize, Refusal> {
    // SAFETY: pointers and lengths are those of slices, and `out` overlaps nothing since it is lent alone.
    answered(unsafe { face::acpi_encode(file.as_ptr(), file.len(), out.as_mut_ptr(), out.len()) })
}

/// Writes the normal-form file of the table, with the arity list of the term file `arities`, which has no record.
pub fn read(arities: &[u8], table: &[u8], out: &mut [u8]) -> Result<usize, Refusal> {
    // SAFETY: as in `encode`.
    answered(unsafe { face::acpi_read(arities.as_ptr(), arities.len(), table.as_ptr(), table.len(), out.as_mut_ptr(), out.len()) })
}

/// Writes the normal form of the term file to the beginning of `out` and says how many bytes it has.
pub fn normalise(file: &[u8], out: &mut [u8]) -> Result<usize, Refusal> {
    // SAFETY: as in `encode`.
    answered(unsafe { face::acpi_normalise(file.as_ptr(), file.len(), out.as_mut_ptr(), out.len()) })
}

/// Refusals 1 to 10. A file that passes may still get 11 or 12 from `encode`.
pub fn check(file: &[u8]) -> Result<(), Refusal> {
    // SAFETY: pointer and length are those of a slice.
    answered(unsafe { face::acpi_check(file.as_ptr(), file.len()) }).map(|_| ())
}

/// A table that grows in the buffer that it is lent. It keeps the table's length and checksum beside it.
#[derive(Debug)]
pub struct Table<'a> {
    buffer: &'a mut [u8],
    length: u32,
    checksum: u8,
}

impl<'a> Table<'a> {
    /// A header and zeros, `length` bytes in all. The identity is a term file's: signature 4, revision 1, OEM id 6,
    /// OEM table 8, OEM revision 4, creator id 4, creator revision 4.
    pub fn new(identity: &[u8; 31], length: u32, buffer: &'a mut [u8]) -> Result<Table<'a>, Refusal> {
        // SAFETY: the reference is to 31 bytes; pointer and length are those of a slice that is lent alone.
        let e = unsafe { face::acpi_new(identity, length, buffer.as_mut_ptr(), buffer.len()) };
        match e.number {
            0 => Ok(Table { buffer, length: e.length, checksum: e.checksum }),
            number => Err(Refusal { number, index: 0 }),
        }
    }

    /// A table that stands in the buffer already, with this length and checksum. They are held to its header by each edit.
    pub fn from_parts(buffer: &'a mut [u8], length: u32, checksum: u8) -> Table<'a> {
        Table { buffer, length, checksum }
    }

    /// Puts the piece behind the table's end.
    pub fn append(&mut self, piece: &[u8]) -> Result<(), Refusal> {
        // SAFETY: pointers and lengths are those of slices, and the buffer overlaps nothing since it is lent alone.
        let e = unsafe {
            face::acpi_append(self.buffer.as_mut_ptr(), self.buffer.len(), self.length, self.checksum, piece.as_ptr(), piece.len())
        };
        self.edited(e)
    }

    /// Puts the piece over the table's bytes from `offset` on.
    pub fn write(&mut self, offset: u64, piece: &[u8]) -> Result<(), Refusal> {
        // SAFETY: as in `append`.
        let e = unsafe {
            face::acpi_write(self.buffer.as_mut_ptr(), self.buffer.len(), self.length, self.checksum, offset, piece.as_ptr(), piece.len())
        };
        self.edited(e)
    }

    fn edited(&mut self, e: face::AcpiEdit) -> Result<(), Refusal> {
        self.length = e.length;
        self.checksum = e.checksum;
        match e.number {
            0 => Ok(()),
            number => Err(Refusal { number, index: 0 }),
        }
    }

    pub fn len(&self) -> u32 {
        self.length
    }

    pub fn is_empty(&self) -> bool {
        self.length == 0
    }

    pub fn checksum(&self) -> u8 {
        self.checksum
    }

    /// The table's bytes; where `from_parts` was told more than the buffer has, the buffer's.
    pub fn bytes(&self) -> &[u8] {
        &self.buffer[..self.buffer.len().min(self.length as usize)]
    }
}
