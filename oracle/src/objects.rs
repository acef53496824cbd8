//! The crate's objects of a term file. All kinds can be made; not all their fields:
//! a Register's space is one of thirteen and its access size 0 to 4 (enums of `gas.rs`); others must not be asked for.
//! A buffer whose size is not the length of its text has no object of its own: `BufferTerm` holds an object of ours.
use crate::kinds::*;
use crate::tree::{File, Record};
use acpi_tables::aml;
use acpi_tables::gas::{AccessSize, AddressSpace as Space, GAS};
use acpi_tables::{Aml, AmlSink};
use std::cell::{Cell, RefCell};
use std::mem::{align_of, size_of, transmute, MaybeUninit};

// ── Where the objects live: they hold references to each other

const WORDS: usize = 8192;

type Chunk = Vec<MaybeUninit<u64>>;

/// Objects side by side in large chunks, dropped together. Cheaper than a box each: the crate is measured with it.
pub struct Arena {
    chunks: RefCell<Vec<Chunk>>,
    used: Cell<usize>,
    kept: RefCell<Vec<*mut dyn Aml>>,
}

impl Arena {
    pub fn new() -> Self {
        Arena { chunks: RefCell::new(Vec::new()), used: Cell::new(WORDS), kept: RefCell::new(Vec::new()) }
    }

    fn place<T>(&self) -> *mut T {
        let words = ((size_of::<T>() + 7) / 8).max(1);
        assert!(align_of::<T>() <= 8 && words <= WORDS);
        let mut chunks = self.chunks.borrow_mut();
        if WORDS - self.used.get() < words {
            chunks.push(vec![MaybeUninit::uninit(); WORDS]);
            self.used.set(0);
        }
        let from = self.used.get();
        self.used.set(from + words);
        let chunk = chunks.last_mut().expect("there is a chunk");
        chunk[from..].as_mut_ptr() as *mut T
    }

    pub fn keep<'a, T: Aml + 'a>(&'a self, object: T) -> &'a dyn Aml {
        let place: *mut T = self.place();
        // The place is aligned and free. A kept object lives as long as the arena; dropping one follows no reference.
        unsafe {
            place.write(object);
            let shared: *mut (dyn Aml + 'a) = place;
            self.kept.borrow_mut().push(transmute::<*mut (dyn Aml + 'a), *mut (dyn Aml + 'static)>(shared));
            &*place
        }
    }
}

impl Default for Arena {
    fn default() -> Self {
        Self::new()
    }
}

impl Drop for Arena {
    fn drop(&mut self) {
        for object in self.kept.get_mut().drain(..) {
            // Written by `keep`, and dropped nowhere else.
            unsafe { object.drop_in_place() };
        }
    }
}

// ── Objects of ours

/// Bytes that are there already.
struct Raw(Vec<u8>);

impl Aml for Raw {
    fn to_aml_bytes(&self, sink: &mut dyn AmlSink) {
        sink.vec(&self.0);
    }
}

/// A buffer's size, and its bytes behind it.
struct Behind<'a> {
    size: &'a dyn Aml,
    bytes: Vec<u8>,
}

impl Aml for Behind<'_> {
    fn to_aml_bytes(&self, sink: &mut dyn AmlSink) {
        self.size.to_aml_bytes(sink);
        sink.vec(&self.bytes);
    }
}

/// One of the two known differences, set right: `was` begins the object's bytes and `is` takes its place.
struct Mended<'a> {
    object: &'a dyn Aml,
    was: &'static [u8],
    is: &'static [u8],
}

impl Aml for Mended<'_> {
    fn to_aml_bytes(&self, sink: &mut dyn AmlSink) {
        let bytes = bytes_of(&[self.object]);
        assert!(bytes.starts_with(self.was), "a known difference is gone: {:02x?}", &bytes[..self.was.len()]);
        sink.vec(self.is);
        sink.vec(&bytes[self.was.len()..]);
    }
}

/// PowerResource's opcode, as the crate writes it and as it is.
pub const POWER_OPCODE: (&[u8], &[u8]) = (&[0x84, 0x5B], &[0x5B, 0x84]);

/// Register's length.
pub const REGISTER_LENGTH: (&[u8], &[u8]) = (&[0x82, 0x12, 0x00], &[0x82, 0x0C, 0x00]);

/// What objects write, one behind the other.
pub fn bytes_of(objects: &[&dyn Aml]) -> Vec<u8> {
    let mut bytes = Vec::new();
    for object in objects {
        object.to_aml_bytes(&mut bytes);
    }
    bytes
}

// ── Making them

#[derive(Clone, Copy, Debug, PartialEq, Eq)]
pub struct Manner {
    /// Set the two known differences right.
    pub mended: bool,
    /// Use the crate's other ways to the same bytes, by turns: `PackageBuilder`, `Scope::raw`, narrow integers, ..
    pub varied: bool,
}

pub struct Maker<'f, 'a> {
    file: File<'f>,
    next: usize,
    arena: &'a Arena,
    manner: Manner,
}

fn str_of(text: &[u8]) -> &str {
    std::str::from_utf8(text).expect("an accepted text but a buffer's is ASCII")
}

fn path_of(r: &Record) -> aml::Path {
    aml::Path::new(str_of(r.text))
}

fn u16_at(text: &[u8], i: usize) -> u16 {
    u16::from_le_bytes([text[2 * i], text[2 * i + 1]])
}

fn u32_at(text: &[u8], i: usize) -> u32 {
    u32::from(u16_at(text, 2 * i)) | u32::from(u16_at(text, 2 * i + 1)) << 16
}

fn u64_at(text: &[u8], i: usize) -> u64 {
    u64::from(u32_at(text, 2 * i)) | u64::from(u32_at(text, 2 * i + 1)) << 32
}

pub const REGISTER_SPACES: [Space; 13] = [
    Space::SystemMemory,
    Space::SystemIo,
    Space::PciConfigSpace,
    Space::EmbeddedController,
    Space::Smbus,
    Space::SystemCmos,
    Space::PciBarTarget,
    Space::Ipmi,
    Space::GeneralPursposeIo,
    Space::GenericSerialBus,
    Space::PlatformCommunicationsChannel,
    Space::PlatformRuntimeMechanism,
    Space::FunctionalFixedHardware,
];

const ACCESS_SIZES: [AccessSize; 5] = [
    AccessSize::Undefined,
    AccessSize::ByteAccess,
    AccessSize::WordAccess,
    AccessSize::DwordAccess,
    AccessSize::QwordAccess,
];

const REGION_SPACES: [aml::OpRegionSpace; 10] = [
    aml::OpRegionSpace::SystemMemory,
    aml::OpRegionSpace::SystemIO,
    aml::OpRegionSpace::PCIConfig,
    aml::OpRegionSpace::EmbeddedControl,
    aml::OpRegionSpace::SMBus,
    aml::OpRegionSpace::SystemCMOS,
    aml::OpRegionSpace::PciBarTarget,
    aml::OpRegionSpace::IPMI,
    aml::OpRegionSpace::GeneralPurposeIO,
    aml::OpRegionSpace::GenericSerialBus,
];

const ACCESS_TYPES: [aml::FieldAccessType; 6] = [
    aml::FieldAccessType::Any,
    aml::FieldAccessType::Byte,
    aml::FieldAccessType::Word,
    aml::FieldAccessType::DWord,
    aml::FieldAccessType::QWord,
    aml::FieldAccessType::Buffer,
];

const LOCK_RULES: [aml::FieldLockRule; 2] = [aml::FieldLockRule::NoLock, aml::FieldLockRule::Lock];

const UPDATE_RULES: [aml::FieldUpdateRule; 3] =
    [aml::FieldUpdateRule::Preserve, aml::FieldUpdateRule::WriteAsOnes, aml::FieldUpdateRule::WriteAsZeroes];

const CACHEABLE: [aml::AddressSpaceCacheable; 4] = [
    aml::AddressSpaceCacheable::NotCacheable,
    aml::AddressSpaceCacheable::Cacheable,
    aml::AddressSpaceCacheable::WriteCombining,
    aml::AddressSpaceCacheable::PreFetchable,
];

fn register_of(r: &Record) -> aml::Register {
    let space = REGISTER_SPACES.iter().find(|&&s| s as u8 == r.text[0]).expect("a space that the crate has");
    let access = ACCESS_SIZES[usize::from(r.text[3])];
    let mut address = [0; 8];
    address.copy_from_slice(&r.text[4..12]);
    aml::Register::new(GAS::new(*space, r.text[1], r.text[2], access, u64::from_le_bytes(address)))
}

/// No translation is a translation of 0, by turns.
fn translation<T: PartialEq + Default>(t: T, some: bool) -> Option<T> {
    if some || t != T::default() {
        Some(t)
    } else {
        None
    }
}

fn space_of<T: Default + PartialEq>(r: &Record, min: T, max: T, offset: T, some: bool) -> aml::AddressSpace<T> {
    match r.a {
        0 => {
            let cacheable = CACHEABLE[(r.x / 2) as usize];
            aml::AddressSpace::new_memory(cacheable, r.x % 2 == 1, min, max, translation(offset, some))
        }
        1 => aml::AddressSpace::new_io(min, max, translation(offset, some)),
        _ => aml::AddressSpace::new_bus_number(min, max),
    }
}

macro_rules! one {
    ($m:ident, $name:ident) => {{
        let a = $m.object();
        $m.arena.keep(aml::$name::new(a))
    }};
}

macro_rules! two {
    ($m:ident, $name:ident) => {{
        let a = $m.object();
        let b = $m.object();
        $m.arena.keep(aml::$name::new(a, b))
    }};
}

/// The target stands last in the file, and first in the crate.
macro_rules! convert {
    ($m:ident, $name:ident) => {{
        let a = $m.object();
        let target = $m.object();
        $m.arena.keep(aml::$name::new(target, a))
    }};
}

macro_rules! three {
    ($m:ident, $name:ident) => {{
        let a = $m.object();
        let b = $m.object();
        let target = $m.object();
        $m.arena.keep(aml::$name::new(target, a, b))
    }};
}

macro_rules! field {
    ($m:ident, $name:ident, $r:ident) => {{
        let a = $m.object();
        let b = $m.object();
        let name = $m.name(&$r);
        $m.arena.keep(aml::$name::new(name, a, b))
    }};
}

impl<'f, 'a> Maker<'f, 'a> {
    pub fn new(file: &'f [u8], arena: &'a Arena, manner: Manner) -> Self {
        Maker { file: File::new(file), next: 0, arena, manner }
    }

    /// All top level terms of the file.
    pub fn objects(mut self) -> Vec<&'a dyn Aml> {
        let mut objects = Vec::new();
        while self.next < self.file.records() {
            objects.push(self.object());
        }
        objects
    }

    fn turn(&self, turns: usize) -> usize {
        if self.manner.varied {
            self.next % turns
        } else {
            0
        }
    }

    fn list(&mut self, n: usize) -> Vec<&'a dyn Aml> {
        (0..n).map(|_| self.object()).collect()
    }

    fn mended(&self, object: &'a dyn Aml, (was, is): (&'static [u8], &'static [u8])) -> &'a dyn Aml {
        if self.manner.mended {
            self.arena.keep(Mended { object, was, is })
        } else {
            object
        }
    }

    /// The path that stands last.
    fn name(&self, r: &Record) -> &'a dyn Aml {
        if r.text.len() == 4 && self.turn(2) == 1 {
            return self.arena.keep(aml::Name::new_field_name(str_of(r.text)));
        }
        self.arena.keep(path_of(r))
    }

    fn integer(&self, x: u64) -> &'a dyn Aml {
        match (self.turn(5), x) {
            (1, 0) => self.arena.keep(aml::ZERO),
            (1, 1) => self.arena.keep(aml::ONE),
            (1, 0..=0xFF) => self.arena.keep(x as u8),
            (2, 0..=0xFFFF) => self.arena.keep(x as u16),
            (3, 0..=0xFFFF_FFFF) => self.arena.keep(x as u32),
            (4, _) => self.arena.keep(x as usize),
            _ => self.arena.keep(x),
        }
    }

    fn entry(&mut self) -> aml::FieldEntry {
        let r = self.file.record(self.next);
        self.next += 1;
        if r.kind == RESERVED {
            return aml::FieldEntry::Reserved(r.x as usize);
        }
        aml::FieldEntry::Named([r.text[0], r.text[1], r.text[2], r.text[3]], r.x as usize)
    }

    fn field_list(&mut self, r: &Record) -> &'a dyn Aml {
        let flags = usize::from(r.a);
        let entries = (0..r.children).map(|_| self.entry()).collect();
        let (access, lock, update) = (flags % 16, flags / 16 % 2, flags / 32);
        self.arena.keep(aml::Field::new(path_of(r), ACCESS_TYPES[access], LOCK_RULES[lock], UPDATE_RULES[update], entries))
    }

    fn buffer(&mut self, r: &Record) -> &'a dyn Aml {
        let size = self.file.record(self.next);
        if size.kind == INTEGER && size.x == r.text.len() as u64 && self.turn(2) == 0 {
            self.next += 1;
            return self.arena.keep(aml::BufferData::new(r.text.to_vec()));
        }
        let size = self.object();
        if r.text.is_empty() {
            return self.arena.keep(aml::BufferTerm::new(size));
        }
        let both = self.arena.keep(Behind { size, bytes: r.text.to_vec() });
        self.arena.keep(aml::BufferTerm::new(both))
    }

    fn package(&mut self, r: &Record) -> &'a dyn Aml {
        let builds = self.turn(2) == 1;
        let elements = self.list(r.children);
        if builds {
            let mut package = aml::PackageBuilder::new();
            for element in elements {
                package.add_element(element);
            }
            return self.arena.keep(package);
        }
        self.arena.keep(aml::Package::new(elements))
    }

    fn scope(&mut self, r: &Record) -> &'a dyn Aml {
        let raw = self.turn(2) == 1;
        let list = self.list(r.children);
        if raw {
            return self.arena.keep(Raw(aml::Scope::raw(path_of(r), bytes_of(&list))));
        }
        self.arena.keep(aml::Scope::new(path_of(r), list))
    }

    fn call(&mut self, r: &Record) -> &'a dyn Aml {
        if r.children == 0 && self.turn(2) == 0 {
            return self.arena.keep(path_of(r));
        }
        let arguments = self.list(r.children);
        self.arena.keep(aml::MethodCall::new(path_of(r), arguments))
    }

    fn guarded(&mut self, r: &Record) -> (&'a dyn Aml, Vec<&'a dyn Aml>) {
        let guard = self.object();
        let list = self.list(r.children - 1);
        (guard, list)
    }

    /// The next term with its children.
    fn object(&mut self) -> &'a dyn Aml {
        let r = self.file.record(self.next);
        self.next += 1;
        let arena = self.arena;
        match r.kind {
            NAME => {
                let datum = self.object();
                arena.keep(aml::Name::new(path_of(&r), datum))
            }
            SCOPE => self.scope(&r),
            DEVICE => {
                let list = self.list(r.children);
                arena.keep(aml::Device::new(path_of(&r), list))
            }
            METHOD => {
                let list = self.list(r.children);
                arena.keep(aml::Method::new(path_of(&r), r.a as u8, r.x == 1, list))
            }
            POWER_RESOURCE => {
                let list = self.list(r.children);
                let object = arena.keep(aml::PowerResource::new(path_of(&r), r.x as u8, r.a, list));
                self.mended(object, POWER_OPCODE)
            }
            FIELD => self.field_list(&r),
            OP_REGION => {
                let offset = self.object();
                let length = self.object();
                arena.keep(aml::OpRegion::new(path_of(&r), REGION_SPACES[usize::from(r.a)], offset, length))
            }
            MUTEX => arena.keep(aml::Mutex::new(path_of(&r), r.a as u8)),
            ACQUIRE => arena.keep(aml::Acquire::new(path_of(&r), r.a)),
            RELEASE => arena.keep(aml::Release::new(path_of(&r))),
            CREATE_FIELD => {
                let source = self.object();
                let index = self.object();
                let bits = self.object();
                let name = self.name(&r);
                arena.keep(aml::CreateField::new(name, source, index, bits))
            }
            CREATE_DWORD_FIELD => field!(self, CreateDWordField, r),
            CREATE_QWORD_FIELD => field!(self, CreateQWordField, r),
            IF => {
                let (guard, list) = self.guarded(&r);
                arena.keep(aml::If::new(guard, list))
            }
            WHILE => {
                let (guard, list) = self.guarded(&r);
                arena.keep(aml::While::new(guard, list))
            }
            ELSE => {
                let list = self.list(r.children);
                arena.keep(aml::Else::new(list))
            }
            RETURN => one!(self, Return),
            NOTIFY => two!(self, Notify),
            STORE => convert!(self, Store),
            0x83 => one!(self, DeRefOf),
            0x87 => one!(self, SizeOf),
            0x8E => one!(self, ObjectType),
            0x93 => two!(self, Equal),
            0x94 => two!(self, GreaterThan),
            0x95 => two!(self, LessThan),
            0x9293 => two!(self, NotEqual),
            0x9294 => two!(self, LessEqual),
            0x9295 => two!(self, GreaterEqual),
            0x96 => convert!(self, ToBuffer),
            0x99 => convert!(self, ToInteger),
            0x72 => three!(self, Add),
            0x73 => three!(self, Concat),
            0x74 => three!(self, Subtract),
            0x77 => three!(self, Multiply),
            0x79 => three!(self, ShiftLeft),
            0x7A => three!(self, ShiftRight),
            0x7B => three!(self, And),
            0x7C => three!(self, Nand),
            0x7D => three!(self, Or),
            0x7E => three!(self, Nor),
            0x7F => three!(self, Xor),
            0x84 => three!(self, ConcatRes),
            0x85 => three!(self, Mod),
            0x88 => three!(self, Index),
            0x9C => three!(self, ToString),
            MID => {
                let source = self.object();
                let index = self.object();
                let length = self.object();
                let result = self.object();
                arena.keep(aml::Mid::new(source, index, length, result))
            }
            CALL => self.call(&r),
            LOCAL => arena.keep(aml::Local(r.a as u8)),
            ARG => arena.keep(aml::Arg(r.a as u8)),
            INTEGER => self.integer(r.x),
            ONES => arena.keep(aml::ONES),
            STRING => arena.keep(str_of(r.text).to_string()),
            BUFFER => self.buffer(&r),
            PACKAGE => self.package(&r),
            VAR_PACKAGE => one!(self, VarPackageTerm),
            EISA => arena.keep(aml::EISAName::new(str_of(r.text))),
            UUID => arena.keep(aml::Uuid::new(str_of(r.text))),
            TEMPLATE => {
                let descriptors = self.list(r.children);
                arena.keep(aml::ResourceTemplate::new(descriptors))
            }
            _ => self.descriptor(&r),
        }
    }

    fn descriptor(&mut self, r: &Record) -> &'a dyn Aml {
        let arena = self.arena;
        let some = self.turn(2) == 1;
        let t = r.text;
        match r.kind {
            IO => arena.keep(aml::IO::new(u16_at(t, 0), u16_at(t, 1), t[4], t[5])),
            REGISTER => {
                let object = arena.keep(register_of(r));
                self.mended(object, REGISTER_LENGTH)
            }
            MEMORY32 => arena.keep(aml::Memory32Fixed::new(r.a == 1, r.x as u32, (r.x >> 32) as u32)),
            INTERRUPT => {
                let flag = |bit: u16| r.a >> bit & 1 == 1;
                arena.keep(aml::Interrupt::new(flag(0), flag(1), flag(2), flag(3), r.x as u32))
            }
            SPACE16 => arena.keep(space_of(r, u16_at(t, 0), u16_at(t, 1), u16_at(t, 2), some)),
            SPACE32 => arena.keep(space_of(r, u32_at(t, 0), u32_at(t, 1), u32_at(t, 2), some)),
            SPACE64 => arena.keep(space_of(r, u64_at(t, 0), u64_at(t, 1), u64_at(t, 2), some)),
            kind => panic!("kind {kind:04X} stands in no list"),
        }
    }
}

/// What the crate writes for a file's terms.
pub fn terms_of(file: &[u8], manner: Manner) -> Vec<u8> {
    let arena = Arena::new();
    let objects = Maker::new(file, &arena, manner).objects();
    bytes_of(&objects)
}
