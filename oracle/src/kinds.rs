//! Document 01's table of kinds: where a kind may stand, and what its children are.

#[derive(Clone, Copy, Debug, PartialEq, Eq, Hash, PartialOrd, Ord)]
pub enum Place {
    List,
    Operand,
    Data,
    Element,
    Entry,
    Descriptor,
}

use Place::*;

pub const PLACES: [Place; 6] = [List, Operand, Data, Element, Entry, Descriptor];

#[derive(Clone, Copy, Debug, PartialEq, Eq)]
pub enum Children {
    Nothing,
    Operands(usize),
    Datum,
    Terms,
    /// An operand, then a list.
    Guarded,
    Entries,
    Elements,
    Descriptors,
    /// As many operands as the path's arity; none in a package.
    Arguments,
}

use Children::*;

pub const NAME: u16 = 0x08;
pub const STRING: u16 = 0x0D;
pub const INTEGER: u16 = 0x0E;
pub const SCOPE: u16 = 0x10;
pub const BUFFER: u16 = 0x11;
pub const PACKAGE: u16 = 0x12;
pub const VAR_PACKAGE: u16 = 0x13;
pub const METHOD: u16 = 0x14;
pub const CALL: u16 = 0x2E;
pub const LOCAL: u16 = 0x60;
pub const ARG: u16 = 0x68;
pub const STORE: u16 = 0x70;
pub const NOTIFY: u16 = 0x86;
pub const CREATE_DWORD_FIELD: u16 = 0x8A;
pub const CREATE_QWORD_FIELD: u16 = 0x8F;
pub const MID: u16 = 0x9E;
pub const IF: u16 = 0xA0;
pub const ELSE: u16 = 0xA1;
pub const WHILE: u16 = 0xA2;
pub const RETURN: u16 = 0xA4;
pub const ONES: u16 = 0xFF;
pub const MUTEX: u16 = 0x5B01;
pub const CREATE_FIELD: u16 = 0x5B13;
pub const ACQUIRE: u16 = 0x5B23;
pub const RELEASE: u16 = 0x5B27;
pub const OP_REGION: u16 = 0x5B80;
pub const FIELD: u16 = 0x5B81;
pub const DEVICE: u16 = 0x5B82;
pub const POWER_RESOURCE: u16 = 0x5B84;
pub const EISA: u16 = 0xE001;
pub const UUID: u16 = 0xE002;
pub const TEMPLATE: u16 = 0xE003;
pub const IO: u16 = 0xE047;
pub const REGISTER: u16 = 0xE082;
pub const MEMORY32: u16 = 0xE086;
pub const SPACE32: u16 = 0xE087;
pub const SPACE16: u16 = 0xE088;
pub const INTERRUPT: u16 = 0xE089;
pub const SPACE64: u16 = 0xE08A;
pub const RESERVED: u16 = 0xF000;
pub const NAMED: u16 = 0xF001;

/// One, two and three operands, in a list or as an operand.
pub const UNARY: [u16; 3] = [0x83, 0x87, 0x8E];
pub const BINARY: [u16; 8] = [0x93, 0x94, 0x95, 0x9293, 0x9294, 0x9295, 0x96, 0x99];
pub const TERNARY: [u16; 15] = [
    0x72, 0x73, 0x74, 0x77, 0x79, 0x7A, 0x7B, 0x7C, 0x7D, 0x7E, 0x7F, 0x84, 0x85, 0x88, 0x9C,
];

/// Kinds with a PkgLength.
pub const BODIES: [u16; 11] = [
    SCOPE, BUFFER, PACKAGE, VAR_PACKAGE, METHOD, FIELD, DEVICE, POWER_RESOURCE, IF, ELSE, WHILE,
];

#[derive(Clone, Copy, Debug)]
pub struct Row {
    pub kind: u16,
    pub places: &'static [Place],
    pub children: Children,
}

const STATEMENT: &[Place] = &[List];
const EITHER: &[Place] = &[List, Operand];
const VALUE: &[Place] = &[Operand, Data, Element];

const fn row(kind: u16, places: &'static [Place], children: Children) -> Row {
    Row { kind, places, children }
}

/// The rows that are not operators.
const NAMED_ROWS: [Row; 41] = [
    row(NAME, STATEMENT, Datum),
    row(SCOPE, STATEMENT, Terms),
    row(DEVICE, STATEMENT, Terms),
    row(METHOD, STATEMENT, Terms),
    row(POWER_RESOURCE, STATEMENT, Terms),
    row(FIELD, STATEMENT, Entries),
    row(OP_REGION, STATEMENT, Operands(2)),
    row(MUTEX, STATEMENT, Nothing),
    row(ACQUIRE, EITHER, Nothing),
    row(RELEASE, STATEMENT, Nothing),
    row(CREATE_FIELD, STATEMENT, Operands(3)),
    row(CREATE_DWORD_FIELD, STATEMENT, Operands(2)),
    row(CREATE_QWORD_FIELD, STATEMENT, Operands(2)),
    row(IF, STATEMENT, Guarded),
    row(WHILE, STATEMENT, Guarded),
    row(ELSE, STATEMENT, Terms),
    row(RETURN, STATEMENT, Operands(1)),
    row(NOTIFY, STATEMENT, Operands(2)),
    row(STORE, EITHER, Operands(2)),
    row(MID, EITHER, Operands(4)),
    row(CALL, &[List, Operand, Element], Arguments),
    row(LOCAL, &[Operand], Nothing),
    row(ARG, &[Operand], Nothing),
    row(INTEGER, VALUE, Nothing),
    row(ONES, VALUE, Nothing),
    row(STRING, VALUE, Nothing),
    row(BUFFER, VALUE, Operands(1)),
    row(PACKAGE, VALUE, Elements),
    row(VAR_PACKAGE, VALUE, Operands(1)),
    row(EISA, VALUE, Nothing),
    row(UUID, VALUE, Nothing),
    row(TEMPLATE, VALUE, Descriptors),
    row(RESERVED, &[Entry], Nothing),
    row(NAMED, &[Entry], Nothing),
    row(IO, &[Descriptor], Nothing),
    row(REGISTER, &[Descriptor], Nothing),
    row(MEMORY32, &[Descriptor], Nothing),
    row(INTERRUPT, &[Descriptor], Nothing),
    row(SPACE16, &[Descriptor], Nothing),
    row(SPACE32, &[Descriptor], Nothing),
    row(SPACE64, &[Descriptor], Nothing),
];

/// All rows.
pub fn rows() -> Vec<Row> {
    let mut all = NAMED_ROWS.to_vec();
    all.extend(UNARY.iter().map(|&kind| row(kind, EITHER, Operands(1))));
    all.extend(BINARY.iter().map(|&kind| row(kind, EITHER, Operands(2))));
    all.extend(TERNARY.iter().map(|&kind| row(kind, EITHER, Operands(3))));
    all
}
