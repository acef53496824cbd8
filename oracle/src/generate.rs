//! Random trees that document 01 accepts: every kind in every place where it may stand.
//! Left out is only what the crate has no object for: a Register of another space or access size than `gas.rs` lists.
use crate::cases::sized;
use crate::kinds::*;
use crate::objects::REGISTER_SPACES;
use crate::random::Random;
use crate::tree::{Term, Tree};
use std::collections::BTreeMap;

pub const INTEGERS: [u64; 16] = [
    0,
    1,
    2,
    0x3F,
    0x40,
    0xFE,
    0xFF,
    0x100,
    0xFFFF,
    0x1_0000,
    0xFFFF_FFFE,
    0xFFFF_FFFF,
    0x1_0000_0000,
    0x7FFF_FFFF_FFFF_FFFF,
    0xFFFF_FFFF_FFFF_FFFE,
    0xFFFF_FFFF_FFFF_FFFF,
];

/// A field entry's bits, at the limits of its length.
pub const BITS: [u64; 12] =
    [0, 1, 8, 62, 63, 64, 4093, 4094, 4095, 1_048_572, 1_048_573, 268_435_455];

/// Segments of a path.
const SEGMENTS: [usize; 9] = [1, 2, 3, 4, 5, 16, 63, 254, 255];

const DEEPEST: usize = 64;

/// How large the trees are.
#[derive(Clone, Copy)]
pub struct Size {
    pub records: usize,
    pub depth: usize,
    /// Texts up to this length, but for a path of many segments.
    pub text: usize,
}

pub struct Generator {
    random: Random,
    rows: Vec<Row>,
    arities: BTreeMap<Vec<u8>, u16>,
    size: Size,
    left: usize,
}

fn letter(random: &mut Random) -> u8 {
    random.pick(b"ABCDEFGHIJKLMNOPQRSTUVWXYZ_")
}

fn segment(random: &mut Random) -> Vec<u8> {
    let mut text = vec![letter(random)];
    for _ in 0..3 {
        text.push(random.pick(b"ABCDEFGHIJKLMNOPQRSTUVWXYZ_0123456789"));
    }
    text
}

pub fn path_of(random: &mut Random, segments: usize, rooted: bool) -> Vec<u8> {
    let parts: Vec<Vec<u8>> = (0..segments).map(|_| segment(random)).collect();
    let mut path = if rooted { b"\\".to_vec() } else { Vec::new() };
    path.extend_from_slice(&parts.join(&b'.'));
    path
}

pub fn identity(random: &mut Random) -> [u8; 31] {
    let mut identity = [0; 31];
    identity.copy_from_slice(&random.bytes(31));
    identity
}

impl Generator {
    pub fn new(random: Random, size: Size) -> Self {
        Generator { random, rows: rows(), arities: BTreeMap::new(), size, left: size.records }
    }

    /// A tree of a random number of top level terms.
    pub fn tree(mut self) -> Tree {
        for _ in 0..self.random.below(8) {
            let path = self.path();
            let arguments = self.random.below(7) as u16 + 1;
            self.arities.insert(path, arguments);
        }
        let mut terms = Vec::new();
        while self.left > 0 && !self.random.once_in(12) {
            terms.push(self.term(Place::List, 1));
        }
        Tree {
            identity: identity(&mut self.random),
            shared: !self.random.once_in(3),
            arities: self.arities.into_iter().collect(),
            terms,
        }
    }

    fn path(&mut self) -> Vec<u8> {
        let segments = match self.random.below(40) {
            0 if self.size.text >= 1024 => self.random.pick(&SEGMENTS),
            0..=24 => 1,
            25..=32 => 2,
            33..=37 => 3,
            _ => 4,
        };
        let rooted = self.random.once_in(4);
        path_of(&mut self.random, segments, rooted)
    }

    fn length(&mut self) -> usize {
        match self.random.below(8) {
            0 => 0,
            1 => 1,
            2 => self.random.index(self.size.text + 1),
            _ => self.random.index(self.size.text.min(24) + 1),
        }
    }

    fn integer(&mut self) -> u64 {
        if self.random.once_in(2) {
            return self.random.pick(&INTEGERS);
        }
        self.random.any_width(64)
    }

    fn hex(&mut self, n: usize) -> Vec<u8> {
        (0..n).map(|_| self.random.pick(b"0123456789ABCDEFabcdef")).collect()
    }

    fn string(&mut self) -> Vec<u8> {
        let n = self.length();
        (0..n).map(|_| self.random.below(0x7F) as u8 + 1).collect()
    }

    fn eisa(&mut self) -> Vec<u8> {
        let mut text: Vec<u8> = (0..3).map(|_| self.random.below(26) as u8 + b'A').collect();
        // A small id takes fewer bytes as an integer: its bytes are swapped.
        text.extend(if self.random.once_in(4) { b"0000".to_vec() } else { self.hex(4) });
        text
    }

    fn uuid(&mut self) -> Vec<u8> {
        let parts: Vec<Vec<u8>> = [8, 4, 4, 4, 12].iter().map(|&n| self.hex(n)).collect();
        parts.join(&b'-')
    }

    /// Bounds whose span fits the width, and a translation.
    fn bounds(&mut self, bytes: u32, bus: bool) -> Vec<u8> {
        let top = u64::MAX >> (64 - 8 * bytes);
        let (mut min, mut max) = match self.random.below(6) {
            0 => (0, top - 1),
            1 => (1, top),
            2 => (top, top),
            3 => (0, 0),
            _ => (self.random.any_width(8 * bytes), self.random.any_width(8 * bytes)),
        };
        if max < min {
            std::mem::swap(&mut min, &mut max);
        }
        if min == 0 && max == top {
            min = 1;
        }
        let translation = if bus || self.random.once_in(2) { 0 } else { self.random.any_width(8 * bytes) };
        let mut text = Vec::new();
        for n in [min, max, translation] {
            text.extend_from_slice(&n.to_le_bytes()[..bytes as usize]);
        }
        text
    }

    fn space(&mut self, kind: u16, bytes: u32) -> Term {
        let a = self.random.below(3) as u16;
        let x = match a {
            0 => self.random.below(8),
            1 => 3,
            _ => 0,
        };
        let text = self.bounds(bytes, a == 2);
        Term::new(kind).a(a).x(x).text(text)
    }

    fn register(&mut self) -> Vec<u8> {
        let mut text = vec![self.random.pick(&REGISTER_SPACES) as u8];
        text.extend(self.random.bytes(2));
        text.push(self.random.below(5) as u8);
        text.extend_from_slice(&self.integer().to_le_bytes());
        text
    }

    /// A term of a kind, its fields filled, without children.
    fn fields(&mut self, kind: u16) -> Term {
        let term = Term::new(kind);
        let r = &mut self.random;
        match kind {
            METHOD => {
                let (a, x) = (r.below(8) as u16, r.below(2));
                term.text(self.path()).a(a).x(x)
            }
            POWER_RESOURCE => {
                let (a, x) = (r.draw() as u16, r.below(256));
                term.text(self.path()).a(a).x(x)
            }
            FIELD => {
                let a = r.below(6) + 16 * r.below(2) + 32 * r.below(3);
                term.text(self.path()).a(a as u16)
            }
            OP_REGION => {
                let a = r.below(10) as u16;
                term.text(self.path()).a(a)
            }
            MUTEX => {
                let a = r.below(16) as u16;
                term.text(self.path()).a(a)
            }
            ACQUIRE => {
                let a = r.any_width(16) as u16;
                term.text(self.path()).a(a)
            }
            NAME | SCOPE | DEVICE | RELEASE | CREATE_FIELD | CREATE_DWORD_FIELD | CREATE_QWORD_FIELD => {
                term.text(self.path())
            }
            LOCAL => term.a(r.below(8) as u16),
            ARG => term.a(r.below(7) as u16),
            INTEGER => term.x(self.integer()),
            STRING => term.text(self.string()),
            BUFFER => {
                let n = self.length();
                term.text(self.random.bytes(n))
            }
            EISA => term.text(self.eisa()),
            UUID => term.text(self.uuid()),
            RESERVED => term.x(self.bits()),
            NAMED => {
                let name = segment(r);
                term.text(name).x(self.bits())
            }
            IO => term.text(r.bytes(6)),
            REGISTER => term.text(self.register()),
            MEMORY32 => term.a(r.below(2) as u16).x(r.draw()),
            INTERRUPT => term.a(r.below(16) as u16).x(r.any_width(32)),
            SPACE16 => self.space(kind, 2),
            SPACE32 => self.space(kind, 4),
            SPACE64 => self.space(kind, 8),
            _ => term,
        }
    }

    fn bits(&mut self) -> u64 {
        if self.random.once_in(2) {
            return self.random.pick(&BITS);
        }
        self.random.any_width(28)
    }

    /// A name or call, and how many arguments it has here.
    fn call(&mut self, leaf: bool) -> (Term, usize) {
        if !leaf && !self.arities.is_empty() && !self.random.once_in(3) {
            let i = self.random.index(self.arities.len());
            let (path, &arguments) = self.arities.iter().nth(i).expect("an arity under their number");
            return (Term::new(CALL).text(path), usize::from(arguments));
        }
        let mut path = self.path();
        while self.arities.contains_key(&path) {
            path = self.path();
        }
        (Term::new(CALL).text(path), 0)
    }

    /// Kinds that can stand without children, at the last level or when enough records stand.
    fn leaf(row: &Row, depth: usize) -> bool {
        match row.children {
            // In normal form a UUID and a template have a child: not on the last level.
            Children::Nothing => row.kind != UUID || depth < DEEPEST,
            Children::Terms | Children::Entries | Children::Elements | Children::Arguments => true,
            Children::Descriptors => depth < DEEPEST,
            _ => false,
        }
    }

    fn many(&mut self, leaf: bool, most: usize) -> usize {
        if leaf {
            return 0;
        }
        match self.random.below(8) {
            0 => 0,
            1 => 1,
            2 => self.random.index(most.min(self.left) + 1),
            _ => self.random.index(5),
        }
    }

    fn children(&mut self, n: usize, place: Place, depth: usize) -> Vec<Term> {
        (0..n).map(|_| self.term(place, depth)).collect()
    }

    pub fn term(&mut self, place: Place, depth: usize) -> Term {
        // Half of the operands and elements are leaves, so that records are left for the lists.
        let value = place == Place::Operand || place == Place::Element;
        let leaf = self.left == 0 || depth >= self.size.depth || (value && self.random.once_in(2));
        self.left = self.left.saturating_sub(1);
        let rows: Vec<Row> = self
            .rows
            .iter()
            .filter(|row| row.places.contains(&place) && (!leaf || Self::leaf(row, depth)))
            .copied()
            .collect();
        let row = self.random.pick(&rows);
        let below = depth + 1;
        if row.kind == CALL {
            if place == Place::Element {
                let any: Vec<Vec<u8>> = self.arities.keys().cloned().collect();
                if !any.is_empty() && self.random.once_in(2) {
                    let i = self.random.index(any.len());
                    return Term::new(CALL).text(&any[i]);
                }
                return self.call(true).0;
            }
            let (term, arguments) = self.call(leaf);
            let children = self.children(arguments, Place::Operand, below);
            return term.with(children);
        }
        let term = self.fields(row.kind);
        let children = match row.children {
            Children::Nothing | Children::Arguments => Vec::new(),
            Children::Operands(_) if row.kind == BUFFER => self.buffer_size(&term, below),
            Children::Operands(n) => self.children(n, Place::Operand, below),
            Children::Datum => self.children(1, Place::Data, below),
            Children::Terms => {
                let n = self.many(leaf, 40);
                self.children(n, Place::List, below)
            }
            Children::Guarded => {
                let mut both = self.children(1, Place::Operand, below);
                let n = self.many(leaf, 40);
                both.extend(self.children(n, Place::List, below));
                both
            }
            Children::Entries => {
                let n = self.many(leaf, 60);
                self.children(n, Place::Entry, below)
            }
            Children::Elements => {
                let n = if !leaf && self.left > 255 && self.random.once_in(30) { 255 } else { self.many(leaf, 255) };
                self.children(n, Place::Element, below)
            }
            Children::Descriptors => {
                let n = self.many(leaf, 60);
                self.children(n, Place::Descriptor, below)
            }
        };
        term.with(children)
    }

    /// Mostly the length of the buffer's text.
    fn buffer_size(&mut self, term: &Term, depth: usize) -> Vec<Term> {
        if self.random.once_in(3) {
            return self.children(1, Place::Operand, depth);
        }
        vec![Term::new(INTEGER).x(term.text.len() as u64)]
    }
}

// ── The trees of a run

/// The tree of one case of a run: small ones mostly, some of thousands of records, and bodies at the limits of a PkgLength
/// around random terms. Once in 2,000 a body has a megabyte.
pub fn tree_of_case(seed: u64, number: u64) -> Tree {
    let mut random = Random::of_case(seed, number);
    let depth = if random.once_in(4) { DEEPEST } else { 3 + random.index(12) };
    let size = match number % 40 {
        39 => Size { records: 4000, depth, text: 5000 },
        30..=38 => Size { records: 300, depth, text: 1500 },
        _ => Size { records: 1 + random.index(60), depth, text: 1 + random.index(100) },
    };
    let limits = number % 8 == 7;
    let large = number % 2000 == 7;
    let kind = random.pick(&[SCOPE, DEVICE, METHOD, POWER_RESOURCE, IF, ELSE, WHILE]);
    // Below the body, and above the child that a UUID has in normal form.
    let size = if limits { Size { depth: depth.min(DEEPEST - 2), ..size } } else { size };
    let around = random.index(4);
    let mut tree = Generator::new(random, size).tree();
    if limits {
        let sizes = [62, 63, 4093, 4094, 1_048_572, 1_048_573];
        let from = if large { 4 + around % 2 } else { around };
        let inner = std::mem::take(&mut tree.terms);
        let body = sizes[from..].iter().find_map(|&n| sized(kind, inner.clone(), n));
        tree.terms = body.into_iter().collect();
    }
    tree
}
