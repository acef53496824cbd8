//! Term files made by chance, from a seed: every kind in every place, texts and numbers at their limits.
#![allow(dead_code)]

/// A generator whose numbers follow from its seed alone (splitmix64).
pub struct Chance(pub u64);

impl Chance {
    pub fn next(&mut self) -> u64 {
        self.0 = self.0.wrapping_add(0x9E37_79B9_7F4A_7C15);
        let mut z = self.0;
        z = (z ^ (z >> 30)).wrapping_mul(0xBF58_476D_1CE4_E5B9);
        z = (z ^ (z >> 27)).wrapping_mul(0x94D0_49BB_1331_11EB);
        z ^ (z >> 31)
    }

    pub fn below(&mut self, n: u64) -> u64 {
        self.next() % n
    }

    pub fn index(&mut self, n: usize) -> usize {
        self.below(n as u64) as usize
    }

    pub fn one_in(&mut self, n: u64) -> bool {
        self.below(n) == 0
    }

    pub fn pick<T: Clone>(&mut self, from: &[T]) -> T {
        from[self.index(from.len())].clone()
    }

    pub fn bytes(&mut self, n: usize) -> Vec<u8> {
        (0..n).map(|_| self.next() as u8).collect()
    }

    /// Up to `most`, often at a limit of some width.
    pub fn number(&mut self, most: u64) -> u64 {
        let n = match self.below(4) {
            0 => self.pick(&[0, 1, 2, 0xFF, 0x100, 0xFFFF, 0x1_0000, 0xFFFF_FFFF, 0x1_0000_0000, u64::MAX]),
            1 => most,
            2 => self.next() >> self.below(64),
            _ => self.below(8),
        };
        if most == u64::MAX {
            n
        } else {
            n.min(most)
        }
    }
}

#[derive(Clone, Copy, PartialEq)]
enum Text {
    No,
    Path,
    Segment,
    Ascii,
    Bytes,
    Eisa,
    Uuid,
    Exactly(usize),
    Space(usize),
}

#[derive(Clone, Copy, PartialEq)]
enum Rest {
    No,
    List,
    Data,
    Arity,
    Elements,
    Entries,
    Descriptors,
}

/// Places: list, operand, data, field entry, descriptor.
pub const L: u8 = 1;
const O: u8 = 2;
const D: u8 = 4;
const F: u8 = 8;
const R: u8 = 16;

/// A kind: its text, the limits of `a` and `x`, how many operands, what follows them, and its places.
type Row = (u16, Text, u64, u64, usize, Rest, u8);

const NAMED: [Row; 16] = [
    (0x08, Text::Path, 0, 0, 0, Rest::Data, L),
    (0x10, Text::Path, 0, 0, 0, Rest::List, L),
    (0x5B82, Text::Path, 0, 0, 0, Rest::List, L),
    (0x14, Text::Path, 7, 1, 0, Rest::List, L),
    (0x5B84, Text::Path, 0xFFFF, 0xFF, 0, Rest::List, L),
    (0x5B81, Text::Path, 0, 0, 0, Rest::Entries, L),
    (0x5B80, Text::Path, 9, 0, 2, Rest::No, L),
    (0x5B01, Text::Path, 15, 0, 0, Rest::No, L),
    (0x5B23, Text::Path, 0xFFFF, 0, 0, Rest::No, L | O),
    (0x5B27, Text::Path, 0, 0, 0, Rest::No, L),
    (0x5B13, Text::Path, 0, 0, 3, Rest::No, L),
    (0x8A, Text::Path, 0, 0, 2, Rest::No, L),
    (0x8F, Text::Path, 0, 0, 2, Rest::No, L),
    (0x2E, Text::Path, 0, 0, 0, Rest::Arity, L | O),
    (0xF000, Text::No, 0, 0xFFF_FFFF, 0, Rest::No, F),
    (0xF001, Text::Segment, 0, 0xFFF_FFFF, 0, Rest::No, F),
];

const OTHERS: [Row; 23] = [
    (0xA0, Text::No, 0, 0, 1, Rest::List, L),
    (0xA2, Text::No, 0, 0, 1, Rest::List, L),
    (0xA1, Text::No, 0, 0, 0, Rest::List, L),
    (0xA4, Text::No, 0, 0, 1, Rest::No, L),
    (0x86, Text::No, 0, 0, 2, Rest::No, L),
    (0x60, Text::No, 7, 0, 0, Rest::No, O),
    (0x68, Text::No, 6, 0, 0, Rest::No, O),
    (0x0E, Text::No, 0, u64::MAX, 0, Rest::No, O | D),
    (0xFF, Text::No, 0, 0, 0, Rest::No, O | D),
    (0x0D, Text::Ascii, 0, 0, 0, Rest::No, O | D),
    (0x11, Text::Bytes, 0, 0, 1, Rest::No, O | D),
    (0x12, Text::No, 0, 0, 0, Rest::Elements, O | D),
    (0x13, Text::No, 0, 0, 1, Rest::No, O | D),
    (0xE001, Text::Eisa, 0, 0, 0, Rest::No, O | D),
    (0xE002, Text::Uuid, 0, 0, 0, Rest::No, O | D),
    (0xE003, Text::No, 0, 0, 0, Rest::Descriptors, O | D),
    (0xE047, Text::Exactly(6), 0, 0, 0, Rest::No, R),
    (0xE082, Text::Exactly(12), 0, 0, 0, Rest::No, R),
    (0xE086, Text::No, 1, u64::MAX, 0, Rest::No, R),
    (0xE089, Text::No, 15, 0xFFFF_FFFF, 0, Rest::No, R),
    (0xE088, Text::Space(2), 2, 0, 0, Rest::No, R),
    (0xE087, Text::Space(4), 2, 0, 0, Rest::No, R),
    (0xE08A, Text::Space(8), 2, 0, 0, Rest::No, R),
];

/// Operators by their number of operands, from one to four.
const OPERATORS: [&[u16]; 4] = [
    &[0x83, 0x87, 0x8E],
    &[0x70, 0x93, 0x94, 0x95, 0x9293, 0x9294, 0x9295, 0x96, 0x99],
    &[0x72, 0x73, 0x74, 0x77, 0x79, 0x7A, 0x7B, 0x7C, 0x7D, 0x7E, 0x7F, 0x84, 0x85, 0x88, 0x9C],
    &[0x9E],
];

fn rows() -> Vec<Row> {
    let mut all: Vec<Row> = NAMED.iter().chain(&OTHERS).copied().collect();
    for (i, kinds) in OPERATORS.iter().enumerate() {
        all.extend(kinds.iter().map(|k| (*k, Text::No, 0, 0, i + 1, Rest::No, L | O)));
    }
    all
}

/// Every kind.
pub fn kinds() -> Vec<u16> {
    rows().iter().map(|r| r.0).collect()
}

#[derive(Clone)]
pub struct Record {
    pub kind: u16,
    pub a: u16,
    pub kids: u32,
    pub x: u64,
    pub text: Vec<u8>,
}

#[derive(Clone)]
pub struct Made {
    pub identity: [u8; 31],
    pub arities: Vec<(Vec<u8>, u16)>,
    pub records: Vec<Record>,
}

fn find(pool: &[u8], text: &[u8]) -> Option<usize> {
    pool.windows(text.len()).position(|w| w == text)
}

impl Made {
    /// The file. Where texts are shared, one that stands in the pool already is not put there again.
    pub fn file(&self, share: bool) -> Vec<u8> {
        let mut pool: Vec<u8> = Vec::new();
        let mut place = |text: &[u8]| -> u32 {
            if text.is_empty() {
                return 0;
            }
            if let Some(at) = if share { find(&pool, text) } else { None } {
                return at as u32;
            }
            pool.extend(text);
            (pool.len() - text.len()) as u32
        };
        let mut arities = Vec::new();
        for (text, count) in &self.arities {
            arities.extend(place(text).to_le_bytes());
            arities.extend((text.len() as u16).to_le_bytes());
            arities.extend(count.to_le_bytes());
        }
        let mut records = Vec::new();
        for r in &self.records {
            records.extend(r.kind.to_le_bytes());
            records.extend(r.a.to_le_bytes());
            records.extend(r.kids.to_le_bytes());
            records.extend(r.x.to_le_bytes());
            records.extend(place(&r.text).to_le_bytes());
            records.extend((r.text.len() as u32).to_le_bytes());
        }
        let at = [60, 60 + records.len(), 60 + records.len() + arities.len()];
        let mut file = b"TERM".to_vec();
        for n in [self.records.len(), at[0], self.arities.len(), at[1], pool.len(), at[2]] {
            file.extend((n as u32).to_le_bytes());
        }
        file.extend(self.identity);
        file.push(0);
        file.extend(records);
        file.extend(arities);
        file.extend(pool);
        file
    }

    /// The file with its arity list and no record, as reading takes it.
    pub fn list(&self) -> Vec<u8> {
        Made { records: Vec::new(), ..self.clone() }.file(false)
    }
}

struct Maker<'a> {
    by: &'a mut Chance,
    rows: Vec<Row>,
    arities: Vec<(Vec<u8>, u16)>,
    records: Vec<Record>,
    most: usize,
}

pub fn segment(by: &mut Chance) -> Vec<u8> {
    let first = b"ABCDEFGHIJKLMNOPQRSTUVWXYZ_";
    let later = b"ABCDEFGHIJKLMNOPQRSTUVWXYZ_0123456789";
    vec![by.pick(first), by.pick(later), by.pick(later), by.pick(later)]
}

pub fn path(by: &mut Chance) -> Vec<u8> {
    let n = if by.one_in(200) { by.pick(&[254, 255]) } else { by.pick(&[1, 1, 1, 2, 2, 3, 4]) };
    let mut text = if by.one_in(4) { b"\\".to_vec() } else { Vec::new() };
    for i in 0..n {
        if i > 0 {
            text.push(b'.');
        }
        text.extend(segment(by));
    }
    text
}

impl Maker<'_> {
    fn length(&mut self) -> usize {
        match self.by.below(40) {
            0 => self.by.pick(&[40, 55, 58, 59, 60, 61, 62, 63, 64]),
            1 if self.by.one_in(8) => 4060 + self.by.index(60),
            _ => self.by.index(12),
        }
    }

    fn space(&mut self, width: usize, kind: u64) -> Vec<u8> {
        let all = u64::MAX >> (64 - 8 * width);
        let min = self.by.number(all);
        let span = self.by.number(all - min);
        let max = if min == 0 && span == all { all - 1 } else { min + span };
        let other = if kind == 2 { 0 } else { self.by.number(all) };
        [min, max, other].iter().flat_map(|n| n.to_le_bytes()[..width].to_vec()).collect()
    }

    fn text(&mut self, form: Text, kind: u64) -> Vec<u8> {
        let n = self.length();
        match form {
            Text::No => Vec::new(),
            Text::Path => path(self.by),
            Text::Segment => segment(self.by),
            Text::Ascii => (0..n).map(|_| 1 + self.by.below(127) as u8).collect(),
            Text::Bytes => self.by.bytes(n),
            Text::Eisa => {
                let mut t: Vec<u8> = (0..3).map(|_| self.by.pick(b"ABCDEFGHIJKLMNOPQRSTUVWXYZ")).collect();
                t.extend((0..4).map(|_| self.by.pick(b"0123456789ABCDEFabcdef")));
                t
            }
            Text::Uuid => {
                (0..36).map(|i| if [8, 13, 18, 23].contains(&i) { b'-' } else { self.by.pick(b"0123456789ABCDEFabcdef") }).collect()
            }
            Text::Exactly(n) => self.by.bytes(n),
            Text::Space(width) => self.space(width, kind),
        }
    }

    fn numbers(&mut self, row: &Row) -> (u64, u64) {
        let a = self.by.number(row.2);
        match (row.0, row.1) {
            (0x5B81, _) => (self.by.below(6) + 16 * self.by.below(2) + 32 * self.by.below(3), 0),
            (_, Text::Space(_)) => (a, [self.by.below(8), 3, 0][a as usize]),
            _ => (a, self.by.number(row.3)),
        }
    }

    /// A term that may stand in the place, with so many levels; near the end of its room one without children.
    fn term(&mut self, place: u8, levels: usize) {
        let tight = levels <= 1 || self.most <= self.records.len();
        let fits = |r: &&Row| {
            r.6 & place != 0 && (!tight || (r.4 == 0 && r.5 != Rest::Data && r.5 != Rest::Arity && r.0 != 0xE002 && r.0 != 0xE003))
        };
        let some: Vec<Row> = self.rows.iter().filter(fits).copied().collect();
        let row = self.by.pick(&some);
        self.record(row, levels, false, tight);
    }

    fn record(&mut self, row: Row, levels: usize, element: bool, tight: bool) {
        let (a, x) = self.numbers(&row);
        let listed = row.5 == Rest::Arity && !self.arities.is_empty() && self.by.one_in(2);
        let text = if listed { self.by.pick(&self.arities).0 } else { self.text(row.1, a) };
        let at = self.records.len();
        self.records.push(Record { kind: row.0, a: a as u16, kids: 0, x, text: text.clone() });
        let mut kids = row.4;
        for _ in 0..row.4 {
            self.term(O, levels - 1);
        }
        let many = if tight { 0 } else { self.by.index(5) };
        match row.5 {
            Rest::No => (),
            Rest::Data => {
                self.term(D, levels - 1);
                kids += 1;
            }
            Rest::Arity => {
                let n = if element { 0 } else { self.arities.iter().find(|e| e.0 == text).map_or(0, |e| e.1 as usize) };
                (0..n).for_each(|_| self.term(O, levels - 1));
                kids += n;
            }
            Rest::Elements => {
                let n = if !tight && self.by.one_in(100) { self.by.pick(&[254, 255]) } else { many };
                (0..n).for_each(|_| self.element(levels - 1));
                kids += n;
            }
            Rest::List | Rest::Entries | Rest::Descriptors => {
                let place = if row.5 == Rest::List {
                    L
                } else if row.5 == Rest::Entries {
                    F
                } else {
                    R
                };
                (0..many).for_each(|_| self.term(place, levels - 1));
                kids += many;
            }
        }
        self.records[at].kids = kids as u32;
    }

    fn element(&mut self, levels: usize) {
        if self.by.one_in(3) {
            let call = *self.rows.iter().find(|r| r.0 == 0x2E).expect("a row");
            self.record(call, levels, true, true);
        } else {
            self.term(D, levels);
        }
    }
}

/// A file that is accepted, of about so many records.
pub fn made(seed: u64, most: usize) -> Made {
    let mut by = Chance(seed);
    let mut arities: Vec<(Vec<u8>, u16)> = (0..by.index(5)).map(|_| (path(&mut by), 1 + by.below(7) as u16)).collect();
    arities.sort();
    arities.dedup_by(|a, b| a.0 == b.0);
    let mut identity = [0; 31];
    identity.copy_from_slice(&by.bytes(31));
    let mut m = Maker { rows: rows(), arities, records: Vec::new(), most, by: &mut by };
    let levels = m.by.pick(&[4, 8, 16, 60]);
    loop {
        m.term(L, levels);
        if most <= m.records.len() {
            return Made { identity, arities: m.arities, records: m.records };
        }
    }
}
