//! Damaged term files, tables and table records through every call: no crash, every byte accounted for.
//! The files follow from fixed seeds. A short run; ACPI_LONG=1 (`rust/test --long`) runs a million of each.
mod made;

use acpi_table::{check, encode, Refusal, Table};
use made::{Chance, Made, Record};
use std::collections::BTreeMap;

const GUARD: usize = 64;
const EMPTY: u8 = 0xA5;

fn runs() -> u64 {
    if std::env::var_os("ACPI_LONG").is_some() {
        1_000_000
    } else {
        20_000
    }
}

/// A buffer between guard bytes.
struct Guarded {
    all: Vec<u8>,
    len: usize,
}

impl Guarded {
    fn new(len: usize) -> Guarded {
        Guarded { all: vec![EMPTY; len + 2 * GUARD], len }
    }

    fn of(bytes: &[u8]) -> Guarded {
        let mut g = Guarded::new(bytes.len());
        g.part().copy_from_slice(bytes);
        g
    }

    fn part(&mut self) -> &mut [u8] {
        &mut self.all[GUARD..GUARD + self.len]
    }

    /// All but the first n bytes is as it was made.
    fn untouched_behind(&self, n: usize) -> bool {
        let empty = |b: &[u8]| b.iter().all(|b| *b == EMPTY);
        empty(&self.all[..GUARD]) && empty(&self.all[GUARD + n..])
    }

    fn guards_hold(&self) -> bool {
        let empty = |b: &[u8]| b.iter().all(|b| *b == EMPTY);
        empty(&self.all[..GUARD]) && empty(&self.all[GUARD + self.len..])
    }
}

/// How often each call gave each number.
#[derive(Default)]
struct Counts(BTreeMap<(&'static str, u32), u64>);

impl Counts {
    fn add<T>(&mut self, call: &'static str, r: &Result<T, Refusal>) {
        *self.0.entry((call, r.as_ref().err().map_or(0, |r| r.number))).or_default() += 1;
    }

    fn print(&self) {
        let mut calls: Vec<&str> = self.0.keys().map(|k| k.0).collect();
        calls.dedup();
        for call in calls {
            let mine = self.0.iter().filter(|(k, _)| k.0 == call);
            let all: u64 = mine.clone().map(|(_, n)| n).sum();
            let each: Vec<String> = mine.map(|((_, number), n)| format!("{}: {}", number, n)).collect();
            println!("{} {}: {}", call, all, each.join(", "));
        }
    }
}

/// Calls with an output of so many bytes between guards, and holds every byte of it to the answer.
fn called(room: usize, call: &dyn Fn(&mut [u8]) -> Result<usize, Refusal>) -> (Result<usize, Refusal>, Vec<u8>) {
    let mut out = Guarded::new(room);
    let r = call(out.part());
    match r {
        Ok(n) => {
            assert!(n <= room && out.untouched_behind(n), "bytes behind the output were changed");
            let made = out.part()[..n].to_vec();
            (r, made)
        }
        Err(_) => {
            assert!(out.untouched_behind(0), "a refused call changed its output");
            (r, Vec::new())
        }
    }
}

fn sum(b: &[u8]) -> u8 {
    b.iter().fold(0, |s, b| s.wrapping_add(*b))
}

fn word(b: &[u8], at: usize) -> u32 {
    u32::from_le_bytes([b[at], b[at + 1], b[at + 2], b[at + 3]])
}

/// What every refusal has to be: known, and with an index only where document 01 gives one.
fn is_sane(r: Refusal, file: &[u8], numbers: &[u32]) {
    assert!(numbers.contains(&r.number), "{}", r);
    let count = if file.len() < 60 { 0 } else { word(file, 4) };
    match r.number {
        4..=9 => assert!(r.index < count, "{}", r),
        10 => assert_eq!(r.index, count, "{}", r),
        _ => assert_eq!(r.index, 0, "{}", r),
    }
}

/// The file's arity list without its records, as reading takes it.
fn list_of(file: &[u8]) -> Vec<u8> {
    let (records, arities) = (word(file, 4), word(file, 12));
    let mut list = file[..60].to_vec();
    list[4..8].copy_from_slice(&0u32.to_le_bytes());
    list[16..20].copy_from_slice(&60u32.to_le_bytes());
    list[24..28].copy_from_slice(&(60 + 8 * arities).to_le_bytes());
    list.extend(&file[60 + 24 * records as usize..]);
    list
}

/// An accepted file's table is read back, and what is read gives the table again.
fn read_back(file: &[u8], table: &[u8], counts: &mut Counts) {
    let list = list_of(file);
    let (r, back) = called(file.len() + 8 * table.len() + 256, &|o| acpi_table::read(&list, table, o));
    counts.add("read", &r);
    assert!(r.is_ok(), "{:?}", r);
    let (_, again) = called(table.len(), &|o| encode(&back, o));
    assert_eq!(again, table, "what was read gives another table");
    assert_eq!(called(back.len(), &|o| acpi_table::normalise(file, o)).1, back, "reading gives another file than normalising");
}

fn file_case(file: &[u8], room: usize, counts: &mut Counts) {
    let before = file.to_vec();
    let first = check(file);
    counts.add("check", &first);
    let (r, table) = called(room, &|o| encode(file, o));
    counts.add("encode", &r);
    match (first, r) {
        (Err(a), b) => {
            is_sane(a, file, &[1, 2, 3, 4, 5, 6, 7, 8, 9, 10]);
            assert_eq!(b, Err(a), "encode and check differ");
        }
        (Ok(()), Err(b)) => is_sane(b, file, &[11, 12, 14]),
        (Ok(()), Ok(n)) => {
            assert_eq!((sum(&table), word(&table, 4) as usize, table.len()), (0, n, n));
            assert_eq!([&table[..4], &table[8..9], &table[10..36]].concat(), file[28..59]);
            assert_eq!(called(n, &|o| encode(file, o)), (Ok(n), table.clone()));
            assert_eq!(called(n - 1, &|o| encode(file, o)).0, Err(Refusal { number: 14, index: 0 }));
            read_back(file, &table, counts);
        }
    }
    assert_eq!(file, before, "the input was changed");
}

/// Some bytes are put elsewhere: a bit, a byte, a number, a record, the end.
fn damage(by: &mut Chance, b: &mut Vec<u8>) {
    if b.is_empty() {
        return b.push(by.next() as u8);
    }
    let at = by.index(b.len());
    match by.below(12) {
        0 => b[at] ^= 1 << by.below(8),
        1 => b[at] = by.next() as u8,
        2 => b[at] = b[at].wrapping_add(1),
        3 => b[at] = b[at].wrapping_sub(1),
        4 => b.truncate(at),
        5 => {
            let n = by.index(30);
            b.extend(by.bytes(n));
        }
        6 => {
            b.remove(at);
        }
        7 => b.insert(at, by.next() as u8),
        8 => records(by, b),
        9 => field(by, b),
        10 => number(by, b),
        _ => {
            let (n, to) = (by.index(32).min(b.len() - at), by.index(b.len()));
            let copy = b[at..at + n].to_vec();
            b.splice(to..(to + n).min(b.len()), copy);
        }
    }
}

/// The records that the header counts and the file holds.
fn count(b: &[u8]) -> usize {
    if b.len() < 60 {
        0
    } else {
        (word(b, 4) as usize).min((b.len() - 60) / 24)
    }
}

/// Two records change places.
fn records(by: &mut Chance, b: &mut [u8]) {
    let n = count(b);
    if n < 2 {
        return;
    }
    let (i, j) = (60 + 24 * by.index(n), 60 + 24 * by.index(n));
    for k in 0..24 {
        b.swap(i + k, j + k);
    }
}

/// A field of a record is another: kind, `a`, child count, `x`, start or length of its text.
fn field(by: &mut Chance, b: &mut [u8]) {
    let n = count(b);
    if n == 0 {
        return;
    }
    let at = 60 + 24 * by.index(n);
    let (off, width) = by.pick(&[(0, 2), (0, 2), (2, 2), (4, 4), (4, 4), (8, 8), (16, 4), (20, 4)]);
    let now = b[at + off..at + off + width].iter().rev().fold(0u64, |s, b| s << 8 | *b as u64);
    let next = match (off, by.below(3)) {
        (0, _) => by.pick(&made::kinds()) as u64,
        (_, 0) => now.wrapping_add(1),
        (_, 1) => now.wrapping_sub(1),
        _ => by.number(u64::MAX),
    };
    b[at + off..at + off + width].copy_from_slice(&next.to_le_bytes()[..width]);
}

/// A number of four bytes, often in a header, is another.
fn number(by: &mut Chance, b: &mut [u8]) {
    if b.len() < 64 {
        return;
    }
    let at = if by.one_in(2) { 4 * by.index(15) } else { by.index(b.len() - 3) };
    let now = word(b, at);
    let next = match by.below(3) {
        0 => now.wrapping_add(1),
        1 => now.wrapping_sub(1),
        _ => by.number(u64::MAX) as u32,
    };
    b[at..at + 4].copy_from_slice(&next.to_le_bytes());
}

/// The header's numbers are made those of sections that touch again, so that more than the layout is looked at.
fn mend(b: &mut [u8]) {
    if b.len() < 60 {
        return;
    }
    let arities = 60 + 24 * count(b);
    let entries = (word(b, 12) as usize).min((b.len() - arities) / 8);
    let pool = arities + 8 * entries;
    for (at, n) in [(4, count(b)), (8, 60), (12, entries), (16, arities), (20, b.len() - pool), (24, pool)] {
        b[at..at + 4].copy_from_slice(&(n as u32).to_le_bytes());
    }
    b[..4].copy_from_slice(b"TERM");
    b[59] = 0;
}

/// Files that are accepted, with the length of their tables: the example, and some of every kind.
fn sound() -> Vec<(Made, Vec<u8>, usize)> {
    let mut all = Vec::new();
    let mut out = vec![0; 1 << 20];
    for seed in 0..600 {
        let m = made::made(1000 + seed, [1, 2, 4, 8, 16, 40][seed as usize % 6]);
        let file = m.file(seed % 2 == 0);
        let n = encode(&file, &mut out).unwrap_or_else(|r| panic!("seed {}: {}", seed, r));
        if n < 6000 {
            all.push((m, file, n));
        }
    }
    for levels in [40, 61] {
        let (m, file) = deep(levels);
        let n = encode(&file, &mut out).unwrap();
        all.push((m, file, n));
    }
    all
}

fn record(kind: u16, kids: u32, text: &[u8]) -> Record {
    Record { kind, a: 0, kids, x: 0, text: text.to_vec() }
}

fn made_of(records: Vec<Record>) -> Made {
    Made { identity: [0; 31], arities: Vec::new(), records }
}

/// So many Scopes, each in the one before, and in the last a Name of a UUID.
fn deep(levels: usize) -> (Made, Vec<u8>) {
    let mut records = vec![record(0x10, 1, b"FOO_"); levels];
    records.push(record(0x08, 1, b"FOO_"));
    records.push(record(0xE002, 0, b"00112233-4455-6677-8899-aabbccddeeff"));
    let m = made_of(records);
    let file = m.file(true);
    (m, file)
}

/// Files at the limits that chance does not come near.
#[test]
fn limits() {
    let mut counts = Counts::default();
    let refused = |number, index| Err(Refusal { number, index });
    let mut case = |file: &[u8], answer| {
        let r = called(0, &|o| encode(file, o)).0;
        counts.add("encode", &r);
        assert_eq!(r, answer);
    };
    case(&deep(61).1, refused(14, 0));
    case(&deep(62).1, refused(11, 0));
    case(&deep(63).1, refused(9, 64));
    case(&made_of(vec![record(0xA1, 0, b""); 65_536]).file(false), refused(14, 0));
    case(&made_of(vec![record(0xA1, 0, b""); 65_537]).file(false), refused(2, 0));
    let mut many = made_of(Vec::new());
    many.arities = vec![(Vec::new(), 0); 4097];
    case(&many.file(false), refused(2, 0));
    // 5,000 Names of one string of 60,000 bytes: a table of 300 MB.
    let name = [record(0x08, 1, b"FOO_"), record(0x0D, 0, &[b'x'; 60_000])];
    let large = Made { records: name.to_vec(), ..made_of(Vec::new()) }.file(false);
    let mut file = large[..60].to_vec();
    (0..5000).for_each(|_| file.extend(&large[60..108]));
    file.extend(&large[108..]);
    file[4..8].copy_from_slice(&10_000u32.to_le_bytes());
    mend(&mut file);
    case(&file, refused(12, 0));
    counts.print();
}

#[test]
fn files() {
    let mut by = Chance(8);
    let mut counts = Counts::default();
    let example = include_bytes!("../../examples/whole.term").to_vec();
    let sound = sound();
    for (_, file, n) in &sound {
        file_case(file, *n, &mut counts);
    }
    for _ in 0..runs() {
        let (mut file, n) = if by.one_in(20) {
            (example.clone(), 42)
        } else {
            let s = &sound[by.index(sound.len())];
            (s.1.clone(), s.2)
        };
        for _ in 0..1 + by.index(3) {
            damage(&mut by, &mut file);
        }
        if !by.one_in(6) {
            mend(&mut file);
        }
        let room = if by.one_in(8) { by.index(n + 64) } else { n + 256 };
        file_case(&file, room, &mut counts);
    }
    counts.print();
}

/// A table is damaged; where that is to be more than a wrong sum, length and checksum are made right again.
#[test]
fn tables() {
    let mut by = Chance(9);
    let mut counts = Counts::default();
    let sound = sound();
    for _ in 0..runs() {
        let (m, file, n) = &sound[by.index(sound.len())];
        let mut table = called(*n, &|o| encode(file, o)).1;
        let mut list = m.list();
        for _ in 0..by.index(3) {
            damage(&mut by, &mut table);
        }
        if by.one_in(8) {
            damage(&mut by, &mut list);
        }
        if !by.one_in(8) && 36 <= table.len() {
            let length = table.len() as u32;
            table[4..8].copy_from_slice(&length.to_le_bytes());
            table[9] = table[9].wrapping_sub(sum(&table));
        }
        let before = (table.clone(), list.clone());
        let (r, back) = called(list.len() + 8 * table.len() + 256, &|o| acpi_table::read(&list, &table, o));
        counts.add("read", &r);
        match r {
            Err(r) => is_sane(r, &[], &[1, 2, 3, 20, 12, 21, 22, 14]),
            Ok(_) => assert_eq!(called(table.len(), &|o| encode(&back, o)).1, table, "what was read gives another table"),
        }
        assert_eq!((table, list), before, "an input was changed");
    }
    counts.print();
}

/// What the edits do, said once more: length, checksum and bytes beside a buffer.
#[derive(Clone, Debug, PartialEq)]
struct Model {
    buffer: Vec<u8>,
    length: u32,
    checksum: u8,
}

impl Model {
    fn is_sound(&self) -> bool {
        let n = self.length as usize;
        36 <= n && n <= self.buffer.len() && word(&self.buffer, 4) == self.length && self.buffer[9] == self.checksum
    }

    fn seal(&mut self, n: usize) {
        self.buffer[4..8].copy_from_slice(&(n as u32).to_le_bytes());
        self.buffer[9] = 0;
        self.buffer[9] = 0u8.wrapping_sub(sum(&self.buffer[..n]));
        (self.length, self.checksum) = (n as u32, self.buffer[9]);
    }

    fn append(&mut self, piece: &[u8]) -> u32 {
        let n = self.length as usize;
        if !self.is_sound() {
            return 20;
        }
        if self.buffer.len() < n + piece.len() {
            return 14;
        }
        self.buffer[n..n + piece.len()].copy_from_slice(piece);
        self.seal(n + piece.len());
        0
    }

    fn write(&mut self, offset: u64, piece: &[u8]) -> u32 {
        let n = self.length as usize;
        if !self.is_sound() {
            return 20;
        }
        let (from, to) = (offset as u128, offset as u128 + piece.len() as u128);
        let inside = to <= n as u128 && (piece.is_empty() || !(4..8).chain(9..10).any(|i| from <= i && i < to));
        if !inside {
            return 23;
        }
        self.buffer[from as usize..to as usize].copy_from_slice(piece);
        self.seal(n);
        0
    }

    fn renew(&mut self, identity: &[u8; 31], length: u32) -> u32 {
        let n = length as usize;
        if n < 36 {
            return 20;
        }
        if 268_435_455 < n {
            return 12;
        }
        if self.buffer.len() < n {
            return 14;
        }
        self.buffer[..n].fill(0);
        self.buffer[..4].copy_from_slice(&identity[..4]);
        self.buffer[8] = identity[4];
        self.buffer[10..36].copy_from_slice(&identity[5..]);
        self.seal(n);
        0
    }
}

/// One edit on the table and on the model; the numbers are to be the same.
fn edit(by: &mut Chance, m: &mut Model, g: &mut Guarded, counts: &mut Counts) {
    let n = by.pick(&[0, 1, 2, 3, 5, 8, 40]);
    let piece = by.bytes(n);
    let near = m.length as u64;
    let offset = match by.below(3) {
        0 => by.below(40),
        1 => (near + by.below(6)).wrapping_sub(by.below(48)),
        _ => by.number(u64::MAX),
    };
    let numbered = |r: &Result<(), Refusal>| r.map_or_else(|r| r.number, |_| 0);
    let (length, checksum) = (m.length, m.checksum);
    let (ours, theirs);
    if by.one_in(10) {
        let mut id = [0; 31];
        id.copy_from_slice(&by.bytes(31));
        let length = by.pick(&[0, 35, 36, 37, 64, 100, 268_435_455, 268_435_456, u32::MAX]);
        let r = Table::new(&id, length, g.part()).map(|t| (t.len(), t.checksum()));
        theirs = m.renew(&id, length);
        ours = numbered(&r.map(|_| ()));
        counts.add("new", &r);
        if let Ok(now) = r {
            assert_eq!(now, (m.length, m.checksum));
        }
    } else {
        let mut t = Table::from_parts(g.part(), length, checksum);
        let r = if by.one_in(2) {
            theirs = m.append(&piece);
            let r = t.append(&piece);
            counts.add("append", &r);
            r
        } else {
            theirs = m.write(offset, &piece);
            let r = t.write(offset, &piece);
            counts.add("write", &r);
            r
        };
        ours = numbered(&r);
        assert_eq!((t.len(), t.checksum()), (m.length, m.checksum));
    }
    assert_eq!(ours, theirs);
    assert!(g.part() == &m.buffer[..] && g.guards_hold(), "the buffer differs");
}

#[test]
fn edits() {
    let mut by = Chance(10);
    let mut counts = Counts::default();
    for _ in 0..runs() / 10 {
        let room = by.index(160);
        let mut m = Model { buffer: by.bytes(room), length: 0, checksum: 0 };
        let mut id = [0; 31];
        id.copy_from_slice(&by.bytes(31));
        let n = 36 + by.below(40) as u32;
        m.renew(&id, n);
        let mut g = Guarded::of(&m.buffer);
        for _ in 0..10 {
            match by.below(12) {
                0 => m.length = by.number(u32::MAX as u64) as u32,
                1 => m.checksum = by.next() as u8,
                2 if room > 0 => {
                    let at = by.index(room);
                    m.buffer[at] = by.next() as u8;
                    g.part()[at] = m.buffer[at];
                }
                3..=6 if 10 <= room => (m.length, m.checksum) = (word(&m.buffer, 4), m.buffer[9]),
                _ => (),
            }
            edit(&mut by, &mut m, &mut g, &mut counts);
        }
    }
    counts.print();
}
