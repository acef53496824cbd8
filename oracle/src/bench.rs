//! How long a table takes: ours from the term file, the crate from the same file and from objects that stand already, and a
//! copy of the same bytes. The functions of a measurement are public, for a bench that holds others beside them in one process.
use crate::cases::{integer, local, named, path, returned, span, string};
use crate::compare::{empty_table, table_of};
use crate::kinds::*;
use crate::library;
use crate::objects::{bytes_of, Arena, Maker, Manner};
use crate::tree::{file, File, Term, Tree};
use acpi_tables::Aml;
use std::time::Duration;

// ── A machine's tables

fn method(name: &str, arguments: u16, list: Vec<Term>) -> Term {
    Term::new(METHOD).text(name).a(arguments).with(list)
}

fn memory(kind: u16, bytes: usize, base: u64) -> Term {
    Term::new(kind).x(1).text(span(bytes, base, base + 0xFFF, 0))
}

fn resources(n: u64) -> Term {
    let low = 0xC000_0000 + 0x1000 * (n % 0x1000);
    Term::new(TEMPLATE).with(vec![
        memory(SPACE64, 8, 0x40_0000_0000 + 0x1000 * n),
        memory(SPACE64, 8, 0x50_0000_0000 + 0x1000 * n),
        memory(SPACE32, 4, low),
        Term::new(MEMORY32).a(1).x(low | 0x1000 << 32),
        Term::new(IO).text([0, 0x10, 0, 0x10, 1, 8]),
        Term::new(INTERRUPT).a(1).x(n % 1024),
        Term::new(INTERRUPT).a(9).x(n % 1024 + 1),
    ])
}

fn eject() -> Term {
    let call = path("PCEJ").with(vec![path("BNUM"), path("_SUN")]);
    method("_EJ0", 1, vec![Term::new(ACQUIRE).text("BLCK").a(0xFFFF), call, Term::new(RELEASE).text("BLCK")])
}

fn status() -> Term {
    let test = Term::new(0x93).with(vec![Term::new(0x7B).with(vec![path("PCIU"), integer(4), local(0)]), integer(4)]);
    method("_STA", 0, vec![
        Term::new(IF).with(vec![test, returned(integer(0x0F))]),
        Term::new(ELSE).holding(returned(integer(0))),
    ])
}

fn device(n: u64, slot: u64, data: usize) -> Term {
    let mut list = vec![
        named("_ADR", integer(slot << 16)),
        named("_SUN", integer(slot)),
        named("_DDN", string(format!("PCI device {slot} of bus {n}"))),
        named("_CRS", resources(8 * n + slot)),
        status(),
        eject(),
    ];
    if data > 0 {
        let bytes: Vec<u8> = (0..data).map(|i| (i as u64 * (slot + 3) + n) as u8).collect();
        list.push(named("EDID", Term::new(BUFFER).text(bytes).holding(integer(data as u64))));
    }
    Term::new(DEVICE).text(format!("S{slot:03X}")).with(list)
}

fn routes() -> Term {
    let route = |pin: u64| {
        Term::new(PACKAGE).with(vec![integer((pin / 4) << 16 | 0xFFFF), integer(pin % 4), path("GSI0"), integer(0)])
    };
    Term::new(PACKAGE).with((0..8).map(route).collect())
}

fn control() -> Term {
    let guard = Term::new(0x93).with(vec![Term::new(ARG), Term::new(UUID).text("33DB4D5B-1FF7-401C-9657-7441C03DD766")]);
    let word = |name: &str, at: u64| Term::new(CREATE_DWORD_FIELD).text(name).with(vec![Term::new(ARG).a(3), integer(at)]);
    let or = |bits: u64| Term::new(0x7D).with(vec![path("CDW1"), integer(bits), path("CDW1")]);
    let unknown = Term::new(0x9293).with(vec![Term::new(ARG).a(1), integer(1)]);
    method("_OSC", 4, vec![
        Term::new(IF).with(vec![
            guard,
            word("CDW1", 0),
            word("CDW3", 8),
            Term::new(STORE).with(vec![path("CDW3"), local(0)]),
            Term::new(IF).with(vec![unknown, or(8)]),
            Term::new(STORE).with(vec![local(0), path("CDW3")]),
        ]),
        Term::new(ELSE).holding(or(4)),
        returned(Term::new(ARG).a(3)),
    ])
}

fn region() -> Vec<Term> {
    let entry = |name: &str| Term::new(NAMED).text(name).x(32);
    vec![
        Term::new(OP_REGION).text("PCST").a(1).with(vec![integer(0xAE00), integer(8)]),
        Term::new(FIELD).text("PCST").a(3).with(vec![entry("PCIU"), entry("PCID"), Term::new(RESERVED).x(64), entry("B0EJ")]),
        Term::new(MUTEX).text("BLCK"),
    ]
}

fn bus(n: u64, data: usize) -> Term {
    let mut list = vec![
        named("_HID", Term::new(EISA).text("PNP0A08")),
        named("_CID", Term::new(EISA).text("PNP0A03")),
        named("_UID", integer(n)),
        named("BNUM", integer(n)),
        named("_CRS", resources(n)),
        named("_PRT", routes()),
        control(),
    ];
    list.extend(region());
    list.extend((0..4).map(|slot| device(n, slot, data)));
    Term::new(DEVICE).text(format!("P{n:03X}")).with(list)
}

/// A machine of so many PCI buses of four devices, each with so many bytes of data.
fn machine(buses: u64, data: usize) -> Tree {
    let list = (0..buses).map(|n| bus(n, data)).collect();
    let mut tree = Tree::of(vec![Term::new(SCOPE).text("\\_SB_").with(list)]).with_arity("PCEJ", 2);
    tree.identity[..5].copy_from_slice(b"DSDT\x02");
    tree
}

/// The term file of a machine whose table has about so many bytes.
pub fn machine_file(bytes: usize, data: usize) -> Vec<u8> {
    let len = |buses| encoded(&file(&machine(buses, data))).len();
    let one = len(2) - len(1);
    file(&machine(((bytes + one / 2) / one) as u64, data))
}

/// The arity list of every machine, as reading takes it.
fn arity_list() -> Vec<u8> {
    file(&Tree { terms: Vec::new(), ..machine(0, 0) })
}

// ── What is measured

/// Room for any file or table here.
const MOST: usize = 16_000_000;

pub fn encoded(file: &[u8]) -> Vec<u8> {
    let mut out = vec![0; MOST];
    let answer = library::encode(file, &mut out);
    assert_eq!(answer.number, 0, "refused at {}", answer.index);
    out.truncate(answer.length as usize);
    out
}

/// Our table from the file.
pub fn ours(file: &[u8], out: &mut [u8]) -> usize {
    library::encode(file, out).length as usize
}

/// Our term file of the table.
pub fn ours_back(list: &[u8], table: &[u8], out: &mut [u8]) -> usize {
    library::read(list, table, out).length as usize
}

const PLAIN: Manner = Manner { mended: false, varied: false };

/// The crate's objects of the file.
pub fn crate_objects<'a>(file: &[u8], arena: &'a Arena) -> Vec<&'a dyn Aml> {
    Maker::new(file, arena, PLAIN).objects()
}

/// The crate's table of objects that stand: their bytes, then `Sdt`.
pub fn crate_table(file: &[u8], objects: &[&dyn Aml]) -> Vec<u8> {
    table_of(File::new(file).identity(), &bytes_of(objects))
}

/// The crate's table from the file: it makes its objects and writes them.
pub fn crate_from_file(file: &[u8]) -> Vec<u8> {
    let arena = Arena::new();
    let objects = crate_objects(file, &arena);
    crate_table(file, &objects)
}

/// The table in 16 appends, each of which renews its length and checksum, in the buffer; its checksum.
pub fn ours_appended(table: &[u8], buffer: &mut [u8]) -> u8 {
    let mut edit = library::new(&[0; 31], 36, buffer);
    for piece in pieces(table) {
        edit = library::append(buffer, edit.length, edit.checksum, piece);
    }
    assert_eq!((edit.number, edit.length as usize), (0, table.len()));
    edit.checksum
}

/// The same with the crate's `Sdt`.
pub fn crate_appended(table: &[u8]) -> u8 {
    let mut made = empty_table(&[0; 31], 36);
    for piece in pieces(table) {
        made.append_slice(piece);
    }
    made.as_slice()[9]
}

fn pieces(table: &[u8]) -> std::slice::Chunks<'_, u8> {
    table[36..].chunks((table.len() - 36 + 15) / 16)
}

// ── Measuring

/// Keeps the compiler from leaving a result out.
fn used<T>(value: T) {
    // Reads the value in place; it is not dropped twice, since only the copy is forgotten.
    unsafe { std::mem::forget(std::ptr::read_volatile(&value)) };
}

/// The time that this process was given, so that others on the machine are not measured.
fn now() -> Duration {
    #[repr(C)]
    struct Time {
        seconds: i64,
        nanoseconds: i64,
    }
    extern "C" {
        fn clock_gettime(clock: i32, time: *mut Time) -> i32;
    }
    const PROCESS: i32 = 2;
    let mut time = Time { seconds: 0, nanoseconds: 0 };
    // The C library's function writes to the struct that it is lent, which is laid out as on 64-bit Linux.
    assert_eq!(unsafe { clock_gettime(PROCESS, &mut time) }, 0);
    Duration::new(time.seconds as u64, time.nanoseconds as u32)
}

fn nanoseconds(turns: u32, work: &mut dyn FnMut()) -> f64 {
    let start = now();
    for _ in 0..turns {
        work();
    }
    (now() - start).as_secs_f64() * 1e9 / f64::from(turns)
}

const ROUNDS: usize = 15;

/// The least time of each work, in turns, so that all meet the same machine.
fn least(bytes: usize, works: &mut [&mut dyn FnMut()]) -> Vec<f64> {
    let turns = (4_000_000 / bytes).max(2) as u32;
    let mut best = vec![f64::INFINITY; works.len()];
    for _ in 0..ROUNDS {
        for (i, work) in works.iter_mut().enumerate() {
            best[i] = best[i].min(nanoseconds(turns, work));
        }
    }
    best
}

/// Nanoseconds of each: encode; the crate from the file, from objects, and its terms alone; a copy; read; appends, ours and `Sdt`'s.
fn times(file: &[u8], table: &[u8]) -> Vec<f64> {
    let arena = Arena::new();
    let objects = crate_objects(file, &arena);
    let list = arity_list();
    let (mut out, mut copy, mut grown, mut back) = (vec![0; table.len()], vec![0; table.len()], vec![0; table.len()], vec![0; MOST]);
    let n = ours_back(&list, table, &mut back);
    assert!(encoded(&back[..n]) == table, "what was read gives another table");
    assert_eq!(ours_appended(table, &mut grown), crate_appended(table));
    least(table.len(), &mut [
        &mut || used(ours(file, &mut out)),
        &mut || used(crate_from_file(file).len()),
        &mut || used(crate_table(file, &objects).len()),
        &mut || used(bytes_of(&objects).len()),
        &mut || {
            copy.copy_from_slice(table);
            used(copy[table.len() / 2]);
        },
        &mut || used(ours_back(&list, table, &mut back)),
        &mut || used(ours_appended(table, &mut grown)),
        &mut || used(crate_appended(table)),
    ])
}

fn measure(name: &str, file: &[u8]) -> f64 {
    let table = encoded(file);
    let best = times(file, &table);
    let each = best[0] / table.len() as f64;
    println!("{name}: table {} bytes, {} records, {each:.2} ns a byte", table.len(), File::new(file).records());
    println!(
        "  encode/crate from the file {:.2}, encode/crate's table of objects {:.2}, encode/crate's terms alone {:.2}, encode/copy {:.1}",
        best[0] / best[1],
        best[0] / best[2],
        best[0] / best[3],
        best[0] / best[4]
    );
    println!("  read/encode {:.2}; 16 appends, ours/Sdt {:.2}", best[5] / best[0], best[6] / best[7]);
    each
}

/// Bytes of a device's buffer, so that 2 MB have fewer than 65,536 records.
pub const DATA: usize = 1600;

/// Prints the ratios, and how the cost of a byte grows with the table.
pub fn run() -> bool {
    println!("a ratio under 1: ours takes less time");
    // A file has at most 65,536 records: without data that is a table of less than half a megabyte.
    for (name, data, sizes) in [("with data", DATA, [20_000, 200_000, 2_000_000]), ("without data", 0, [20_000, 200_000, 400_000])] {
        let costs: Vec<f64> = sizes.iter().map(|&bytes| measure(name, &machine_file(bytes, data))).collect();
        println!("{name}: a byte of the largest costs {:.2} times one of the smallest", costs[2] / costs[0]);
    }
    true
}
