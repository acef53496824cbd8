//! docs/DIFFERENCES.md, run: each smallest input on the crate, which panics or writes the bytes said there, and on ours, which
//! refuses it with the number said there. The two differences of accepted input are held in `compare`.
use crate::cases::{integer, local, named, path, returned, span, string};
use crate::kinds::*;
use crate::library;
use crate::tree::{file, Term, Tree};
use acpi_tables::aml::{self, AddressSpace, FieldAccessType, FieldEntry, FieldLockRule, FieldUpdateRule};
use acpi_tables::sdt::Sdt;
use acpi_tables::{Aml, CREATOR_ID, CREATOR_REVISION};
use std::panic::{catch_unwind, AssertUnwindSafe};

enum Theirs {
    Panics,
    /// In hexadecimal, and what the bytes begin with.
    Writes(&'static str),
}

use Theirs::*;

struct Known {
    name: &'static str,
    object: Box<dyn Fn() -> Vec<u8>>,
    theirs: Theirs,
    tree: Tree,
    number: u32,
}

fn written(object: &dyn Aml) -> Vec<u8> {
    let mut bytes = Vec::new();
    object.to_aml_bytes(&mut bytes);
    bytes
}

fn known(name: &'static str, object: impl Fn() -> Vec<u8> + 'static, theirs: Theirs, terms: Vec<Term>, number: u32) -> Known {
    Known { name, object: Box::new(object), theirs, tree: Tree::of(terms), number }
}

/// Where overflow is checked the crate panics on it, elsewhere it wraps.
fn overflow(wrapped: &'static str) -> Theirs {
    if cfg!(debug_assertions) {
        Panics
    } else {
        Writes(wrapped)
    }
}

fn segments(n: usize) -> String {
    vec!["FOO_"; n].join(".")
}

// ── Texts

fn of_path(name: &'static str, text: String, theirs: Theirs) -> Known {
    let term = Term::new(CALL).text(&text);
    known(name, move || written(&aml::Path::new(&text)), theirs, vec![term], 6)
}

fn texts() -> Vec<Known> {
    let eisa = |text: &'static str| (move || written(&aml::EISAName::new(text)), vec![returned(Term::new(EISA).text(text))]);
    let uuid = |text: &'static str| (move || written(&aml::Uuid::new(text)), vec![returned(Term::new(UUID).text(text))]);
    let (small, small_terms) = eisa("pnp0501");
    let (at, at_terms) = eisa("@@@0501");
    let (digit, digit_terms) = eisa("PN10501");
    let (short, short_terms) = eisa("PNP050");
    let (cut, cut_terms) = uuid("33DB4D5B-1FF7-401C-9657-7441C03DD76");
    let (dash, dash_terms) = uuid("33DB4D5B+1FF7-401C-9657-7441C03DD766");
    let text = |text: &'static str| (move || written(&String::from(text)), vec![named("FOO_", string(text))]);
    let (null, null_terms) = text("\0");
    let (umlaut, umlaut_terms) = text("\u{e4}");
    vec![
        known("EISA id of small letters", small, Writes("0C C5 F0 05 01"), small_terms, 6),
        known("EISA id of @", at, Writes("0C 00 00 05 01"), at_terms, 6),
        known("EISA id with a digit for a letter", digit, Panics, digit_terms, 6),
        known("EISA id of 6", short, Panics, short_terms, 6),
        known("UUID of 35", cut, Panics, cut_terms, 6),
        known("UUID without a hyphen", dash, Panics, dash_terms, 6),
        of_path("segment led by a digit", "0abc".into(), Writes("30 61 62 63")),
        of_path("segment of three", "FOO".into(), Panics),
        of_path("empty path", String::new(), Panics),
        of_path("a root behind the root", "\\\\FOO".into(), Writes("5C 5C 46 4F 4F")),
        of_path("path of 256", segments(256), Writes("2F 00 46 4F 4F 5F")),
        known("string with 00", null, Writes("0D 00 00"), null_terms, 6),
        known("string beyond 7F", umlaut, Writes("0D C3 A4 00"), umlaut_terms, 6),
        known(
            "field entry's name",
            || written(&field(vec![FieldEntry::Named(*b"0abc", 1)])),
            Writes("5B 81 0B 46 4F 4F 5F 00 30 61 62 63 01"),
            vec![Term::new(FIELD).text("FOO_").holding(Term::new(NAMED).text("0abc").x(1))],
            6,
        ),
    ]
}

fn field(entries: Vec<FieldEntry>) -> aml::Field {
    let name = aml::Path::new("FOO_");
    aml::Field::new(name, FieldAccessType::Any, FieldLockRule::NoLock, FieldUpdateRule::Preserve, entries)
}

// ── Numbers

fn word_space(name: &'static str, min: u16, max: u16, wrapped: &'static str) -> Known {
    let term = Term::new(SPACE16).a(2).text(span(2, min.into(), max.into(), 0));
    let object = move || written(&AddressSpace::new_bus_number(min, max));
    known(name, object, overflow(wrapped), vec![returned(Term::new(TEMPLATE).holding(term))], 5)
}

fn numbers() -> Vec<Known> {
    vec![
        known("Local 8", || written(&aml::Local(8)), Panics, vec![returned(local(8))], 5),
        known("Arg 7", || written(&aml::Arg(7)), Panics, vec![returned(Term::new(ARG).a(7))], 5),
        known(
            "Method of 8 arguments",
            || written(&aml::Method::new("FOO_".into(), 8, false, vec![])),
            Writes("14 06 46 4F 4F 5F 00"),
            vec![Term::new(METHOD).text("FOO_").a(8)],
            5,
        ),
        known(
            "Mutex of level 16",
            || written(&aml::Mutex::new("FOO_".into(), 16)),
            Writes("5B 01 46 4F 4F 5F 10"),
            vec![Term::new(MUTEX).text("FOO_").a(16)],
            5,
        ),
        known(
            "field entry of 2^28 bits",
            || written(&field(vec![FieldEntry::Reserved(1 << 28)])),
            Writes("5B 81 0B 46 4F 4F 5F 00 00 C0 00 00 00"),
            vec![Term::new(FIELD).text("FOO_").holding(Term::new(RESERVED).x(1 << 28))],
            5,
        ),
        word_space("word space 0-65535", 0, 0xFFFF, "88 0D 00 02 0C 00 00 00 00 00 FF FF 00 00 00 00"),
        word_space("word space 2-0", 2, 0, "88 0D 00 02 0C 00 00 00 02 00 00 00 00 00 FF FF"),
    ]
}

// ── Children

fn nested_scopes(n: usize) -> (Vec<u8>, Term) {
    let mut bytes = Vec::new();
    let mut term = Term::new(SCOPE).text("FOO_");
    for level in 0..n {
        bytes = aml::Scope::raw("FOO_".into(), bytes);
        if level > 0 {
            term = Term::new(SCOPE).text("FOO_").holding(term);
        }
    }
    (bytes, term)
}

fn children() -> Vec<Known> {
    vec![
        known(
            "package of 256",
            || written(&aml::Package::new(vec![&aml::ZERO; 256])),
            Writes("12 43 10 00 00"),
            vec![returned(Term::new(PACKAGE).with(vec![integer(0); 256]))],
            7,
        ),
        known(
            "a call that no arity lists",
            || written(&aml::MethodCall::new("FOO_".into(), vec![&aml::ONE])),
            Writes("46 4F 4F 5F 01"),
            vec![path("FOO_").holding(integer(1))],
            7,
        ),
        known(
            "a Device returned",
            || written(&aml::Return::new(&aml::Device::new("FOO_".into(), vec![]))),
            Writes("A4 5B 82 05 46 4F 4F 5F"),
            vec![returned(Term::new(DEVICE).text("FOO_"))],
            8,
        ),
        known(
            "an integer in a list",
            || written(&aml::Scope::new("FOO_".into(), vec![&aml::ONE])),
            Writes("10 06 46 4F 4F 5F 01"),
            vec![Term::new(SCOPE).text("FOO_").holding(integer(1))],
            8,
        ),
        known("65 levels", || nested_scopes(65).0, Writes("10"), vec![nested_scopes(65).1], 9),
        known(
            "65,537 records",
            || vec![1; 65_537].iter().flat_map(|_: &u8| written(&aml::Path::new("FOO_"))).collect(),
            Writes("46 4F 4F 5F 46 4F 4F 5F"),
            vec![path("FOO_"); 65_537],
            2,
        ),
    ]
}

// ── Running them

fn bytes_of_hex(text: &str) -> Vec<u8> {
    text.split(' ').map(|pair| u8::from_str_radix(pair, 16).expect("hexadecimal pairs")).collect()
}

fn theirs_is(known: &Known) -> Result<String, String> {
    let outcome = catch_unwind(AssertUnwindSafe(|| (known.object)()));
    match (&known.theirs, outcome) {
        (Panics, Err(_)) => Ok("the crate panics".into()),
        (Panics, Ok(bytes)) => Err(format!("the crate does not panic but writes {bytes:02X?}")),
        (Writes(_), Err(_)) => Err("the crate panics".into()),
        (Writes(hex), Ok(bytes)) if bytes.starts_with(&bytes_of_hex(hex)) => Ok(format!("the crate writes {hex}")),
        (Writes(hex), Ok(bytes)) => Err(format!("the crate writes {bytes:02X?} and not {hex}")),
    }
}

fn ours_is(known: &Known) -> Result<(), String> {
    let mut out = vec![0xA5; 1_000_000];
    let answer = library::encode(&file(&known.tree), &mut out);
    if answer.number != known.number || answer.length != 0 || out.iter().any(|&b| b != 0xA5) {
        return Err(format!("ours answers {answer:?} and not {}", known.number));
    }
    Ok(())
}

/// Edits that the crate takes and ours refuses.
fn edits() -> Result<(), String> {
    let mut identity = [0; 31];
    identity[23..27].copy_from_slice(&CREATOR_ID);
    identity[27..31].copy_from_slice(&CREATOR_REVISION);
    if catch_unwind(|| Sdt::new([0; 4], 35, 0, [0; 6], [0; 8], 0)).is_ok() {
        return Err("the crate makes a table of 35".into());
    }
    for (offset, byte) in [(4, 0x77), (5, 0x77), (6, 0x77), (7, 0x77), (9, 0x77)] {
        let mut table = Sdt::new([0; 4], 36, 0, [0; 6], [0; 8], 0);
        let mut buffer = table.as_slice().to_vec();
        let checksum = buffer[9];
        table.write_u8(offset, byte);
        if (table.as_slice()[offset] == byte) != (offset != 9) {
            return Err(format!("the crate's byte {offset} is {:02X}", table.as_slice()[offset]));
        }
        let edit = library::write(&mut buffer, 36, checksum, offset as u64, &[byte]);
        if edit.number != 23 {
            return Err(format!("ours answers {edit:?} to a write at {offset}"));
        }
    }
    Ok(())
}

/// Runs them all and prints what was seen.
pub fn run() -> bool {
    let all: Vec<Known> = texts().into_iter().chain(numbers()).chain(children()).collect();
    let mut wrong = 0;
    for known in &all {
        match theirs_is(known).and_then(|seen| ours_is(known).map(|()| seen)) {
            Ok(seen) => println!("{}: {seen}; here refused {}", known.name, known.number),
            Err(why) => {
                println!("WRONG {}: {why}", known.name);
                wrong += 1;
            }
        }
    }
    match edits() {
        Ok(()) => println!("edits of the length, of the checksum, and a table of 35: as docs/DIFFERENCES.md has it"),
        Err(why) => {
            println!("WRONG edits: {why}");
            wrong += 1;
        }
    }
    println!("known differences {}, wrong {wrong}", all.len() + 1);
    wrong == 0
}
