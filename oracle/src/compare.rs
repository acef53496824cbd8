//! One tree, two tables: ours from the term file, the crate's from its objects, every byte compared.
use crate::kinds::{rows, Children, Place, BODIES, CALL, POWER_RESOURCE, REGISTER, RETURN};
use crate::library;
use crate::objects::{terms_of, Arena, Maker, Manner};
use crate::tree::{file, File, Term, Tree};
use acpi_tables::sdt::Sdt;
use std::collections::{BTreeMap, BTreeSet};

/// Stands in the output before a call, and behind what a call may write.
const BEFORE: u8 = 0xA5;
const GUARD: usize = 64;

/// Over this many bytes the table is not also written byte by byte: that sums the table at every byte.
const BYTEWISE: usize = 1500;

#[derive(Default)]
pub struct Report {
    pub trees: u64,
    pub records: u64,
    pub table_bytes: u64,
    pub bytewise: u64,
    pub kinds: BTreeMap<(u16, Place), u64>,
    /// Kind, and bytes of its PkgLength.
    pub lengths: BTreeMap<(u16, usize), u64>,
    pub power_resources: u64,
    pub registers: u64,
    pub largest: usize,
    pub deepest: usize,
    pub arities: BTreeSet<usize>,
    pub differences: Vec<String>,
}

// ── The crate's table

fn array<const N: usize>(from: &[u8]) -> [u8; N] {
    let mut out = [0; N];
    out.copy_from_slice(from);
    out
}

/// The crate's table of 36 bytes; it has creator bytes of its own, so they are written over.
pub fn empty_table(identity: &[u8], length: u32) -> Sdt {
    let revision = u32::from_le_bytes(array(&identity[19..23]));
    let mut table =
        Sdt::new(array(&identity[0..4]), length, identity[4], array(&identity[5..11]), array(&identity[11..19]), revision);
    table.write_bytes(28, &identity[23..31]);
    table
}

pub fn table_of(identity: &[u8], terms: &[u8]) -> Vec<u8> {
    let mut table = empty_table(identity, 36);
    table.append_slice(terms);
    table.as_slice().to_vec()
}

/// The table where `Sdt` itself is the sink of the objects.
fn table_bytewise(file: &[u8], manner: Manner) -> Vec<u8> {
    let arena = Arena::new();
    let mut table = empty_table(File::new(file).identity(), 36);
    for object in Maker::new(file, &arena, manner).objects() {
        object.to_aml_bytes(&mut table);
    }
    table.as_slice().to_vec()
}

// ── The known differences

/// Mended bytes differ from the crate's own where a PowerResource or a Register begins, and nowhere else.
pub fn only_known(own: &[u8], mended: &[u8], power_resources: usize, registers: usize) -> Result<(), String> {
    if own.len() != mended.len() {
        return Err("mending changed the length".into());
    }
    let (mut powers, mut lengths) = (0, 0);
    let mut i = 0;
    while i < own.len() {
        if own[i] == mended[i] {
            i += 1;
        } else if own[i..].starts_with(&[0x84, 0x5B]) && mended[i..].starts_with(&[0x5B, 0x84]) {
            powers += 1;
            i += 2;
        } else if own[i] == 0x12 && mended[i] == 0x0C && i > 0 && own[i - 1] == 0x82 {
            lengths += 1;
            i += 1;
        } else {
            return Err(format!("mending changed byte {i}"));
        }
    }
    if (powers, lengths) != (power_resources, registers) {
        return Err(format!("{powers} of {power_resources} PowerResources mended, {lengths} of {registers} Registers"));
    }
    Ok(())
}

// ── Our table

fn unchanged(out: &[u8]) -> bool {
    out.iter().all(|&b| b == BEFORE)
}

/// Our table against the expected one: in room enough, in just its length, and in one byte less.
pub fn ours_is(file: &[u8], expected: &[u8]) -> Result<(), String> {
    let n = expected.len();
    for room in [n + GUARD, n, n - 1] {
        let mut out = vec![BEFORE; n + GUARD];
        let answer = library::encode(file, &mut out[..room]);
        if room < n {
            if (answer.number, answer.index, answer.length) != (14, 0, 0) || !unchanged(&out) {
                return Err(format!("into {room} of {n}: {answer:?}"));
            }
            continue;
        }
        if answer.number != 0 || answer.index != 0 {
            return Err(format!("refused {} at {}", answer.number, answer.index));
        }
        if answer.length != n as u64 {
            return Err(format!("{} bytes, the crate {n}", answer.length));
        }
        if let Some(i) = (0..n).find(|&i| out[i] != expected[i]) {
            return Err(format!("byte {i} is {:02X}, the crate's {:02X}", out[i], expected[i]));
        }
        if !unchanged(&out[n..]) {
            return Err("a byte behind the table changed".into());
        }
    }
    Ok(())
}

// ── A tree

fn place_of(child: usize, children: Children) -> Place {
    match children {
        Children::Datum => Place::Data,
        Children::Terms => Place::List,
        Children::Guarded if child > 0 => Place::List,
        Children::Entries => Place::Entry,
        Children::Elements => Place::Element,
        Children::Descriptors => Place::Descriptor,
        _ => Place::Operand,
    }
}

fn count_kinds(terms: &[Term], around: Children, depth: usize, rows: &BTreeMap<u16, Children>, report: &mut Report) {
    for (i, term) in terms.iter().enumerate() {
        report.deepest = report.deepest.max(depth);
        *report.kinds.entry((term.kind, place_of(i, around))).or_default() += 1;
        if term.kind == CALL {
            report.arities.insert(term.children.len());
        }
        count_kinds(&term.children, rows[&term.kind], depth + 1, rows, report);
    }
}

fn count_of(terms: &[Term], kind: u16) -> usize {
    terms.iter().map(|t| usize::from(t.kind == kind) + count_of(&t.children, kind)).sum()
}

/// The bytes of the PkgLength of a tree's one term, or of what it returns.
fn count_lengths(tree: &Tree, terms: &[u8], report: &mut Report) {
    let (term, before) = match tree.terms.as_slice() {
        [term] if term.kind == RETURN => (&term.children[0], 1),
        [term] => (term, 0),
        _ => return,
    };
    if BODIES.contains(&term.kind) {
        let at = before + if term.kind > 0xFF { 2 } else { 1 };
        *report.lengths.entry((term.kind, usize::from(terms[at] >> 6) + 1)).or_default() += 1;
    }
}

/// The table that the crate and document 01 agree on: the crate's, with the two known differences set right.
pub fn expected(tree: &Tree) -> (Vec<u8>, Vec<u8>) {
    let file = file(tree);
    let terms = terms_of(&file, Manner { mended: true, varied: false });
    let table = table_of(&tree.identity, &terms);
    (file, table)
}

/// Compares the two tables of a tree.
pub fn judge(tree: &Tree, report: &mut Report) -> Result<(), String> {
    let file = file(tree);
    let own = terms_of(&file, Manner { mended: false, varied: false });
    let mended = terms_of(&file, Manner { mended: true, varied: false });
    let varied = terms_of(&file, Manner { mended: true, varied: true });
    if varied != mended {
        return Err("the crate's ways to one object differ".into());
    }
    let (powers, registers) = (count_of(&tree.terms, POWER_RESOURCE), count_of(&tree.terms, REGISTER));
    only_known(&own, &mended, powers, registers)?;
    let table = table_of(&tree.identity, &mended);
    if table.len() <= BYTEWISE {
        report.bytewise += 1;
        if table_bytewise(&file, Manner { mended: true, varied: false }) != table {
            return Err("the crate's table differs when written byte by byte".into());
        }
    }
    ours_is(&file, &table)?;
    let rows = rows().iter().map(|r| (r.kind, r.children)).collect();
    report.trees += 1;
    report.records += tree.records() as u64;
    report.table_bytes += table.len() as u64;
    report.power_resources += powers as u64;
    report.registers += registers as u64;
    report.largest = report.largest.max(table.len());
    count_kinds(&tree.terms, Children::Terms, 1, &rows, report);
    count_lengths(tree, &mended, report);
    Ok(())
}

/// A smaller tree that still differs, as far as leaving out one child or putting it in its parent's place goes.
pub fn smallest(tree: &Tree) -> Tree {
    let mut least = tree.clone();
    let mut step = 0;
    while let Some(terms) = smaller(&least.terms, &mut step.clone()) {
        let next = Tree { terms, ..least.clone() };
        step += 1;
        if differs(&next) {
            least = next;
            step = 0;
        }
    }
    least
}

/// A refusal is no difference here: a child that is left out may have been owed, and the crate makes no object of such a file.
fn differs(tree: &Tree) -> bool {
    let accepted = library::encode(&file(tree), &mut []).number == 14;
    accepted && judge(tree, &mut Report::default()).is_err()
}

/// The terms after one step, which is counted through them; none behind the last.
fn smaller(terms: &[Term], step: &mut usize) -> Option<Vec<Term>> {
    for (i, term) in terms.iter().enumerate() {
        let mut with = terms.to_vec();
        if *step == 0 {
            with.remove(i);
            return Some(with);
        }
        *step -= 1;
        if *step < term.children.len() {
            with[i] = term.children[*step].clone();
            return Some(with);
        }
        *step -= term.children.len();
        if let Some(children) = smaller(&term.children, step) {
            with[i].children = children;
            return Some(with);
        }
    }
    None
}
