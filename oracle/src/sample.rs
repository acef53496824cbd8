//! Cases as lines of text, for a program that replays them without Rust: crate `described` says how a line is read, and
//! `encode_runs` how an answer is printed.
use crate::cases;
use crate::compare::expected;
use crate::generate::{Generator, Size};
use crate::random::Random;
use crate::tree::{file, File, Record, Tree};

/// The program's room for its input.
const INPUT: usize = 65_536;

fn record_words(file: &File, i: usize) -> String {
    let Record { kind, a, children, x, text } = file.record(i);
    let start = if text.is_empty() { 0 } else { text.as_ptr() as usize - file.pool().as_ptr() as usize };
    let mut words = format!("{kind:X}");
    let fields = [('n', children as u64), ('a', u64::from(a)), ('x', x), ('s', start as u64), ('l', text.len() as u64)];
    for (letter, n) in fields.iter().filter(|(_, n)| *n != 0) {
        words += &format!(" {letter}{n:X}");
    }
    words
}

/// Equal words in a row are said once, with their number.
fn joined(words: &[String]) -> String {
    let mut out: Vec<String> = Vec::new();
    let mut i = 0;
    while i < words.len() {
        let n = words[i..].iter().take_while(|w| **w == words[i]).count();
        out.push(if n > 1 { format!("{} *{n:X}", words[i]) } else { words[i].clone() });
        i += n;
    }
    out.join(", ")
}

/// Of the pool what can stand as text, and the rest.
fn pool_parts(pool: &[u8]) -> (String, String) {
    let plain = pool.iter().take_while(|&&b| b.is_ascii_graphic() && b != b';').count();
    // Where much of it is one byte, a number says how often.
    let plain = if plain > 200 && pool[plain - 100..plain].iter().all(|&b| b == pool[plain - 1]) {
        pool[..plain].iter().rposition(|&b| b != pool[plain - 1]).map_or(0, |i| i + 1)
    } else {
        plain
    };
    let text = String::from_utf8_lossy(&pool[..plain]).into_owned();
    let words: Vec<String> = pool[plain..].iter().map(|b| format!("{b:X}")).collect();
    (text, joined(&words))
}

/// The identity stands behind the header's first seven numbers.
fn identity_part(identity: &[u8]) -> String {
    let mut bytes = identity.to_vec();
    bytes.push(0);
    let words: Vec<String> = bytes
        .chunks(4)
        .map(|b| u32::from_le_bytes([b[0], b[1], b[2], b[3]]))
        .map(|n| if n == 0 { String::new() } else { format!("{n:X}") })
        .collect();
    if words.iter().all(String::is_empty) {
        return String::new();
    }
    format!(",,,,,,,{}", words.join(","))
}

/// A tree as a line.
pub fn line(name: &str, tree: &Tree) -> String {
    let bytes = file(tree);
    let file = File::new(&bytes);
    let records: Vec<String> = (0..file.records()).map(|i| record_words(&file, i)).collect();
    let entries: Vec<String> = file
        .arities()
        .iter()
        .map(|(text, n)| format!("s{:X} l{:X} n{n:X}", text.as_ptr() as usize - file.pool().as_ptr() as usize, text.len()))
        .collect();
    let (text, rest) = pool_parts(file.pool());
    let parts = [joined(&records), joined(&entries), text, rest, identity_part(file.identity())];
    let all = format!("{name} = {}", parts.join("; "));
    all.trim_end_matches([';', ' ']).to_string() + if parts[0].is_empty() { ";" } else { "" }
}

// ── What the program prints

fn hex(bytes: &[u8]) -> String {
    bytes.iter().map(|b| format!(" {b:02x}")).collect()
}

/// One number for bytes in their order.
fn mixed(bytes: &[u8]) -> u64 {
    bytes.iter().fold(0, |v, &b| v % 0x100_0000 * 31 + u64::from(b))
}

fn answer(name: &str, table: &[u8]) -> String {
    let n = table.len();
    let shown = if n <= 256 {
        hex(table)
    } else {
        format!("{} ..\n  all of them mixed: {}", hex(&table[..64]), mixed(table))
    };
    format!(
        "{name} = 0 at 0, {n} bytes, the rest as it was\n {shown}\n  into {n}: 0 at 0, {n} bytes, the rest as it was\n  into {}: 14 at 0, 0 bytes, the rest as it was\n",
        n - 1
    )
}

// ── The list

/// The fixed cases, then random trees up to `count`, in as many bytes as the program reads.
fn list(seed: u64, count: u64) -> Vec<(String, Tree)> {
    let mut all: Vec<(String, Tree)> = cases::small().into_iter().map(|case| (case.name, case.tree)).collect();
    let mut number = 0;
    while (all.len() as u64) < count {
        let mut random = Random::of_case(seed, number);
        let size = Size { records: 2 + random.index(12), depth: 8, text: 12 };
        let mut tree = Generator::new(random, size).tree();
        if number % 8 != 0 {
            tree.identity = [0; 31];
        }
        number += 1;
        if !tree.terms.is_empty() {
            all.push((format!("random {number}"), tree));
        }
    }
    all.truncate(count as usize);
    all
}

pub fn print_lines(seed: u64, count: u64) -> bool {
    let lines: Vec<String> = list(seed, count).iter().map(|(name, tree)| line(name, tree) + "\n").collect();
    let text = lines.concat();
    print!("{text}");
    if text.len() > INPUT {
        eprintln!("oracle: {} bytes, the program reads {INPUT}", text.len());
    }
    text.len() <= INPUT
}

pub fn print_answers(seed: u64, count: u64) -> bool {
    for (name, tree) in list(seed, count) {
        print!("{}", answer(&name, &expected(&tree).1));
    }
    true
}
