//! The command line: its one line, its status, and the output file, which is there as a whole or as it was.
use std::path::{Path, PathBuf};
use std::process::{Command, Output};
use std::{env, fs};

const FILE: &str = concat!(env!("CARGO_MANIFEST_DIR"), "/../examples/whole.term");
const TABLE: &str = concat!(env!("CARGO_MANIFEST_DIR"), "/../examples/whole.aml");
const LIST: &str = concat!(env!("CARGO_MANIFEST_DIR"), "/../examples/none.term");

/// Runs the program, under the emulator where the tests run under one.
fn run(args: &[&str]) -> Output {
    let runner = env::var("CARGO_TARGET_X86_64_UNKNOWN_LINUX_GNU_RUNNER").unwrap_or_default();
    let mut words = runner.split_whitespace().chain([env!("CARGO_BIN_EXE_acpi-table")]);
    Command::new(words.next().expect("a word")).args(words).args(args).output().expect("the program runs")
}

/// What it says, and its status.
fn said(args: &[&str]) -> (String, i32) {
    let o = run(args);
    (String::from_utf8(o.stdout).expect("text"), o.status.code().expect("a status"))
}

fn check(args: &[&str], line: &str, status: i32) {
    assert_eq!(said(args), (line.to_string(), status), "{:?}", args);
}

/// A folder of its own for each test, empty.
struct Folder(PathBuf);

impl Folder {
    fn new(name: &str) -> Folder {
        let dir = Path::new(env!("CARGO_TARGET_TMPDIR")).join(name);
        let _ = fs::remove_dir_all(&dir);
        fs::create_dir_all(&dir).expect("a folder");
        Folder(dir)
    }

    fn path(&self, name: &str) -> String {
        self.0.join(name).to_str().expect("text").to_string()
    }

    fn put(&self, name: &str, bytes: &[u8]) -> String {
        fs::write(self.0.join(name), bytes).expect("a file");
        self.path(name)
    }

    fn names(&self) -> Vec<String> {
        let mut all: Vec<String> =
            fs::read_dir(&self.0).expect("a folder").map(|e| e.expect("an entry").file_name().into_string().expect("text")).collect();
        all.sort();
        all
    }
}

#[test]
fn the_example() {
    let d = Folder::new("example");
    let out = d.path("out.aml");
    check(&["encode", FILE, &out], "ok 42\n", 0);
    assert_eq!(fs::read(&out).unwrap(), fs::read(TABLE).unwrap());
    assert_eq!(d.names(), ["out.aml"]);
    check(&["check", FILE], "ok 112\n", 0);
    check(&["same", TABLE, FILE], "ok 42\n", 0);
    check(&["same", &out, FILE], "ok 42\n", 0);
}

#[test]
fn a_refused_input_leaves_the_output() {
    let d = Folder::new("refused");
    let mut file = fs::read(FILE).unwrap();
    file[84] = 1;
    let (bad, out) = (d.put("bad.term", &file), d.put("out.aml", b"as it was"));
    check(&["encode", &bad, &out], "refused 4 at 1: kind unknown\n", 1);
    check(&["check", &bad], "refused 4 at 1: kind unknown\n", 1);
    check(&["same", TABLE, &bad], "refused 4 at 1: kind unknown\n", 1);
    check(&["check", &d.put("empty", b"")], "refused 1 at 0: header or section lengths wrong\n", 1);
    assert_eq!(fs::read(&out).unwrap(), b"as it was");
    check(&["encode", FILE, &out], "ok 42\n", 0);
    assert_eq!(fs::read(&out).unwrap(), fs::read(TABLE).unwrap());
    assert_eq!(d.names(), ["bad.term", "empty", "out.aml"]);
}

#[test]
fn what_differs() {
    let d = Folder::new("differs");
    let table = fs::read(TABLE).unwrap();
    let mut one = table.clone();
    one[41] = 0;
    one[9] += 1;
    check(&["same", &d.put("one", &one), FILE], "differs at 41: table 42, file 42\n", 1);
    let mut sum = table.clone();
    sum[9] += 1;
    check(&["same", &d.put("sum", &sum), FILE], "differs at 9: table 42, file 42\n", 1);
    let mut longer = table.clone();
    longer.push(0);
    longer[4] += 1;
    check(&["same", &d.put("longer", &longer), FILE], "differs at 42: table 43, file 42\n", 1);
    check(&["same", &d.put("shorter", &table[..40]), FILE], "differs at 40: table 40, file 42\n", 1);
    check(&["same", &d.put("none", b""), FILE], "differs at 0: table 0, file 42\n", 1);
}

#[test]
fn a_table_larger_than_any_first_guess() {
    // A hundred Names of one string of 60,000 bytes: the file is short, its table is not.
    let d = Folder::new("large");
    let (names, text) = (100u32, 60_000u32);
    let mut file = b"TERM".to_vec();
    let end = 60 + 48 * names;
    for n in [2 * names, 60, 0, end, 4 + text, end] {
        file.extend(n.to_le_bytes());
    }
    file.extend([0; 32]);
    for _ in 0..names {
        for (kind, kids, start, len) in [(0x08u16, 1u32, 0u32, 4u32), (0x0D, 0, 4, text)] {
            file.extend(kind.to_le_bytes());
            file.extend([0; 2]);
            file.extend(kids.to_le_bytes());
            file.extend([0; 8]);
            file.extend(start.to_le_bytes());
            file.extend(len.to_le_bytes());
        }
    }
    file.extend(b"FOO_");
    file.extend(vec![b'x'; text as usize]);
    let (large, out) = (d.put("large.term", &file), d.path("large.aml"));
    check(&["encode", &large, &out], "ok 6000736\n", 0);
    check(&["same", &out, &large], "ok 6000736\n", 0);
    assert_eq!(fs::metadata(&out).unwrap().len(), 6_000_736);
}

#[test]
fn usage_and_files() {
    let d = Folder::new("usage");
    let (out, none, dir) = (d.path("out"), d.path("none"), d.path(""));
    let deep = d.path("none/out");
    let wrong: [&[&str]; 9] = [
        &[],
        &["encode", FILE],
        &["encode", FILE, &out, &out],
        &["frob", FILE],
        &["encode", &none, &out],
        &["encode", FILE, &dir],
        &["encode", FILE, &deep],
        &["encode", FILE, "/dev/null"],
        &["check", &dir],
    ];
    for args in wrong {
        let o = run(args);
        assert_eq!((o.status.code(), o.stdout.len()), (Some(2), 0), "{:?}", args);
        let told = String::from_utf8(o.stderr).unwrap();
        assert!(told.starts_with("acpi-table: ") && told.lines().count() == 1, "{:?}: {}", args, told);
    }
    assert!(d.names().is_empty());
    let (help, status) = said(&["--help"]);
    assert_eq!(status, 0);
    for word in ["encode IN OUT", "read ARITIES TABLE OUT", "normalise IN OUT", "check IN", "same TABLE FILE", "Status: 0 ok; 1 refused"] {
        assert!(help.contains(word), "{}", word);
    }
}

#[cfg(unix)]
#[test]
fn an_output_behind_a_link_is_replaced_where_it_stands() {
    let d = Folder::new("link");
    let (there, link) = (d.put("there", b"old"), d.path("link"));
    std::os::unix::fs::symlink(&there, &link).unwrap();
    check(&["encode", FILE, &link], "ok 42\n", 0);
    assert_eq!(fs::read(&there).unwrap(), fs::read(TABLE).unwrap());
    assert!(fs::symlink_metadata(&link).unwrap().file_type().is_symlink());
    assert_eq!(d.names(), ["link", "there"]);
}

#[test]
fn there_and_back() {
    let d = Folder::new("back");
    let (back, normal) = (d.path("back.term"), d.path("normal.term"));
    check(&["read", LIST, TABLE, &back], "ok 112\n", 0);
    check(&["same", TABLE, &back], "ok 42\n", 0);
    check(&["normalise", FILE, &normal], "ok 112\n", 0);
    assert_eq!(fs::read(&back).unwrap(), fs::read(&normal).unwrap());
    check(
        &["read", LIST, FILE, &back],
        "refused 20 at 0: table under 36 bytes, or its length field not the slice's length; in edits, a bad table record\n",
        1,
    );
}

/// The smallest tables of docs/REFUSALS.md.
#[test]
fn the_smallest_tables_that_are_not_read() {
    let d = Folder::new("smallest");
    for (length, checksum, number) in [(0, 0, 20), (36, 0, 21), (37, 0xDB, 22)] {
        let mut table = vec![0; length];
        if length > 0 {
            (table[4], table[9]) = (length as u8, checksum);
        }
        let (table, out) = (d.put("table", &table), d.path("out"));
        let (line, status) = said(&["read", LIST, &table, &out]);
        assert!(line.starts_with(&format!("refused {} at 0: ", number)), "{}", line);
        assert_eq!(status, 1);
    }
    assert_eq!(d.names(), ["table"]);
}
