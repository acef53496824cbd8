//! `acpi-table`: the library's calls on files, one call to a run, for batch work.

use acpi_table::{encode, Refusal};
use std::ffi::{OsStr, OsString};
use std::fs::{self, File, OpenOptions};
use std::io::{self, Write};
use std::path::{Path, PathBuf};
use std::process::ExitCode;

/// The script acpi-table prints it from the same file, and so needs nothing for it.
const USAGE: &str = include_str!("usage.txt");

/// What is said on standard output, and the status.
enum Said {
    Fine(usize),
    Refused(Refusal),
    Differs(usize, usize, usize),
}

/// Why there is nothing to say: wrong usage, or a file.
type Trouble = String;

fn load(path: &OsStr) -> Result<Vec<u8>, Trouble> {
    fs::read(path).map_err(|e| format!("{}: {}", Path::new(path).display(), e))
}

/// The most that an output can have: a table's limit, and for term files the records, the arities, and texts that are no
/// longer than twice a table.
const MOST: usize = 1 << 30;

/// Calls with an output that grows until it is not refused as too short.
fn grown(start: usize, call: &dyn Fn(&mut [u8]) -> Result<usize, Refusal>) -> Result<Result<Vec<u8>, Refusal>, Trouble> {
    let mut size = start.clamp(65_536, MOST);
    loop {
        let mut out = Vec::new();
        out.try_reserve_exact(size).map_err(|_| format!("no memory for an output of {} bytes", size))?;
        out.resize(size, 0);
        match call(&mut out) {
            Ok(n) => {
                out.truncate(n);
                return Ok(Ok(out));
            }
            Err(r) if r.number == 14 && size < MOST => size = (size * 4).min(MOST),
            Err(r) => return Ok(Err(r)),
        }
    }
}

/// Where the bytes go: a link is followed, and what is no file is not replaced.
fn target(out: &OsStr) -> io::Result<PathBuf> {
    match fs::metadata(out) {
        Ok(m) if m.is_file() => fs::canonicalize(out),
        Ok(_) => Err(io::Error::new(io::ErrorKind::Other, "not a regular file")),
        Err(e) if e.kind() == io::ErrorKind::NotFound => Ok(PathBuf::from(out)),
        Err(e) => Err(e),
    }
}

fn put(file: &mut File, beside: &Path, to: &Path, bytes: &[u8]) -> io::Result<()> {
    file.write_all(bytes)?;
    file.sync_all()?;
    fs::rename(beside, to)
}

/// Writes beside, then renames, so that the file is there as a whole or as it was.
fn store(out: &OsStr, bytes: &[u8]) -> Result<(), Trouble> {
    let trouble = |e: io::Error| format!("{}: {}", Path::new(out).display(), e);
    let to = target(out).map_err(trouble)?;
    let name = to.file_name().ok_or_else(|| format!("{}: not a file's name", Path::new(out).display()))?;
    let mut beside = OsString::from(".");
    beside.push(name);
    beside.push(format!(".{}.part", std::process::id()));
    let beside = to.with_file_name(beside);
    let mut file = OpenOptions::new().write(true).create_new(true).open(&beside).map_err(trouble)?;
    put(&mut file, &beside, &to, bytes).map_err(|e| {
        let _ = fs::remove_file(&beside);
        trouble(e)
    })
}

fn stored(made: Result<Vec<u8>, Refusal>, out: &OsStr) -> Result<Said, Trouble> {
    match made {
        Ok(bytes) => store(out, &bytes).map(|_| Said::Fine(bytes.len())),
        Err(r) => Ok(Said::Refused(r)),
    }
}

fn run_encode(input: &OsStr, out: &OsStr) -> Result<Said, Trouble> {
    let file = load(input)?;
    stored(grown(file.len(), &|o| encode(&file, o))?, out)
}

fn run_read(arities: &OsStr, table: &OsStr, out: &OsStr) -> Result<Said, Trouble> {
    let (arities, table) = (load(arities)?, load(table)?);
    stored(grown(arities.len() + 8 * table.len(), &|o| acpi_table::read(&arities, &table, o))?, out)
}

fn run_normalise(input: &OsStr, out: &OsStr) -> Result<Said, Trouble> {
    let file = load(input)?;
    stored(grown(file.len(), &|o| acpi_table::normalise(&file, o))?, out)
}

/// Accepted means that none of 1 to 13 holds; 14 is all that an output without room can add.
fn run_check(input: &OsStr) -> Result<Said, Trouble> {
    let file = load(input)?;
    match encode(&file, &mut []) {
        Err(r) if r.number != 14 => Ok(Said::Refused(r)),
        _ => Ok(Said::Fine(file.len())),
    }
}

/// The first byte that differs and that is in none of the fields that follow from the others; else the first of these.
fn difference(a: &[u8], b: &[u8]) -> Option<usize> {
    let follows = |i: &usize| matches!(i, 4..=7 | 9);
    let end = a.len().min(b.len());
    let differs = |i: &usize| a[*i] != b[*i];
    let own = (0..end).filter(|i| !follows(i)).find(differs);
    own.or(if a.len() != b.len() { Some(end) } else { None }).or_else(|| (0..end).find(differs))
}

fn run_same(table: &OsStr, input: &OsStr) -> Result<Said, Trouble> {
    let (table, file) = (load(table)?, load(input)?);
    Ok(match grown(table.len(), &|o| encode(&file, o))? {
        Err(r) => Said::Refused(r),
        Ok(made) => match difference(&table, &made) {
            None => Said::Fine(table.len()),
            Some(at) => Said::Differs(at, table.len(), made.len()),
        },
    })
}

/// The calls that the usage lists, in one line.
fn usage_line() -> String {
    let calls = USAGE.lines().filter_map(|l| l.strip_prefix("    acpi-table ")).map(|l| l.split("  ").next().unwrap_or(l));
    format!("usage: acpi-table {}", calls.collect::<Vec<_>>().join(" | "))
}

fn run(args: &[OsString]) -> Result<Said, Trouble> {
    let words: Vec<&OsStr> = args.iter().map(|a| a.as_os_str()).collect();
    let command = words.first().and_then(|w| w.to_str()).unwrap_or("");
    match (command, words.get(1..).unwrap_or(&[])) {
        ("encode", [input, out]) => run_encode(input, out),
        ("read", [arities, table, out]) => run_read(arities, table, out),
        ("normalise", [input, out]) => run_normalise(input, out),
        ("check", [input]) => run_check(input),
        ("same", [table, input]) => run_same(table, input),
        _ => Err(usage_line()),
    }
}

fn line(said: &Said) -> String {
    match said {
        Said::Fine(n) => format!("ok {}\n", n),
        Said::Refused(r) => format!("{}\n", r),
        Said::Differs(at, t, f) => format!("differs at {}: table {}, file {}\n", at, t, f),
    }
}

fn tell(text: &str) -> Result<(), Trouble> {
    let mut out = io::stdout();
    out.write_all(text.as_bytes()).and_then(|_| out.flush()).map_err(|e| format!("standard output: {}", e))
}

fn main() -> ExitCode {
    let args: Vec<OsString> = std::env::args_os().skip(1).collect();
    let told = match args.first().and_then(|a| a.to_str()) {
        Some("--help" | "-h" | "help") => tell(USAGE).map(|_| 0),
        Some("--version") => tell(concat!("acpi-table ", env!("CARGO_PKG_VERSION"), "\n")).map(|_| 0),
        _ => run(&args).and_then(|s| tell(&line(&s)).map(|_| if matches!(s, Said::Fine(_)) { 0 } else { 1 })),
    };
    ExitCode::from(told.unwrap_or_else(|e| {
        eprintln!("acpi-table: {}", e);
        2
    }))
}
