//! The crate acpi_tables 0.2.1 as judge of our encoder.
use acpi_oracle::compare::{judge, smallest, Report};
use acpi_oracle::generate::tree_of_case;
use acpi_oracle::kinds::{rows, BODIES, PLACES};
use acpi_oracle::tree::Tree;
use acpi_oracle::{bench, cases, edits, known, sample};
use std::process::ExitCode;

const HELP: &str = "\
oracle compare --seed S --count N   every case of the fixed lists, then N random trees: our table and the crate's, byte by byte
oracle edits --seed S --count N     N random sequences of edits: our growing table and the crate's Sdt, after each step
oracle sample --seed S --count N    N small cases, a line each, as the program oracle_runs reads them
oracle answers --seed S --count N   what oracle_runs is to print for them: the crate's bytes
oracle known                        the inputs of docs/DIFFERENCES.md: what the crate does with them, and our refusals
oracle bench                        encoding, the crate and a copy of the same bytes, as ratios
Exit status: 0, 1 where a difference is found that docs/DIFFERENCES.md does not hold, 2 where the call is wrong.";

/// Larger trees are shown as they are: to look for a smaller one takes a comparison for every term.
const SHRUNK: usize = 1000;

struct Run {
    seed: u64,
    count: u64,
}

fn run_of(words: &[String]) -> Option<Run> {
    let mut run = Run { seed: 1, count: 1000 };
    for pair in words.chunks(2) {
        let value = pair.get(1)?.parse().ok()?;
        match pair[0].as_str() {
            "--seed" => run.seed = value,
            "--count" => run.count = value,
            _ => return None,
        }
    }
    Some(run)
}

fn note(name: &str, tree: &Tree, report: &mut Report) {
    if let Err(why) = judge(tree, report) {
        eprintln!("{name}: {why}; {} records", tree.records());
        let least = if tree.records() <= SHRUNK { smallest(tree) } else { tree.clone() };
        let line = sample::line(name, &least);
        report.differences.push(format!("{name}: {why}\n  {line}"));
    }
}

fn print_report(report: &Report) {
    let possible: usize = rows().iter().map(|row| row.places.len()).sum();
    println!("trees {}, records {}, deepest {}", report.trees, report.records, report.deepest);
    println!("bytes of tables {}, largest {}, written byte by byte too {}", report.table_bytes, report.largest, report.bytewise);
    println!("kinds in places {} of {possible}", report.kinds.len());
    for place in PLACES {
        let seen: Vec<String> =
            report.kinds.iter().filter(|((_, p), _)| *p == place).map(|((kind, _), n)| format!("{kind:X}:{n}")).collect();
        println!("  {place:?} {}", seen.join(" "));
    }
    println!("arguments of calls {:?}", report.arities);
    println!("bytes of a PkgLength, and in how many trees of one term");
    for kind in BODIES {
        let seen: Vec<String> =
            report.lengths.iter().filter(|((k, _), _)| *k == kind).map(|((_, bytes), n)| format!("{bytes}:{n}")).collect();
        println!("  {kind:X} {}", seen.join(" "));
    }
    println!("known differences: PowerResource {}, Register {}", report.power_resources, report.registers);
    for difference in &report.differences {
        println!("DIFFERENCE {difference}");
    }
    println!("other differences {}", report.differences.len());
}

fn compare(run: &Run) -> bool {
    let mut report = Report::default();
    for case in cases::small().iter().chain(&cases::large()) {
        note(&case.name, &case.tree, &mut report);
    }
    println!("fixed cases {}", report.trees);
    for number in 0..run.count {
        note(&format!("seed {} number {number}", run.seed), &tree_of_case(run.seed, number), &mut report);
    }
    print_report(&report);
    report.differences.is_empty()
}

/// The crate's panics are expected there, and counted.
fn quiet() {
    std::panic::set_hook(Box::new(|_| {}));
}

fn main() -> ExitCode {
    let words: Vec<String> = std::env::args().skip(1).collect();
    let run = words.get(1..).and_then(run_of);
    let good = match (words.first().map(String::as_str), run) {
        (Some("compare"), Some(run)) => compare(&run),
        (Some("edits"), Some(run)) => {
            quiet();
            edits::run(run.seed, run.count)
        }
        (Some("sample"), Some(run)) => sample::print_lines(run.seed, run.count),
        (Some("answers"), Some(run)) => sample::print_answers(run.seed, run.count),
        (Some("known"), Some(_)) => {
            quiet();
            known::run()
        }
        (Some("bench"), Some(_)) => bench::run(),
        _ => {
            eprintln!("{HELP}");
            return ExitCode::from(2);
        }
    };
    if good {
        ExitCode::SUCCESS
    } else {
        ExitCode::from(1)
    }
}
