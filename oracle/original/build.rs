// Writes the root of the original crate into the build folder: `lib.rs` of the folder that ACPI_TABLES_SRC names, each module
// at its place there. Left out are the modules whose files the folder lacks (nothing here uses them), and what a file that is
// included may not hold: inner attributes and comments, and exported macros, which become names of the crate instead.
// The modules themselves are built unchanged.
use std::path::{Path, PathBuf};
use std::{env, fs};

const NEEDED: [&str; 4] = ["lib.rs", "aml.rs", "sdt.rs", "gas.rs"];

fn source_folder() -> PathBuf {
    println!("cargo:rerun-if-env-changed=ACPI_TABLES_SRC");
    let folder = env::var_os("ACPI_TABLES_SRC").expect("ACPI_TABLES_SRC names the folder of aml.rs, sdt.rs, gas.rs and lib.rs");
    let folder = fs::canonicalize(folder).expect("ACPI_TABLES_SRC is a folder");
    for name in NEEDED {
        let file = folder.join(name);
        println!("cargo:rerun-if-changed={}", file.display());
        assert!(file.is_file(), "{} is missing", file.display());
    }
    folder
}

fn root_line(folder: &Path, line: &str) -> String {
    if line.starts_with("#![") || line.starts_with("//!") || line == "#[macro_export]" {
        return String::new();
    }
    let module = line.strip_prefix("pub mod ").and_then(|rest| rest.strip_suffix(';'));
    match module {
        None => line.to_string(),
        Some(name) => {
            let file = folder.join(format!("{name}.rs"));
            if file.is_file() {
                format!("#[path = {:?}] {line}", file.display().to_string())
            } else {
                String::new()
            }
        }
    }
}

fn main() {
    let folder = source_folder();
    let text = fs::read_to_string(folder.join("lib.rs")).expect("lib.rs is text");
    let mut lines: Vec<String> = text.lines().map(|line| root_line(&folder, line)).collect();
    for line in text.lines() {
        if let Some(name) = line.strip_prefix("macro_rules! ").and_then(|rest| rest.strip_suffix(" {")) {
            lines.push(format!("pub(crate) use {name};"));
        }
    }
    let out = PathBuf::from(env::var_os("OUT_DIR").expect("cargo sets OUT_DIR"));
    fs::write(out.join("root.rs"), lines.join("\n")).expect("the build folder can be written");
}
