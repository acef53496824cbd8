//! Says where the static library stands: target/staticlib of the repository, as `rust/library` leaves it,
//! or the folder that the environment variable ACPI_MONITOR names.
use std::{env, path::PathBuf};

fn main() {
    println!("cargo:rerun-if-env-changed=ACPI_MONITOR");
    let dir = match env::var_os("ACPI_MONITOR") {
        Some(d) => PathBuf::from(d),
        None => PathBuf::from(env::var_os("CARGO_MANIFEST_DIR").expect("set by cargo")).join("../target/staticlib"),
    };
    let archive = dir.join("libmonitor.a");
    if !archive.is_file() {
        println!("cargo:warning={} is not there: `rust/library` makes it", archive.display());
    }
    println!("cargo:rerun-if-changed={}", archive.display());
    println!("cargo:rustc-link-search=native={}", dir.display());
    println!("cargo:rustc-link-lib=static=monitor");
}
