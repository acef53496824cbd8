// Links the library that is judged: ACPI_TABLES_LIB names its archive or its object. Without it only the library part of this
// package builds, for a program that links the archive itself.
use std::{env, fs};

fn main() {
    println!("cargo:rerun-if-env-changed=ACPI_TABLES_LIB");
    if let Some(name) = env::var_os("ACPI_TABLES_LIB") {
        let file = fs::canonicalize(name).expect("ACPI_TABLES_LIB is a file");
        println!("cargo:rerun-if-changed={}", file.display());
        println!("cargo:rustc-link-arg={}", file.display());
    }
}
