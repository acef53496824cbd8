//! acpi_tables 0.2.1, from the folder that ACPI_TABLES_SRC names (`build.rs`).
#![no_std]
#![allow(dead_code, deprecated, unused)]

include!(concat!(env!("OUT_DIR"), "/root.rs"));
