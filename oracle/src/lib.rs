//! The crate acpi_tables 0.2.1 beside our library: one description of a tree gives the term file that ours encodes and the
//! objects that the crate writes, and every byte of the two tables is compared. Paragraphs named here are document 01's.
pub mod bench;
pub mod cases;
pub mod compare;
pub mod edits;
pub mod generate;
pub mod kinds;
pub mod known;
pub mod library;
pub mod objects;
pub mod random;
pub mod sample;
pub mod tree;
