//! Short runs of the comparison, and that it sees a difference. Linked with the library that ACPI_TABLES_LIB names.
use acpi_oracle::compare::{expected, judge, ours_is, only_known, Report};
use acpi_oracle::generate::tree_of_case;
use acpi_oracle::kinds::{rows, POWER_RESOURCE};
use acpi_oracle::objects::{terms_of, Manner};
use acpi_oracle::tree::{file, Term, Tree};
use acpi_oracle::{cases, edits, known};

#[test]
fn fixed_cases_agree_and_hold_every_kind_in_every_place() {
    let mut report = Report::default();
    for case in cases::small() {
        assert_eq!(judge(&case.tree, &mut report), Ok(()), "{}", case.name);
    }
    let places: usize = rows().iter().map(|row| row.places.len()).sum();
    assert_eq!(report.kinds.len(), places);
}

#[test]
fn random_trees_agree() {
    for number in 0..400 {
        assert_eq!(judge(&tree_of_case(1, number), &mut Report::default()), Ok(()), "number {number}");
    }
}

#[test]
fn a_tree_is_the_same_in_every_run() {
    assert_eq!(tree_of_case(5, 39), tree_of_case(5, 39));
    assert_ne!(tree_of_case(5, 39), tree_of_case(6, 39));
}

#[test]
fn edits_agree() {
    assert!(edits::run(1, 300));
}

#[test]
fn known_differences_are_as_written() {
    assert!(known::run());
}

#[test]
fn each_changed_byte_is_seen() {
    let tree = tree_of_case(1, 3);
    let (file, table) = expected(&tree);
    assert_eq!(ours_is(&file, &table), Ok(()));
    for i in 0..table.len() {
        let mut changed = table.clone();
        changed[i] ^= 1;
        assert!(ours_is(&file, &changed).is_err(), "byte {i}");
    }
    assert!(ours_is(&file, &table[..table.len() - 1]).is_err());
}

#[test]
fn only_the_known_bytes_are_mended() {
    let tree = Tree::of(vec![Term::new(POWER_RESOURCE).text("PWRR").a(1).x(2)]);
    let file = file(&tree);
    let own = terms_of(&file, Manner { mended: false, varied: false });
    let mut mended = terms_of(&file, Manner { mended: true, varied: false });
    assert_eq!((&own[..2], &mended[..2]), (&[0x84, 0x5B][..], &[0x5B, 0x84][..]));
    assert_eq!(only_known(&own, &mended, 1, 0), Ok(()));
    assert!(only_known(&own, &own, 1, 0).is_err());
    mended[5] ^= 1;
    assert!(only_known(&own, &mended, 1, 0).is_err());
}
