//! The safe calls: document 01's whole table, the growing table, what is refused, and files of every kind.
mod made;

use acpi_table::{check, encode, Refusal, Table};

const FILE: &[u8] = include_bytes!("../../examples/whole.term");
const TABLE: &[u8] = include_bytes!("../../examples/whole.aml");

fn refused(number: u32, index: u32) -> Refusal {
    Refusal { number, index }
}

fn identity(file: &[u8]) -> [u8; 31] {
    let mut id = [0; 31];
    id.copy_from_slice(&file[28..59]);
    id
}

#[test]
fn whole_table() {
    let mut out = [0xEE; 50];
    assert_eq!(encode(FILE, &mut out), Ok(42));
    assert_eq!(&out[..42], TABLE);
    assert_eq!(out[42..], [0xEE; 8]);
    assert_eq!(check(FILE), Ok(()));
}

#[test]
fn output_of_the_size_and_one_less() {
    let mut out = [0xEE; 42];
    assert_eq!(encode(FILE, &mut out[..41]), Err(refused(14, 0)));
    assert_eq!(out, [0xEE; 42]);
    assert_eq!(encode(FILE, &mut out), Ok(42));
    assert_eq!(encode(FILE, &mut []), Err(refused(14, 0)));
}

#[test]
fn refusals_have_their_record() {
    let mut out = [0; 64];
    assert_eq!(encode(&[], &mut out), Err(refused(1, 0)));
    assert_eq!(check(&FILE[..111]), Err(refused(1, 0)));
    let mut file = FILE.to_vec();
    file[84] = 1; // the kind of record 1
    assert_eq!(check(&file), Err(refused(4, 1)));
    assert_eq!(encode(&file, &mut out), Err(refused(4, 1)));
    file[84] = 0x08; // a Name, which has no child and no text
    assert_eq!(check(&file), Err(refused(5, 1)));
    let mut file = FILE.to_vec();
    file[84] = 0x13; // a VarPackage, whose x is not 0
    assert_eq!(check(&file), Err(refused(5, 1)));
    file[92] = 0;
    assert_eq!(check(&file), Err(refused(7, 1)));
    file[88] = 1;
    assert_eq!(check(&file), Err(refused(10, 2)));
    assert_eq!(out, [0; 64]);
}

#[test]
fn words() {
    assert_eq!(refused(10, 2).to_string(), "refused 10 at 2: records end with children still owed");
    assert_eq!(refused(14, 0).to_string(), "refused 14 at 0: output too short");
    for n in (1..=14).chain(20..=23) {
        assert_ne!(refused(n, 0).words(), refused(99, 0).words());
    }
}

#[test]
fn growing_table() {
    let mut buffer = [0xEE; 64];
    let mut t = Table::new(&identity(FILE), 36, &mut buffer).unwrap();
    t.append(&TABLE[36..40]).unwrap();
    t.append(&[]).unwrap();
    t.append(&[0, 0]).unwrap();
    t.write(40, &TABLE[40..42]).unwrap();
    assert_eq!((t.len(), t.checksum(), t.is_empty()), (42, TABLE[9], false));
    assert_eq!(t.bytes(), TABLE);
    assert_eq!(t.append(&[0; 23]), Err(refused(14, 0)));
    assert_eq!(t.write(42, &[0]), Err(refused(23, 0)));
    assert_eq!(t.write(4, &[0]), Err(refused(23, 0)));
    assert_eq!(t.write(u64::MAX, &[0, 0]), Err(refused(23, 0)));
    assert_eq!(t.write(42, &[]), Ok(()));
    assert_eq!(t.bytes(), TABLE);
    assert_eq!(buffer[42..], [0xEE; 22]);
}

#[test]
fn edits_that_are_refused_change_nothing() {
    let mut buffer = TABLE.to_vec();
    for (length, checksum) in [(41, TABLE[9]), (42, !TABLE[9]), (0, 0), (43, TABLE[9]), (u32::MAX, TABLE[9])] {
        let mut t = Table::from_parts(&mut buffer, length, checksum);
        assert_eq!(t.append(&[1]), Err(refused(20, 0)));
        assert_eq!(t.write(36, &[1]), Err(refused(20, 0)));
        assert_eq!((t.len(), t.checksum()), (length, checksum));
    }
    assert_eq!(buffer, TABLE);
    assert_eq!(Table::new(&[0; 31], 35, &mut buffer).unwrap_err(), refused(20, 0));
    assert_eq!(Table::new(&[0; 31], 43, &mut buffer).unwrap_err(), refused(14, 0));
    assert_eq!(Table::new(&[0; 31], 268_435_456, &mut buffer).unwrap_err(), refused(12, 0));
    assert_eq!(buffer, TABLE);
}

#[test]
fn files_of_every_kind_are_accepted() {
    let mut seen = std::collections::BTreeSet::new();
    let mut out = vec![0; 1 << 20];
    for seed in 0..400 {
        let m = made::made(seed, 60);
        seen.extend(m.records.iter().map(|r| r.kind));
        let n = encode(&m.file(false), &mut out).unwrap_or_else(|r| panic!("seed {}: {}", seed, r));
        let table = out[..n].to_vec();
        assert_eq!(encode(&m.file(true), &mut out), Ok(n), "seed {}", seed);
        assert_eq!(table, out[..n], "seed {}: texts that are shared give another table", seed);
    }
    assert_eq!(seen.len(), made::kinds().len(), "not every kind was made: {:X?}", seen);
}

#[test]
fn normal_forms() {
    use acpi_table::normalise;
    let (mut out, mut again, mut table) = (vec![0; 1 << 20], vec![0; 1 << 20], vec![0; 1 << 20]);
    for seed in 0..100 {
        let m = made::made(seed, 60);
        let n = normalise(&m.file(true), &mut out).unwrap();
        assert_eq!(normalise(&out[..n], &mut again), Ok(n));
        assert_eq!(out[..n], again[..n], "seed {}", seed);
        let k = encode(&m.file(true), &mut table).unwrap();
        assert_eq!(encode(&out[..n], &mut again), Ok(k));
        assert_eq!(table[..k], again[..k], "seed {}", seed);
    }
}

#[test]
fn tables_are_read_back() {
    use acpi_table::{normalise, read};
    let (mut out, mut back, mut table) = (vec![0; 1 << 20], vec![0; 1 << 20], vec![0; 1 << 20]);
    for seed in 0..100 {
        let m = made::made(seed, 60);
        let k = encode(&m.file(true), &mut table).unwrap();
        let n = normalise(&m.file(true), &mut out).unwrap();
        assert_eq!(read(&m.list(), &table[..k], &mut back), Ok(n), "seed {}", seed);
        assert_eq!(out[..n], back[..n], "seed {}", seed);
    }
}
