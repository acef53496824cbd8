//! The growing table: our new, append and write beside the crate's `Sdt`, on random sequences; after each step every byte of
//! the buffer, the length and the checksum are compared. Where we refuse, the crate panics or writes what docs/DIFFERENCES.md
//! says; the buffer must then be untouched and the record as it came in.
use crate::compare::empty_table;
use crate::generate::identity;
use crate::library::{self, Edit};
use crate::random::Random;
use acpi_tables::sdt::{GenericAddress, Sdt};
use std::collections::BTreeMap;
use std::panic::{catch_unwind, AssertUnwindSafe};

const BEFORE: u8 = 0xA5;

/// Guard bytes on both sides of the buffer.
const GUARD: usize = 32;

/// Ours and the crate's table side by side.
struct Pair {
    room: Vec<u8>,
    length: u32,
    checksum: u8,
    table: Sdt,
}

#[derive(Default)]
pub struct Report {
    sequences: u64,
    steps: BTreeMap<&'static str, u64>,
    refused: BTreeMap<u32, u64>,
    panics: u64,
    largest: usize,
}

impl Pair {
    fn buffer(&mut self) -> &mut [u8] {
        let end = self.room.len() - GUARD;
        &mut self.room[GUARD..end]
    }

    /// After a step that both took.
    fn same(&self, edit: Edit) -> Result<(), String> {
        let theirs = self.table.as_slice();
        if edit.number != 0 {
            return Err(format!("refused {}", edit.number));
        }
        if edit.length as usize != theirs.len() {
            return Err(format!("length {}, the crate's {}", edit.length, theirs.len()));
        }
        if edit.checksum != theirs[9] {
            return Err(format!("checksum {:02X}, the crate's {:02X}", edit.checksum, theirs[9]));
        }
        let ours = &self.room[GUARD..GUARD + theirs.len()];
        if let Some(i) = (0..theirs.len()).find(|&i| ours[i] != theirs[i]) {
            return Err(format!("byte {i} is {:02X}, the crate's {:02X}", ours[i], theirs[i]));
        }
        let around = self.room[..GUARD].iter().chain(&self.room[GUARD + theirs.len()..]);
        if around.into_iter().any(|&b| b != BEFORE) {
            return Err("a byte outside the table changed".into());
        }
        Ok(())
    }

    fn append(&mut self, piece: &[u8]) -> Edit {
        let (length, checksum) = (self.length, self.checksum);
        library::append(self.buffer(), length, checksum, piece)
    }

    fn write(&mut self, offset: u64, piece: &[u8]) -> Edit {
        let (length, checksum) = (self.length, self.checksum);
        library::write(self.buffer(), length, checksum, offset, piece)
    }

    fn take(&mut self, edit: Edit) {
        self.length = edit.length;
        self.checksum = edit.checksum;
    }

    /// A step that must be refused with this number and change nothing.
    fn refuses(&mut self, number: u32, step: impl Fn(&mut Pair) -> Edit) -> Result<(), String> {
        let before = self.room.clone();
        let edit = step(self);
        let kept = Edit { number, length: self.length, checksum: self.checksum };
        if edit != kept || self.room != before {
            return Err(format!("{edit:?}, and not {kept:?} with the buffer as it was"));
        }
        Ok(())
    }
}

// ── Steps

/// Whether a piece would touch the length field or the checksum.
fn touches(offset: usize, n: usize) -> bool {
    n > 0 && ((offset < 8 && offset + n > 4) || (offset <= 9 && offset + n > 9))
}

/// An append by one of the crate's ways.
fn append(pair: &mut Pair, random: &mut Random) -> Result<&'static str, String> {
    let n = random.any_width(8) as usize;
    let (name, piece) = match random.below(6) {
        0 => ("append u8", random.bytes(1)),
        1 => ("append u16", random.bytes(2)),
        2 => ("append u32", random.bytes(4)),
        3 => ("append u64", random.bytes(8)),
        4 => ("append GenericAddress", generic_address(random)),
        _ => ("append_slice", random.bytes(n)),
    };
    if piece.len() > pair.buffer().len() - pair.length as usize {
        pair.refuses(14, |p| p.append(&piece))?;
        return Ok("refused 14");
    }
    let mut wide = [0; 8];
    wide[..piece.len().min(8)].copy_from_slice(&piece[..piece.len().min(8)]);
    let value = u64::from_le_bytes(wide);
    match name {
        "append u8" => pair.table.append(value as u8),
        "append u16" => pair.table.append((value as u16).to_le()),
        "append u32" => pair.table.append((value as u32).to_le()),
        "append u64" => pair.table.append(value.to_le()),
        "append GenericAddress" => pair.table.append(address_of(&piece)),
        _ => pair.table.append_slice(&piece),
    }
    let edit = pair.append(&piece);
    pair.same(edit)?;
    pair.take(edit);
    Ok(name)
}

/// The bytes of an address that one of the crate's makers gives.
fn generic_address(random: &mut Random) -> Vec<u8> {
    let address = random.draw();
    let made = match random.below(8) {
        0 => GenericAddress::io_port_address::<u8>(address as u16),
        1 => GenericAddress::io_port_address::<u16>(address as u16),
        2 => GenericAddress::io_port_address::<u32>(address as u16),
        3 => GenericAddress::io_port_address::<u64>(address as u16),
        4 => GenericAddress::mmio_address::<u8>(address),
        5 => GenericAddress::mmio_address::<u16>(address),
        6 => GenericAddress::mmio_address::<u32>(address),
        _ => GenericAddress::mmio_address::<u64>(address),
    };
    let mut bytes = vec![made.address_space_id, made.register_bit_width, made.register_bit_offset, made.access_size];
    let address = made.address;
    bytes.extend_from_slice(&address.to_le_bytes());
    bytes
}

/// The fields are numbers, so that any bytes are an address.
fn address_of(bytes: &[u8]) -> GenericAddress {
    let mut address = [0; 8];
    address.copy_from_slice(&bytes[4..12]);
    GenericAddress {
        address_space_id: bytes[0],
        register_bit_width: bytes[1],
        register_bit_offset: bytes[2],
        access_size: bytes[3],
        address: u64::from_le_bytes(address).to_le(),
    }
}

fn write(pair: &mut Pair, random: &mut Random, report: &mut Report) -> Result<&'static str, String> {
    let long = random.any_width(7) as usize;
    let (name, n) = random.pick(&[("write_u8", 1), ("write_u16", 2), ("write_u32", 4), ("write_u64", 8), ("write_bytes", long)]);
    let piece = random.bytes(n);
    let length = pair.length as usize;
    let offset = match random.below(6) {
        0 => random.index(12),
        1 => length.saturating_sub(n),
        2 => (length + 1).saturating_sub(n),
        _ => random.index(length),
    };
    if n > length || offset > length - n {
        pair.refuses(23, |p| p.write(offset as u64, &piece))?;
        let table = &mut pair.table;
        let outcome = catch_unwind(AssertUnwindSafe(|| table.write_bytes(offset, &piece)));
        if outcome.is_ok() {
            return Err("the crate took a write beyond its table".into());
        }
        report.panics += 1;
        return Ok("refused 23, beyond");
    }
    if touches(offset, n) {
        pair.refuses(23, |p| p.write(offset as u64, &piece))?;
        return Ok("refused 23, length or checksum");
    }
    let mut wide = [0; 8];
    wide[..n.min(8)].copy_from_slice(&piece[..n.min(8)]);
    let value = u64::from_le_bytes(wide);
    match name {
        "write_u8" => pair.table.write_u8(offset, value as u8),
        "write_u16" => pair.table.write_u16(offset, (value as u16).to_le()),
        "write_u32" => pair.table.write_u32(offset, (value as u32).to_le()),
        "write_u64" => pair.table.write_u64(offset, value.to_le()),
        _ => pair.table.write_bytes(offset, &piece),
    }
    let edit = pair.write(offset as u64, &piece);
    pair.same(edit)?;
    pair.take(edit);
    Ok(name)
}

/// A record that is not the table's is refused before anything else.
fn bad_record(pair: &mut Pair, random: &mut Random) -> Result<&'static str, String> {
    let (length, checksum) = (pair.length, pair.checksum);
    match random.below(4) {
        0 => pair.length = length.wrapping_add(1),
        1 => pair.length = random.below(36) as u32,
        2 => pair.length = random.draw() as u32 | 0x8000_0000,
        _ => pair.checksum = checksum.wrapping_add(random.below(255) as u8 + 1),
    }
    let outcome = if random.once_in(2) {
        pair.refuses(20, |p| p.append(&[1]))
    } else {
        pair.refuses(20, |p| p.write(u64::MAX, &[1]))
    };
    pair.length = length;
    pair.checksum = checksum;
    outcome.map(|()| "refused 20")
}

// ── Sequences

fn begin(random: &mut Random) -> Result<Pair, String> {
    let identity = identity(random);
    let length = 36 + if random.once_in(2) { 0 } else { random.any_width(9) as u32 };
    let size = length as usize + if random.once_in(4) { random.index(40) } else { random.index(8000) };
    let mut room = vec![BEFORE; size + 2 * GUARD];
    for short in [0, 1, 35] {
        let edit = library::new(&identity, short, &mut room[GUARD..GUARD + size]);
        if edit != (Edit { number: 20, length: 0, checksum: 0 }) {
            return Err(format!("new of {short}: {edit:?}"));
        }
    }
    let edit = library::new(&identity, size as u32 + 1, &mut room[GUARD..GUARD + size]);
    if edit != (Edit { number: 14, length: 0, checksum: 0 }) || room.iter().any(|&b| b != BEFORE) {
        return Err(format!("new beyond the buffer: {edit:?}"));
    }
    let edit = library::new(&identity, length, &mut room[GUARD..GUARD + size]);
    let pair = Pair { room, length: edit.length, checksum: edit.checksum, table: empty_table(&identity, length) };
    pair.same(edit)?;
    Ok(pair)
}

fn sequence(mut random: Random, report: &mut Report) -> Result<(), String> {
    let mut pair = begin(&mut random)?;
    for step in 0..random.below(60) {
        let done = match random.below(12) {
            0 => bad_record(&mut pair, &mut random),
            1..=5 => append(&mut pair, &mut random),
            6 => {
                // The checksum is right already.
                pair.table.update_checksum();
                pair.same(Edit { number: 0, length: pair.length, checksum: pair.checksum }).map(|()| "update_checksum")
            }
            _ => write(&mut pair, &mut random, report),
        };
        let name = done.map_err(|why| format!("step {step}: {why}"))?;
        *report.steps.entry(name).or_default() += 1;
        if let Some(number) = name.strip_prefix("refused ") {
            *report.refused.entry(number[..2].parse().unwrap_or(0)).or_default() += 1;
        }
    }
    report.sequences += 1;
    report.largest = report.largest.max(pair.table.len());
    Ok(())
}

/// Runs `count` sequences and prints what was seen.
pub fn run(seed: u64, count: u64) -> bool {
    let mut report = Report::default();
    let mut differences = Vec::new();
    for number in 0..count {
        if let Err(why) = sequence(Random::of_case(seed, number), &mut report) {
            differences.push(format!("seed {seed} number {number}: {why}"));
        }
    }
    println!("sequences {}, largest table {}", report.sequences, report.largest);
    for (name, n) in &report.steps {
        println!("  {name} {n}");
    }
    println!("refused {:?}, panics of the crate {}", report.refused, report.panics);
    for difference in &differences {
        println!("DIFFERENCE {difference}");
    }
    println!("differences {}", differences.len());
    differences.is_empty()
}
