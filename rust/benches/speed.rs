//! How fast the calls are, in one process and one run. Ratios say something; times are this machine's.
//! `rust/bench` builds and runs it. An argument is the length of one measurement in milliseconds.
use acpi_table::{check, encode, read, Table};
use std::time::Duration;

const SIZES: [(&str, usize); 3] = [("20 KB", 20_000), ("200 KB", 200_000), ("2 MB", 2_000_000)];

// ── Term files of devices

#[derive(Default)]
struct Writer {
    records: Vec<u8>,
    pool: Vec<u8>,
}

impl Writer {
    fn put(&mut self, kind: u16, a: u16, kids: u32, x: u64, text: &[u8]) {
        let start = if text.is_empty() { 0 } else { self.pool.len() as u32 };
        self.pool.extend(text);
        self.records.extend(kind.to_le_bytes());
        self.records.extend(a.to_le_bytes());
        self.records.extend(kids.to_le_bytes());
        self.records.extend(x.to_le_bytes());
        self.records.extend(start.to_le_bytes());
        self.records.extend((text.len() as u32).to_le_bytes());
    }

    fn name(&mut self, path: &[u8]) {
        self.put(0x08, 0, 1, 0, path);
    }

    fn integer(&mut self, x: u64) {
        self.put(0x0E, 0, 0, x, b"");
    }

    fn space(&mut self, kind: u16, width: usize, min: u64, max: u64, a: u16, x: u64) {
        let text: Vec<u8> = [min, max, 0].iter().flat_map(|n| n.to_le_bytes()[..width].to_vec()).collect();
        self.put(kind, a, 0, x, &text);
    }

    /// One device: id, number, name, resources, a method, and so many bytes of data.
    fn device(&mut self, n: u64, data: usize) {
        let path = format!("D{:03X}", n % 4096);
        self.put(0x5B82, 0, 6, 0, path.as_bytes());
        self.name(b"_HID");
        self.put(0xE001, 0, 0, 0, b"PNP0501");
        self.name(b"_UID");
        self.integer(n);
        self.name(b"_DDN");
        self.put(0x0D, 0, 0, 0, format!("virtual serial port {:06}", n).as_bytes());
        self.name(b"_CRS");
        self.put(0xE003, 0, 4, 0, b"");
        self.put(0xE047, 0, 0, 0, &[0xF8, 0x03, 0xF8, 0x03, 1, 8]);
        self.put(0xE089, 1, 0, n % 1024, b"");
        self.put(0xE086, 1, 0, 0xFED0_0000 + (0x1000 << 32), b"");
        self.space(0xE08A, 8, 0x1_0000_0000, 0x1_0000_0FFF, 0, 1);
        self.put(0x14, 0, 1, 0, b"_STA");
        self.put(0xA4, 0, 1, 0, b"");
        self.integer(15);
        self.name(b"_DAT");
        self.put(0x11, 0, 1, 0, &vec![n as u8; data]);
        self.integer(data as u64);
    }

    fn file(&self) -> Vec<u8> {
        let end = 60 + self.records.len() as u32;
        let mut file = b"TERM".to_vec();
        for n in [self.records.len() as u32 / 24, 60, 0, end, self.pool.len() as u32, end] {
            file.extend(n.to_le_bytes());
        }
        file.extend(b"DSDT\x02");
        file.extend([0; 27]);
        file.extend(&self.records);
        file.extend(&self.pool);
        file
    }
}

/// A file whose table has at least so many bytes, and the table.
fn devices(size: usize, data: usize) -> Option<(Vec<u8>, Vec<u8>)> {
    let mut out = vec![0; 2 * size + 4096];
    let each = {
        let mut one = Writer::default();
        one.device(0, data);
        encode(&one.file(), &mut out).ok()? - 36
    };
    let mut all = Writer::default();
    (0..size as u64 / each as u64 + 1).for_each(|n| all.device(n, data));
    let file = all.file();
    let n = encode(&file, &mut out).ok()?;
    out.truncate(n);
    Some((file, out))
}

// ── Measuring

/// The value, in a way that the compiler cannot look through (`std::hint::black_box` is younger than rustc 1.63).
fn seen<T>(x: T) -> T {
    // SAFETY: the value is read from where it stands, and forgotten there.
    unsafe {
        let y = std::ptr::read_volatile(&x);
        std::mem::forget(x);
        y
    }
}

/// The time that this process was given, so that others on the machine are not measured.
fn now() -> Duration {
    #[repr(C)]
    struct Time {
        seconds: i64,
        nanoseconds: i64,
    }
    extern "C" {
        fn clock_gettime(clock: i32, time: *mut Time) -> i32;
    }
    const PROCESS: i32 = 2;
    let mut t = Time { seconds: 0, nanoseconds: 0 };
    // SAFETY: the C library's function writes to the struct that it is lent, which is laid out as on 64-bit Linux.
    assert_eq!(unsafe { clock_gettime(PROCESS, &mut t) }, 0);
    Duration::new(t.seconds as u64, t.nanoseconds as u32)
}

/// The shortest time of one call, of as many as fit the time.
fn time(length: Duration, call: &mut dyn FnMut()) -> f64 {
    let mut best = f64::MAX;
    let mut batch = 1u32;
    let start = now();
    while now() - start < length {
        let t = now();
        (0..batch).for_each(|_| call());
        let took = now() - t;
        best = best.min(took.as_secs_f64() / batch as f64);
        if took < Duration::from_micros(200) {
            batch *= 2;
        }
    }
    best
}

/// The table is made by appending it piece by piece, each append renewing the checksum of the whole.
fn append_all(table: &[u8], piece: usize, buffer: &mut [u8]) {
    let mut id = [0; 31];
    id[..4].copy_from_slice(&table[..4]);
    let mut t = Table::new(&id, 36, buffer).expect("room");
    table[36..].chunks(piece).for_each(|p| t.append(p).expect("room"));
    seen(t.checksum());
}

fn sum(bytes: &[u8]) -> u8 {
    bytes.iter().fold(0u8, |s, b| s.wrapping_add(*b))
}

fn row(mix: &str, label: &str, file: &[u8], table: &[u8], length: Duration) {
    let n = table.len();
    let mut out = vec![0; n];
    let records = u32::from_le_bytes([file[4], file[5], file[6], file[7]]);
    let copy = time(length, &mut || seen(&mut out[..]).copy_from_slice(seen(table)));
    let encoded = time(length, &mut || {
        seen(encode(seen(file), &mut out)).expect("accepted");
    });
    let list = Writer::default().file();
    let mut back = vec![0; file.len() + 8 * n];
    let was_read = time(length, &mut || {
        seen(read(seen(&list), seen(table), &mut back)).expect("a file's table");
    });
    let checked = time(length, &mut || seen(check(seen(file))).expect("accepted"));
    let own = time(length, &mut || {
        seen(sum(seen(table)));
    });
    let checksum = out[9];
    let renewed = time(length, &mut || Table::from_parts(&mut out, n as u32, checksum).append(&[]).expect("sound"));
    let written = time(length, &mut || Table::from_parts(&mut out, n as u32, checksum).write(36, seen(&table[36..])).expect("sound"));
    let appended = time(length, &mut || append_all(table, n / 16, &mut out));
    println!(
        "{:8} {:>7} {:>9} {:>7} {:>11.2} {:>8.1} {:>9.2} {:>10.2} {:>9.2} {:>11.2} {:>13.2}",
        mix,
        label,
        n,
        records,
        encoded * 1e9 / n as f64,
        encoded / copy,
        was_read / encoded,
        checked / encoded,
        renewed / own,
        written / own,
        appended / own
    );
}

fn main() {
    let length = std::env::args().skip(1).find_map(|a| a.parse().ok()).unwrap_or(300);
    let length = Duration::from_millis(length);
    println!("per row: a table of devices. ns/B: encode from the file, a byte of table; then ratios:");
    println!("encode to memcpy of the table; read to encode; check to encode; an empty append (one sum of the table),");
    println!("a write of all of it, and 16 appends that make it, each to the sum of it by rustc's own loop");
    println!("mix         size     bytes records encode ns/B  /memcpy  read/enc  check/enc  sum/loop  write/loop  appends/loop");
    for (mix, data) in [("plain", 16), ("data", 480)] {
        for (label, size) in SIZES {
            match devices(size, data) {
                Some((file, table)) => row(mix, label, &file, &table, length),
                None => println!("{:8} {:>7} over 65,536 records", mix, label),
            }
        }
    }
}
