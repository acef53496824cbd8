//! A tree of terms, and its term file.
use std::collections::HashMap;

#[derive(Clone, Debug, Default, PartialEq)]
pub struct Term {
    pub kind: u16,
    pub text: Vec<u8>,
    pub a: u16,
    pub x: u64,
    pub children: Vec<Term>,
}

impl Term {
    pub fn new(kind: u16) -> Self {
        Term { kind, ..Term::default() }
    }

    pub fn text(mut self, text: impl AsRef<[u8]>) -> Self {
        self.text = text.as_ref().to_vec();
        self
    }

    pub fn a(mut self, a: u16) -> Self {
        self.a = a;
        self
    }

    pub fn x(mut self, x: u64) -> Self {
        self.x = x;
        self
    }

    pub fn with(mut self, children: Vec<Term>) -> Self {
        self.children = children;
        self
    }

    pub fn holding(self, child: Term) -> Self {
        self.with(vec![child])
    }

    /// How many records it has.
    pub fn records(&self) -> usize {
        1 + self.children.iter().map(Term::records).sum::<usize>()
    }
}

#[derive(Clone, Debug, PartialEq)]
pub struct Tree {
    pub identity: [u8; 31],
    /// Ascending by path.
    pub arities: Vec<(Vec<u8>, u16)>,
    pub terms: Vec<Term>,
    /// Whether equal texts share their bytes in the pool.
    pub shared: bool,
}

impl Tree {
    pub fn of(terms: Vec<Term>) -> Self {
        Tree { identity: [0; 31], arities: Vec::new(), terms, shared: true }
    }

    pub fn with_arity(mut self, path: &str, arguments: u16) -> Self {
        self.arities.push((path.as_bytes().to_vec(), arguments));
        self
    }

    pub fn records(&self) -> usize {
        self.terms.iter().map(Term::records).sum()
    }
}

#[derive(Default)]
struct Pool {
    bytes: Vec<u8>,
    places: HashMap<Vec<u8>, usize>,
    shared: bool,
}

impl Pool {
    /// Where the text stands; an empty one starts at 0.
    fn place(&mut self, text: &[u8]) -> u32 {
        if text.is_empty() {
            return 0;
        }
        if self.shared {
            if let Some(&at) = self.places.get(text) {
                return at as u32;
            }
            self.places.insert(text.to_vec(), self.bytes.len());
        }
        let at = self.bytes.len();
        self.bytes.extend_from_slice(text);
        at as u32
    }
}

fn put_u32(out: &mut Vec<u8>, n: usize) {
    out.extend_from_slice(&(n as u32).to_le_bytes());
}

fn put_records(terms: &[Term], pool: &mut Pool, out: &mut Vec<u8>) {
    for term in terms {
        out.extend_from_slice(&term.kind.to_le_bytes());
        out.extend_from_slice(&term.a.to_le_bytes());
        put_u32(out, term.children.len());
        out.extend_from_slice(&term.x.to_le_bytes());
        let at = pool.place(&term.text);
        out.extend_from_slice(&at.to_le_bytes());
        put_u32(out, term.text.len());
        put_records(&term.children, pool, out);
    }
}

/// The term file of a tree ("The term file").
pub fn file(tree: &Tree) -> Vec<u8> {
    let mut pool = Pool { shared: tree.shared, ..Pool::default() };
    let mut entries = Vec::new();
    for (path, arguments) in &tree.arities {
        let at = pool.place(path);
        entries.extend_from_slice(&at.to_le_bytes());
        entries.extend_from_slice(&(path.len() as u16).to_le_bytes());
        entries.extend_from_slice(&arguments.to_le_bytes());
    }
    let mut records = Vec::new();
    put_records(&tree.terms, &mut pool, &mut records);
    let mut out = b"TERM".to_vec();
    put_u32(&mut out, records.len() / 24);
    put_u32(&mut out, 60);
    put_u32(&mut out, entries.len() / 8);
    put_u32(&mut out, 60 + records.len());
    put_u32(&mut out, pool.bytes.len());
    put_u32(&mut out, 60 + records.len() + entries.len());
    out.extend_from_slice(&tree.identity);
    out.push(0);
    out.extend_from_slice(&records);
    out.extend_from_slice(&entries);
    out.extend_from_slice(&pool.bytes);
    out
}

// ── A file's records, for those who read one that is known to be accepted

#[derive(Clone, Copy)]
pub struct Record<'f> {
    pub kind: u16,
    pub a: u16,
    pub children: usize,
    pub x: u64,
    pub text: &'f [u8],
}

pub struct File<'f> {
    pub bytes: &'f [u8],
    pool: &'f [u8],
}

fn u32_at(b: &[u8], at: usize) -> usize {
    u32::from_le_bytes([b[at], b[at + 1], b[at + 2], b[at + 3]]) as usize
}

fn u16_at(b: &[u8], at: usize) -> u16 {
    u16::from_le_bytes([b[at], b[at + 1]])
}

impl<'f> File<'f> {
    pub fn new(bytes: &'f [u8]) -> Self {
        File { bytes, pool: &bytes[u32_at(bytes, 24)..] }
    }

    pub fn identity(&self) -> &'f [u8] {
        &self.bytes[28..59]
    }

    pub fn records(&self) -> usize {
        u32_at(self.bytes, 4)
    }

    pub fn record(&self, i: usize) -> Record<'f> {
        let b = &self.bytes[60 + 24 * i..84 + 24 * i];
        let mut x = [0; 8];
        x.copy_from_slice(&b[8..16]);
        let from = u32_at(b, 16);
        Record {
            kind: u16_at(b, 0),
            a: u16_at(b, 2),
            children: u32_at(b, 4),
            x: u64::from_le_bytes(x),
            text: &self.pool[from..from + u32_at(b, 20)],
        }
    }

    pub fn arities(&self) -> Vec<(&'f [u8], u16)> {
        let from = u32_at(self.bytes, 16);
        (0..u32_at(self.bytes, 12))
            .map(|i| {
                let b = &self.bytes[from + 8 * i..from + 8 * i + 8];
                let start = u32_at(b, 0);
                (&self.pool[start..start + usize::from(u16_at(b, 4))], u16_at(b, 6))
            })
            .collect()
    }

    pub fn pool(&self) -> &'f [u8] {
        self.pool
    }
}
