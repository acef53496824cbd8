//! Trees that are always compared: each kind in each place, each option, and the limits.
use crate::generate::{path_of, BITS, INTEGERS};
use crate::kinds::*;
use crate::objects::{terms_of, Manner, REGISTER_SPACES};
use crate::random::Random;
use crate::tree::{file, Term, Tree};

pub struct Case {
    pub name: String,
    pub tree: Tree,
}

fn case(name: impl Into<String>, terms: Vec<Term>) -> Case {
    Case { name: name.into(), tree: Tree::of(terms) }
}

// ── Small terms

pub fn local(a: u16) -> Term {
    Term::new(LOCAL).a(a)
}

pub fn integer(x: u64) -> Term {
    Term::new(INTEGER).x(x)
}

pub fn string(text: impl AsRef<[u8]>) -> Term {
    Term::new(STRING).text(text)
}

pub fn returned(value: Term) -> Term {
    Term::new(RETURN).holding(value)
}

pub fn named(path: &str, datum: Term) -> Term {
    Term::new(NAME).text(path).holding(datum)
}

pub fn path(text: &str) -> Term {
    Term::new(CALL).text(text)
}

/// The text of an address space.
pub fn span(bytes: usize, min: u64, max: u64, translation: u64) -> Vec<u8> {
    [min, max, translation].iter().flat_map(|n| n.to_le_bytes()[..bytes].to_vec()).collect()
}

/// Different operands, so that their order is seen.
fn operands(n: usize) -> Vec<Term> {
    (0..n).map(|i| local(i as u16)).collect()
}

const UUID_TEXT: &str = "33DB4D5B-1ff7-401C-9657-7441c03dd766";

/// A term of a row with few children.
fn least(row: &Row) -> Term {
    let term = Term::new(row.kind);
    let term = match row.kind {
        METHOD => term.text("MTHD").a(3).x(1),
        POWER_RESOURCE => term.text("PWRR").a(0x1234).x(0x56),
        FIELD => term.text("FLDS").a(0x15),
        OP_REGION => term.text("REGN").a(2),
        MUTEX => term.text("MUTX").a(7),
        ACQUIRE => term.text("MUTX").a(0xBEEF),
        NAME | SCOPE | DEVICE | RELEASE | CREATE_FIELD | CREATE_DWORD_FIELD | CREATE_QWORD_FIELD | CALL => term.text("FOO_"),
        LOCAL | ARG => term.a(5),
        INTEGER => term.x(0x1234),
        STRING => term.text("text"),
        BUFFER => term.text([0xDE, 0xAD, 0]),
        EISA => term.text("PNP0a03"),
        UUID => term.text(UUID_TEXT),
        RESERVED => term.x(100),
        NAMED => term.text("BIT_").x(100),
        IO => term.text([0xF8, 3, 0xFF, 3, 1, 8]),
        REGISTER => term.text([1, 8, 2, 3, 0x88, 0x77, 0x66, 0x55, 0x44, 0x33, 0x22, 0x11]),
        MEMORY32 => term.a(1).x(0x1234_5678_9ABC_DEF0),
        INTERRUPT => term.a(9).x(0x1122_3344),
        SPACE16 => term.a(2).text(span(2, 0, 0xFF, 0)),
        SPACE32 => term.a(1).x(3).text(span(4, 0x1000, 0x1FFF, 0xABCD_EF01)),
        SPACE64 => term.a(0).x(5).text(span(8, 0x1_0000_0000, 0x1_FFFF_FFFF, 0x8000_0000_0000_0000)),
        _ => term,
    };
    term.with(match row.children {
        Children::Nothing | Children::Arguments => Vec::new(),
        Children::Operands(n) => operands(n),
        Children::Datum => vec![integer(1)],
        Children::Terms => vec![returned(local(1)), path("BAR_")],
        Children::Guarded => vec![local(0), returned(local(1)), path("BAR_")],
        Children::Entries => vec![Term::new(NAMED).text("FLD0").x(8), Term::new(RESERVED).x(24)],
        Children::Elements => vec![integer(1), path("BAR_")],
        Children::Descriptors => vec![Term::new(INTERRUPT).a(1).x(4)],
    })
}

fn standing(term: Term, place: Place) -> Term {
    match place {
        Place::List => term,
        Place::Operand => returned(term),
        Place::Data => named("DATA", term),
        Place::Element => returned(Term::new(PACKAGE).holding(term)),
        Place::Entry => Term::new(FIELD).text("REGN").holding(term),
        Place::Descriptor => returned(Term::new(TEMPLATE).holding(term)),
    }
}

// ── Every kind in every place

fn places() -> Vec<Case> {
    let mut cases = Vec::new();
    for row in rows() {
        for &place in row.places {
            cases.push(case(format!("{:X} {place:?}", row.kind), vec![standing(least(&row), place)]));
        }
        if [Children::Terms, Children::Entries, Children::Elements, Children::Descriptors].contains(&row.children) {
            let bare = least(&row).with(Vec::new());
            cases.push(case(format!("{:X} without children", row.kind), vec![standing(bare, row.places[0])]));
        }
        if row.children == Children::Guarded {
            let bare = least(&row).with(operands(1));
            cases.push(case(format!("{:X} without a list", row.kind), vec![bare]));
        }
    }
    cases
}

// ── Every option

fn options() -> Vec<Case> {
    let method = |a: u16, x: u64| Term::new(METHOD).text("MTHD").a(a).x(x);
    let field = |a: u16| Term::new(FIELD).text("REGN").a(a);
    let flags = |lock: u16, update: u16| (0..6).map(|access| field(access + 16 * lock + 32 * update)).collect();
    let region = |a: u16| Term::new(OP_REGION).text("REGN").a(a).with(operands(2));
    let template = |list: Vec<Term>| returned(Term::new(TEMPLATE).with(list));
    let mut cases = vec![
        case("Method of 0 to 7 arguments", (0..8).map(|a| method(a, 0)).collect()),
        case("Method, serialized", (0..8).map(|a| method(a, 1)).collect()),
        case("OpRegion spaces", (0..10).map(region).collect()),
        case("Mutex levels", (0..16).map(|a| Term::new(MUTEX).text("MUTX").a(a)).collect()),
        case("Acquire timeouts", [0, 1, 0xFF, 0x100, 0xFFFF].iter().map(|&a| Term::new(ACQUIRE).text("MUTX").a(a)).collect()),
        case("Local", (0..8).map(|a| returned(local(a))).collect()),
        case("Arg", (0..7).map(|a| returned(Term::new(ARG).a(a))).collect()),
        case("PowerResource limits", vec![
            Term::new(POWER_RESOURCE).text("PWRR"),
            Term::new(POWER_RESOURCE).text("PWRR").a(0xFFFF).x(0xFF),
        ]),
        case("PowerResources nested", vec![Term::new(POWER_RESOURCE).text("PWR0").holding(Term::new(POWER_RESOURCE).text("PWR1"))]),
        case("Interrupt flags", vec![template((0..16).map(|a| Term::new(INTERRUPT).a(a).x(u64::from(a))).collect())]),
        case("Interrupt numbers", vec![template(vec![Term::new(INTERRUPT), Term::new(INTERRUPT).x(0xFFFF_FFFF)])]),
        case("Memory32Fixed limits", vec![template(vec![
            Term::new(MEMORY32),
            Term::new(MEMORY32).a(1).x(u64::MAX),
            Term::new(MEMORY32).x(0xFFFF_FFFF),
            Term::new(MEMORY32).x(0xFFFF_FFFF_0000_0000),
        ])]),
        case("IO limits", vec![template(vec![Term::new(IO).text([0; 6]), Term::new(IO).text([0xFF; 6])])]),
        case("descriptors in a row", vec![template(rows().iter().filter(|r| r.places == [Place::Descriptor]).map(least).collect())]),
    ];
    for (lock, update) in [(0, 0), (0, 1), (0, 2), (1, 0), (1, 1), (1, 2)] {
        cases.push(case(format!("Field flags, lock {lock}, update {update}"), flags(lock, update)));
    }
    for (kind, bytes) in [(SPACE16, 2), (SPACE32, 4), (SPACE64, 8)] {
        let top = u64::MAX >> (64 - 8 * bytes);
        let space = |a: u16, x: u64, min, max, t| Term::new(kind).a(a).x(x).text(span(bytes, min, max, t));
        let memory = (0..8).map(|x| space(0, x, 0x10, 0x1F, x)).collect();
        let ends = vec![space(1, 3, 0, 0, 0), space(1, 3, 0, top - 1, top), space(1, 3, 1, top, 1), space(1, 3, top, top, 0)];
        cases.push(case(format!("{kind:X} memory flags"), vec![template(memory)]));
        cases.push(case(format!("{kind:X} IO limits"), vec![template(ends)]));
        cases.push(case(format!("{kind:X} bus"), vec![template(vec![space(2, 0, 0, 0xFF, 0), space(2, 0, 1, top, 0)])]));
    }
    let registers = REGISTER_SPACES.iter().enumerate().map(|(i, &space)| {
        Term::new(REGISTER).text([space as u8, 8 * i as u8, i as u8, i as u8 % 5, 0, 1, 2, 3, 4, 5, 6, 7])
    });
    cases.push(case("Register spaces", vec![template(registers.collect())]));
    cases
}

// ── Values

fn values() -> Vec<Case> {
    let mut random = Random::new(1);
    let all = |place| INTEGERS.iter().map(|&x| standing(integer(x), place)).collect::<Vec<Term>>();
    let mut cases = vec![
        case("integers as operands", all(Place::Operand)),
        case("integers as data", all(Place::Data)),
        case("integers as elements", vec![returned(Term::new(PACKAGE).with(INTEGERS.iter().map(|&x| integer(x)).collect()))]),
        case("field entries, named", vec![Term::new(FIELD).text("REGN").with(
            BITS.iter().map(|&x| Term::new(NAMED).text("BITS").x(x)).collect(),
        )]),
        case("field entries, reserved", vec![Term::new(FIELD).text("REGN").with(
            BITS.iter().map(|&x| Term::new(RESERVED).x(x)).collect(),
        )]),
        case("string of each byte", vec![named("DATA", string((1..0x80).collect::<Vec<u8>>()))]),
        case("buffer of each byte", vec![named("DATA", Term::new(BUFFER).text((0..=0xFF).collect::<Vec<u8>>()).holding(integer(256)))]),
        case("buffer smaller than its bytes", vec![named("DATA", Term::new(BUFFER).text([1, 2, 3]).holding(integer(2)))]),
        case("buffer larger than its bytes", vec![named("DATA", Term::new(BUFFER).text([1, 2, 3]).holding(integer(0x10000)))]),
        case("buffer without bytes", vec![named("DATA", Term::new(BUFFER).holding(integer(0)))]),
        case("255 elements", vec![returned(Term::new(PACKAGE).with(vec![integer(0); 255]))]),
        case("packages in packages", vec![returned(Term::new(PACKAGE).with(vec![
            Term::new(PACKAGE),
            Term::new(PACKAGE).holding(Term::new(PACKAGE).with(vec![integer(1); 2])),
        ]))]),
    ];
    for text in ["PNP0000", "PNP0501", "PNPFFFF", "AAA0000", "ZZZffff", "QEMAbCd"] {
        cases.push(case(format!("EISA id {text}"), vec![named("_HID", Term::new(EISA).text(text))]));
    }
    for text in ["00000000-0000-0000-0000-000000000000", "ffffffff-ffff-ffff-ffff-ffffffffffff", "00112233-4455-6677-8899-AaBbCcDdEeFf"] {
        cases.push(case(format!("UUID {text}"), vec![named("DATA", Term::new(UUID).text(text))]));
    }
    for segments in [1, 2, 3, 4, 5, 63, 254, 255] {
        for rooted in [false, true] {
            let text = path_of(&mut random, segments, rooted);
            let name = format!("path of {segments}{}", if rooted { ", rooted" } else { "" });
            cases.push(case(name, vec![Term::new(CALL).text(&text), Term::new(SCOPE).text(text)]));
        }
    }
    cases
}

// ── Calls, nesting

fn calls() -> Vec<Case> {
    let mut cases = Vec::new();
    for n in 1..8 {
        let call = |k: usize| path("CALL").with(operands(k));
        let mut nested = call(n);
        nested.children[n - 1] = call(n);
        let tree = Tree::of(vec![call(n), returned(nested), returned(Term::new(PACKAGE).holding(path("CALL")))]);
        cases.push(Case { name: format!("a call of {n}"), tree: tree.with_arity("CALL", n as u16) });
    }
    let mixed = Tree::of(vec![
        path("\\CALL").with(operands(2)),
        path("CALL").holding(local(3)),
        path("CALL.CALL"),
        path("CAL_").with(operands(3)),
    ]);
    let mixed = mixed.with_arity("CAL_", 3).with_arity("CALL", 1).with_arity("\\CALL", 2);
    let mut sorted = mixed;
    sorted.arities.sort();
    cases.push(Case { name: "calls by spelling".into(), tree: sorted });
    cases
}

/// `n` of a kind, each in the one before.
fn nest(n: usize, mut inner: Term, around: impl Fn(Term) -> Term) -> Term {
    for _ in 0..n {
        inner = around(inner);
    }
    inner
}

fn nesting() -> Vec<Case> {
    let scope = |t: Term| Term::new(SCOPE).text("FOO_").holding(t);
    let condition = Term::new(0x93).with(operands(2));
    let branch = vec![
        Term::new(IF).with(vec![condition.clone(), returned(integer(1))]),
        Term::new(ELSE).with(vec![
            Term::new(IF).with(vec![Term::new(0x9295).with(operands(2)), returned(integer(2))]),
            Term::new(ELSE).holding(returned(integer(3))),
        ]),
    ];
    let turn = Term::new(WHILE).with(vec![
        Term::new(0x95).with(operands(2)),
        Term::new(0x72).with(vec![local(0), integer(1), local(0)]),
        Term::new(IF).with(vec![condition, Term::new(NOTIFY).with(vec![path("DEV_"), integer(0x80)])]),
    ]);
    vec![
        case("If, Else, If, Else", branch),
        case("While", vec![turn]),
        case("64 levels of Scope", vec![nest(63, Term::new(SCOPE).text("FOO_"), scope)]),
        case("64 levels of Package", vec![returned(nest(62, Term::new(PACKAGE), |t| Term::new(PACKAGE).holding(t)))]),
        case("64 levels of ObjectType", vec![nest(63, local(7), |t| Term::new(0x8E).holding(t))]),
        case("64 levels of If", vec![nest(62, returned(local(0)), |t| Term::new(IF).with(vec![local(1), t]))]),
        case("a UUID on level 63", vec![nest(61, named("FOO_", Term::new(UUID).text(UUID_TEXT)), scope)]),
        case("a template on level 63", vec![nest(61, named("FOO_", Term::new(TEMPLATE).holding(Term::new(INTERRUPT))), scope)]),
        case("a target that is a name", vec![Term::new(STORE).with(vec![integer(1), path("\\_SB_.PCI0.FOO_")])]),
        case("no target", vec![returned(Term::new(0x72).with(vec![local(0), local(1), integer(0)]))]),
    ]
}

// ── Bodies of a given size

fn body_len(term: &Term) -> usize {
    let bytes = terms_of(&file(&Tree::of(vec![term.clone()])), Manner { mended: false, varied: false });
    let at = if term.kind > 0xFF { 2 } else { 1 };
    bytes.len() - at - 1 - usize::from(bytes[at] >> 6)
}

/// A term of a kind, first in its place, whose body has `n` bytes: a string or a buffer fills it. A Field's entries have at
/// most 8 bytes each, so 65,536 records hold no Field of 1,048,572 bytes.
pub fn sized(kind: u16, list: Vec<Term>, n: usize) -> Option<Term> {
    let row = rows().into_iter().find(|row| row.kind == kind)?;
    let with = |k: usize| {
        let fill = string(vec![b'z'; k]);
        let term = least(&row);
        match kind {
            BUFFER => term.text(vec![0x5A; k]),
            PACKAGE | VAR_PACKAGE => term.holding(fill),
            IF | WHILE => term.with([vec![local(0)], list.clone(), vec![named("FILL", fill)]].concat()),
            _ => term.with([list.clone(), vec![named("FILL", fill)]].concat()),
        }
    };
    if kind == FIELD {
        let left = n - 5;
        let full = if left > 64 { left / 8 - 1 } else { 0 };
        let rest = left - 8 * full;
        let (threes, twos) = (rest % 2, (rest - 3 * (rest % 2)) / 2);
        let mut entries = vec![Term::new(NAMED).text("WIDE").x(0xFF_FFFF); full];
        entries.extend(vec![Term::new(RESERVED).x(63); threes]);
        entries.extend(vec![Term::new(RESERVED).x(8); twos]);
        return if n < 500_000 { Some(least(&row).with(entries)) } else { None };
    }
    let bare = body_len(&with(0));
    if n < bare {
        return None;
    }
    Some(with(n - bare))
}

pub fn bodies(sizes: &[usize]) -> Vec<Case> {
    let mut cases = Vec::new();
    for kind in BODIES {
        let place = if [BUFFER, PACKAGE, VAR_PACKAGE].contains(&kind) { Place::Operand } else { Place::List };
        for &n in sizes {
            if let Some(term) = sized(kind, Vec::new(), n) {
                assert_eq!(body_len(&term), n, "kind {kind:X}");
                cases.push(case(format!("{kind:X} of {n}"), vec![standing(term, place)]));
            }
        }
    }
    cases
}

/// Templates and buffers whose size takes one more byte.
fn templates() -> Vec<Case> {
    let io = || Term::new(IO).text([1; 6]);
    let of = |n: usize| returned(Term::new(TEMPLATE).with((0..n).map(|_| io()).collect()));
    // 6, 7: the PkgLength grows; 31, 32: the size; 511, 512: the PkgLength again.
    [6, 7, 31, 32, 510, 511, 512].iter().map(|&n| case(format!("template of {n} IO"), vec![of(n)])).collect()
}

/// Small cases: their tables have some 4,000 bytes at most, but for the last.
pub fn small() -> Vec<Case> {
    let mut cases = vec![case("no term", Vec::new())];
    for part in [places(), options(), values(), calls(), nesting(), templates(), bodies(&[62, 63, 4093, 4094])] {
        cases.extend(part);
    }
    cases
}

/// Tables of a megabyte and more, and as many records as a file may have.
pub fn large() -> Vec<Case> {
    let mut cases = bodies(&[1_048_572, 1_048_573, 2_000_000]);
    cases.push(case("65,536 records", vec![path("FOO_"); 65_536]));
    let spaces = vec![Term::new(SPACE64).a(1).x(3).text(span(8, 0, 1, 0)); 65_534];
    cases.push(case("a template of 65,534", vec![named("_CRS", Term::new(TEMPLATE).with(spaces))]));
    for kind in [SCOPE, DEVICE, METHOD, POWER_RESOURCE, IF, ELSE, WHILE] {
        let inner: Vec<Term> = [62, 63, 4093, 4094].iter().filter_map(|&n| sized(kind, Vec::new(), n)).collect();
        let outer = sized(kind, inner, 1_048_573).expect("it fits");
        cases.push(case(format!("{kind:X} in itself, of 1048573"), vec![sized(kind, vec![outer], 1_048_700).expect("it fits")]));
    }
    cases
}
