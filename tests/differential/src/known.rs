//! Document 01's cases, the inputs of SEMANTICS.md and those of request L1, with the answers that the papers give.
use crate::catalogue::{decode, Kind, Record, Span, Value};
use crate::check::{answer, Answer};

pub enum Claim {
    Refused(u64, usize),
    /// All the words, by hand from document 01's table.
    Words(&'static [u64]),
    /// All the words after those of the first record, an enum's or a bitmap's.
    Entries(&'static [u64]),
    /// What the paper says of the accepted text's records.
    Accepted(fn(&[Record]) -> bool),
}

use Claim::{Accepted, Entries, Refused, Words};

/// The papers' short forms: C{ and P.
fn long(text: &str) -> Vec<u8> {
    if let Some(rest) = text.strip_prefix("C{") {
        return format!("cluster C=1{{{rest}").into_bytes();
    }
    if let Some(rest) = text.strip_prefix("P ") {
        return format!("endpoint 0{{server cluster C{{ram attribute a {rest}").into_bytes();
    }
    text.into()
}

fn default(records: &[Record], value: Value) -> bool {
    matches!(&records[2].kind, Kind::AttributeInstance { default, .. } if *default == value)
}

fn entry(records: &[Record], value: u64) -> bool {
    records[1].kind == Kind::Entry { code: value }
}

fn places(records: &[Record]) -> Vec<u64> {
    let types = records.iter().filter(|r| matches!(r.kind, Kind::Enum { .. } | Kind::Bitmap { .. } | Kind::Struct { .. }));
    types.map(|r| r.place).collect()
}

/// Document 01, and what follows from its rules at once.
const CASES: [(&str, Claim); 30] = [
    // The lister's example.
    ("enum E:t{}", Words(&[0x0240000005000010, 0, 0x0000700001000000])),
    // Case 1.
    ("", Words(&[])),
    ("//", Refused(3, 0)),
    ("//a", Words(&[])),
    // Case 2.
    ("/**/enum E:t{}", Words(&[0x0240000009000010, 0, 0x0000b00001000000])),
    ("/***/enum E:t{}", Words(&[0x024800000a000010, 0x0000300000000000, 0x0000c00001000000])),
    // Case 3.
    ("enum E:t{a=0XfF;}", Words(&[0x0240000005000010, 0, 0x0000700001000000, 0x0400000009000010, 255])),
    ("enum E:t{a=0x;}", Refused(3, 9)),
    // Case 4.
    ("enum E:t{a=18446744073709551615;}", Words(&[0x0240000005000010, 0, 0x0000700001000000, 0x0400000009000010, u64::MAX])),
    ("enum E:t{a=18446744073709551616;}", Refused(4, 11)),
    // Case 5.
    ("enum E:t{stable=1;}", Refused(3, 9)),
    // Case 6.
    ("REQUEST struct S{}", Words(&[0x054000000f000010, 0, 0])),
    // Case 7.
    ("struct S{Optional t a=1;}", Words(&[0x0540000007000010, 0, 0, 0x0600000014000010, 0x0001200001000000, 1, 0])),
    // Case 8.
    ("cluster A = 1 { revision 2; bogus }", Refused(3, 28)),
    // Case 9.
    ("cluster C=1{attribute access(READ: view) t a=1;}", Refused(6, 29)),
    // Case 10.
    (
        "C{shared enum E:t{} shared enum E:t{}}",
        Words(&[0x0100000008000010, 0, 1, 0, 0x0244000018000010, 0, 0x0001a00001000000, 0x024400002a000010, 0, 0x0002c00001000000]),
    ),
    (
        "C{shared enum E:t{} shared enum E:t{}}cluster D=2{shared enum E:t{}}",
        Words(&[
            0x0100000008000010, 0, 1, 0, 0x0244000018000010, 0, 0x0001a00001000000, 0x024400002a000010, 0, 0x0002c00001000000,
            0x0100000038000010, 0, 2, 0, 0x0284000048000010, 0, 0x0004a00001000000,
        ]),
    ),
    // Case 11.
    ("P default=-9223372036854775809;}}", Refused(3, 44)),
    ("P default=-9223372036854775808;}}", Words(&[0x0a00000000000000, 0, 0x0d0000001a000010, 0x0e0080002a000010, 0x8000000000000000])),
    // The sections of case 12, each alone.
    ("enum A:t{\n}", Accepted(|r| r.len() == 1)),
    ("\nenum B:t{\n}", Accepted(|r| r.len() == 1)),
    ("enum A:?{\n}", Refused(3, 7)),
    // Parts, leaves first: what document 01 says of tokens and flags.
    ("///enum E:t{}", Words(&[])),
    ("/**a*//*b*/enum E:t{}", Accepted(|r| r[0].doc.is_none())),
    ("/**a*/ \nenum E:t{}", Accepted(|r| r[0].doc == Some(Span { at: 3, len: 1 }))),
    ("/**a*//**b*/enum E:t{}", Accepted(|r| r[0].doc == Some(Span { at: 9, len: 1 }))),
    ("ENUM E:t{}", Accepted(|r| r.len() == 1)),
    ("C{revision 2;revision 3;}", Accepted(|r| r[0].kind == Kind::Cluster { code: 1, revision: 3 })),
    ("C{}", Accepted(|r| r[0].kind == Kind::Cluster { code: 1, revision: 0 })),
    ("C{attribute t a=1;}", Accepted(|r| r[1].kind == Kind::Attribute { flags: [false; 4], read: 0, write: 1 })),
];

/// SEMANTICS.md, and what follows from its sentences at once.
const SEMANTICS: [(&str, Claim); 76] = [
    // Blanks.
    ("//\r\nenum E:t{}", Refused(3, 0)),
    ("/*/", Refused(3, 0)),
    ("/*/*/", Words(&[])),
    ("\u{c}enum E:t{}", Refused(3, 0)),
    ("\u{a0}enum E:t{}", Refused(3, 0)),
    ("\u{feff}enum E:t{}", Refused(3, 0)),
    ("stable/**e*/enum E:t{}", Accepted(|r| r[0].doc.is_none())),
    ("/** a */ provisional /** b */ enum E:t{}", Accepted(|r| r[0].doc == Some(Span { at: 3, len: 3 }) && r[0].maturity == 1)),
    ("C{/**d*/ provisional revision 2;}", Accepted(|r| r.len() == 1 && r[0].doc.is_none() && r[0].maturity == 0)),
    // Places.
    ("enum", Refused(3, 4)),
    ("shared", Refused(3, 6)),
    ("client", Refused(3, 0)),
    ("client enum E:t{}", Refused(3, 7)),
    ("stable endpoint 0{}", Refused(3, 7)),
    ("enum E:t{a=1; stable b}", Refused(3, 14)),
    ("C{stable bogus}", Refused(3, 12)),
    ("C{ /**d*/ bogus}", Refused(3, 20)),
    ("endpoint 0{device type d=1,version 1}", Refused(3, 36)),
    ("P default=-x;}}", Refused(3, 44)),
    ("P default=0x;}}", Refused(3, 53)),
    // Entries.
    ("enum E:t{provisional=1;}", Refused(3, 9)),
    ("enum E:t{internal=1;}", Refused(3, 9)),
    ("enum E:t{deprecated=1;}", Refused(3, 9)),
    ("enum E:t{stable stable=1;}", Accepted(|r| r[1].name == Some(Span { at: 16, len: 6 }))),
    ("enum E:t{a=1[b=\"c\"d=\"e\",];}", Accepted(|r| r.len() == 4)),
    ("enum E:t{a=1[,];}", Refused(3, 9)),
    ("enum E:t{a=1[b=\"c\",,];}", Refused(3, 9)),
    ("enum E:t{a=1[b=\"\\n\"];}", Refused(3, 9)),
    ("enum E:t{a=1[b=\"\\r\"];}", Refused(3, 9)),
    // Integers.
    ("enum E:t{a=00000000000000000000000000001;}", Accepted(|r| entry(r, 1))),
    ("enum E:t{a=0x00000000000000000000000001;}", Accepted(|r| entry(r, 1))),
    ("enum E:t{a=00x1;}", Refused(3, 9)),
    ("struct S{t<99999999999999999999 a=1;}", Refused(4, 11)),
    ("P default=+18446744073709551616;}}", Refused(3, 44)),
    ("P default=18446744073709551616;}}", Refused(4, 52)),
    ("P default=-0x1;}}", Refused(3, 54)),
    ("P default=-0;}}", Accepted(|r| default(r, Value::Signed(0)))),
    ("P default=+5;}}", Accepted(|r| default(r, Value::Signed(5)))),
    ("P default=9223372036854775808;}}", Accepted(|r| default(r, Value::Number(1 << 63)))),
    // Flags and case.
    ("struct S{OPTIONAL optional t a=1;}", Accepted(|r| matches!(r[1].kind, Kind::Field { optional: true, .. }))),
    (
        "struct S{OPTIONAL t a=1;}",
        Accepted(|r| matches!(r[1].kind, Kind::Field { optional: false, data_type: Span { at: 18, len: 1 }, .. })),
    ),
    ("C{SHARED enum E:t{}}", Accepted(|r| places(r) == [1])),
    ("C{SHARED bitmap E:t{}}", Accepted(|r| places(r) == [1])),
    ("C{SHARED struct S{}}", Accepted(|r| places(r) == [0] && matches!(r[1].kind, Kind::Struct { form: 0, .. }))),
    ("RESPONSE struct R=1{}", Refused(3, 17)),
    ("fabric_scoped request struct S{}", Refused(3, 14)),
    ("struct S{optional a=1;}", Refused(3, 9)),
    ("C{internal attribute provisional t a=1;}", Accepted(|r| r[1].maturity == 2 && r[2].maturity == 1)),
    // Access.
    ("C{info event access(READ:view)e=1{}}", Accepted(|r| matches!(r[1].kind, Kind::Event { priority: 1, read: 0, .. }))),
    ("C{command access(INVOKE:view)c():R=1;}", Accepted(|r| matches!(r[1].kind, Kind::Command { invoke: 0, .. }))),
    ("C{attribute access(read : manage) t a=1;}", Accepted(|r| matches!(r[1].kind, Kind::Attribute { read: 2, write: 1, .. }))),
    ("C{info event access(read :view)e=1{}}", Refused(3, 12)),
    ("C{command access(invoke :view)c():R=1;}", Refused(3, 12)),
    ("C{attribute access() t a=1;}", Accepted(|r| matches!(r[1].kind, Kind::Attribute { read: 0, write: 1, .. }))),
    ("C{attribute access(read:manage,read:administer) t a=1;}", Accepted(|r| matches!(r[1].kind, Kind::Attribute { read: 3, .. }))),
    ("C{attribute access(READ:view,) t a=1;}", Refused(3, 12)),
    ("C{attribute access(READ:view)", Refused(6, 29)),
    (
        "C{command access(A):R=1;}",
        Accepted(|r| r[1].name == Some(Span { at: 20, len: 6 }) && matches!(r[1].kind, Kind::Command { input: Some(_), invoke: 1, .. })),
    ),
    ("C{attribute access a=1;}", Accepted(|r| matches!(r[2].kind, Kind::Field { data_type: Span { at: 22, len: 6 }, .. }))),
    // Fields.
    ("struct S{t<5>a=1;}", Refused(3, 9)),
    ("struct S{t<0> a=1;}", Accepted(|r| matches!(r[1].kind, Kind::Field { maximum: Some(0), .. }))),
    // Strings.
    ("P default=\"\\r", Refused(5, 53)),
    ("P default=\"\\x\\r\";}}", Refused(3, 44)),
    ("P default=\"\\\\r\";}}", Accepted(|r| default(r, Value::Text(Span { at: 53, len: 3 })))),
    ("P default=\"\";}}", Accepted(|r| default(r, Value::Text(Span { at: 53, len: 0 })))),
    ("P default=TRUE;}}", Accepted(|r| default(r, Value::Truth(true)))),
    (
        "endpoint 0{server cluster C{ram attribute default;}}",
        Accepted(|r| r[2].name == Some(Span { at: 42, len: 7 }) && default(r, Value::None)),
    ),
    // Hoisting.
    ("C{SHARED struct S{}shared struct S{}}", Accepted(|r| places(r) == [0, 1])),
    ("enum E:t{}enum E:t{}cluster C=1{shared enum E:t{}}", Accepted(|r| places(r) == [1, 1, 2])),
    ("C{shared enum E:t{}}enum E:t{}", Accepted(|r| places(r) == [1, 1])),
    ("C{shared enum E:t{}shared bitmap E:t{}shared struct E{}}", Accepted(|r| places(r) == [1, 1, 1])),
    ("C{enum E:t{}}cluster D=2{shared enum E:t{}}", Accepted(|r| places(r) == [0, 1])),
    ("C{shared enum E:t{}}cluster D=2{shared enum E:t{}enum E:t{}}", Accepted(|r| places(r) == [1, 2, 0])),
    // Order.
    ("endpoint 99999999999999999999", Refused(4, 9)),
    ("endpoint 99999999999999999999 \u{e9}", Refused(4, 9)),
    ("enum E:t{a=99999999999999999999;} bogus", Refused(4, 11)),
];

/// Document 02's request L1: each annotation is a record after its entry's.
const ANNOTATIONS: [(&str, Claim); 24] = [
    ("enum E:t{a=1[b=\"c\"];}", Entries(&[0x0400000009000010, 1, 0x110000000d000010, 0x0001000001000000])),
    ("bitmap B:t{a=1[b=\"c\"];}", Entries(&[0x040000000b000010, 1, 0x110000000f000010, 0x0001200001000000])),
    ("enum E:t{a=1;}", Entries(&[0x0400000009000010, 1])),
    ("enum E:t{a=1[];}", Entries(&[0x0400000009000010, 1])),
    ("enum E:t{a=1[ ];}", Entries(&[0x0400000009000010, 1])),
    ("enum E:t{a=1[b=\"\"];}", Entries(&[0x0400000009000010, 1, 0x110000000d000010, 0x0001000000000000])),
    (
        "enum E:t{a=1[b=\"c\"d=\"e\",];}",
        Entries(&[0x0400000009000010, 1, 0x110000000d000010, 0x0001000001000000, 0x1100000012000010, 0x0001500001000000]),
    ),
    (
        "enum E:t{a=1[b=\"c\",d=\"e\"];}",
        Entries(&[0x0400000009000010, 1, 0x110000000d000010, 0x0001000001000000, 0x1100000013000010, 0x0001600001000000]),
    ),
    (
        "enum E:t{a=1[b=\"c\",b=\"c\"];}",
        Entries(&[0x0400000009000010, 1, 0x110000000d000010, 0x0001000001000000, 0x1100000013000010, 0x0001600001000000]),
    ),
    (
        "enum E:t{a=1[b=\"x\"];c=2[d=\"y\"];}",
        Entries(&[
            0x0400000009000010, 1, 0x110000000d000010, 0x0001000001000000, 0x0400000014000010, 2, 0x1100000018000010, 0x0001b00001000000,
        ]),
    ),
    ("enum E:t{a=1[b=\"x\"];c=2;}", Entries(&[0x0400000009000010, 1, 0x110000000d000010, 0x0001000001000000, 0x0400000014000010, 2])),
    ("enum E:t{a=1[b=\"\\\"\\\\\"];}", Entries(&[0x0400000009000010, 1, 0x110000000d000010, 0x0001000004000000])),
    ("enum E:t{a=1[b=\"\n}\"];}", Entries(&[0x0400000009000010, 1, 0x110000000d000010, 0x0001000002000000])),
    ("enum E:t{a=1[b=\"\u{e9}\"];}", Entries(&[0x0400000009000010, 1, 0x110000000d000010, 0x0001000002000000])),
    ("enum E:t{a=1[b=\"//\"];}", Entries(&[0x0400000009000010, 1, 0x110000000d000010, 0x0001000002000000])),
    ("enum E:t{a=1[b=\"/*\"];}", Entries(&[0x0400000009000010, 1, 0x110000000d000010, 0x0001000002000000])),
    ("enum E:t{a=1[b=\"]\"];}", Entries(&[0x0400000009000010, 1, 0x110000000d000010, 0x0001000001000000])),
    (
        "enum E:t{a=1 /**/ [ /**x*/ b /**/ = /**/ \"c\" /**/ , /**/ ] /**/ ;}",
        Entries(&[0x0400000009000010, 1, 0x110000001b000010, 0x0002a00001000000]),
    ),
    ("enum E:t{stable stable=1[stable=\"stable\"];}", Entries(&[0x0400000010000060, 1, 0x1100000019000060, 0x0002100006000000])),
    ("enum E:t{internal a=1[b=\"c\"];}", Entries(&[0x0420000012000010, 1, 0x1100000016000010, 0x0001900001000000])),
    ("enum E:t{a=1[_1=\"c\"];}", Entries(&[0x0400000009000010, 1, 0x110000000d000020, 0x0001100001000000])),
    ("enum E:t{a=1[1b=\"c\"];}", Refused(3, 9)),
    // A dropped type's annotations are there too.
    (
        "C{shared enum E:t{a=1[b=\"c\"];}}cluster D=2{shared enum E:t{a=1[b=\"d\"];}}",
        Accepted(|r| r.len() == 8 && places(r) == [1, 2] && [3, 7].iter().all(|&i| matches!(r[i].kind, Kind::Annotation { .. }))),
    ),
    // Hoisting goes on after them.
    ("C{shared enum E:t{a=1[b=\"\"];}shared enum F:t{}}", Accepted(|r| places(r) == [1, 1])),
];

/// The one input that is not UTF-8.
const NOT_UTF8: &[u8] = b"endpoint 99999999999999999999\xff";

/// Of document 01 and SEMANTICS.md.
pub fn papers() -> Vec<Vec<u8>> {
    let mut all: Vec<_> = CASES.iter().chain(&SEMANTICS).map(|(text, _)| long(text)).collect();
    all.push(NOT_UTF8.into());
    all
}

pub fn annotations() -> Vec<Vec<u8>> {
    ANNOTATIONS.iter().map(|(text, _)| long(text)).collect()
}

pub fn texts() -> Vec<Vec<u8>> {
    [papers(), annotations()].concat()
}

fn holds(claim: &Claim, answer: &Answer) -> bool {
    match (claim, answer) {
        (Refused(number, place), Answer::Refused(n, p)) => number == n && place == p,
        (Words(words), Answer::Words(found)) => words == found,
        (Entries(words), Answer::Words(found)) => found.get(3..) == Some(*words),
        (Accepted(says), Answer::Words(found)) => decode(found).is_ok_and(|records| says(&records)),
        _ => false,
    }
}

/// Prints every claim that doesn't hold of the Rust's answer, and a count; returns how many don't.
pub fn check() -> usize {
    let mut wrong = 0;
    let last = (String::new(), NOT_UTF8.to_vec(), &Refused(2, 29));
    let claims = CASES.iter().chain(&SEMANTICS).chain(&ANNOTATIONS).map(|(text, claim)| (text.to_string(), long(text), claim));
    let claims: Vec<_> = claims.chain([last]).collect();
    for (short, text, claim) in &claims {
        let found = answer(text);
        if !found.as_ref().is_ok_and(|answer| holds(claim, answer)) {
            wrong += 1;
            println!("not as the paper says: {short:?}: {found:?}");
        }
    }
    println!("{} texts of document 01, SEMANTICS.md and request L1, {wrong} not as the paper says", claims.len());
    wrong
}
