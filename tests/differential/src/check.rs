//! The answer that document 01's table gives for what the Rust says of a text, and the checks of it.
use crate::catalogue::{decode, encode, Kind, Record, Span, Value};
use crate::locate::{hoist, locate, read};
use crate::outcome::{rust_outcome, Outcome};
use crate::tree::tree;
use std::fmt;

#[derive(Debug, Clone, PartialEq)]
pub enum Answer {
    Words(Vec<u64>),
    Refused(u64, usize),
}

/// As the lister writes it.
impl fmt::Display for Answer {
    fn fmt(&self, f: &mut fmt::Formatter) -> fmt::Result {
        match self {
            Answer::Words(words) => words.iter().try_for_each(|w| writeln!(f, "{w:016x}")),
            Answer::Refused(number, place) => writeln!(f, "refused {number} {place}"),
        }
    }
}

/// The answer for a text, or a disagreement between the Rust and `locate`.
pub fn answer(text: &[u8]) -> Result<Answer, String> {
    let rust = rust_outcome(text);
    if let Outcome::Refused(number @ 1..=2, place) = rust {
        return Ok(Answer::Refused(number, place));
    }
    match (rust, locate(text)) {
        (Outcome::Accepted(idl), Ok(records)) => {
            let words = encode(&records);
            let again = decode(&words)?;
            if again != records {
                return Err(format!("decoded to {again:?}\nfrom {records:?}"));
            }
            let found = tree(&again, text)?;
            if found != idl {
                return Err(format!("tree of the records {found:?}\nthe Rust's {idl:?}"));
            }
            Ok(Answer::Words(words))
        }
        (Outcome::Refused(3, at), Err((3, place))) if at == place => Ok(Answer::Refused(3, at)),
        (Outcome::Panicked(n), Err((number, place))) if n == number => Ok(Answer::Refused(n, place)),
        (rust, found) => Err(format!("the Rust {rust:?}\nlocate {found:?}")),
    }
}

/// The place of a panic, tested by the Rust alone: the shortest front of the text on which the Rust panics so ends where document 01 puts the cause.
pub fn check_panic(text: &[u8], number: u64, place: usize) -> Result<(), String> {
    let panics = |end: &usize| rust_outcome(&text[..*end]) == Outcome::Panicked(number);
    let end = (0..=text.len()).find(panics).ok_or("no front panics")?;
    let fits = match number {
        // Inside the integer's digits.
        4 => text.get(place + 2..end).is_some_and(|digits| digits.iter().all(u8::is_ascii_hexdigit)),
        // After the backslash and the r.
        5 => end == place + 2 && text[place..end] == *b"\\r",
        // At the list's end.
        6 => place < end && text[end - 1] == b')',
        _ => false,
    };
    if fits {
        Ok(())
    } else {
        Err(format!("{number} at {place}, but the shortest front that panics ends at {end}"))
    }
}

/// The spans of a text's records, tested by the Rust alone: another word put at a span changes the Rust's tree at that span's part and nowhere else;
/// at an annotation's, nowhere. A dropped type is first renamed, so that the Rust shows it.
pub fn check_spans(text: &[u8]) -> Result<(), String> {
    match read(text) {
        Ok(records) => check_spans_of(records, text),
        Err(_) => Ok(()),
    }
}

pub fn check_spans_of(mut records: Vec<Record>, text: &[u8]) -> Result<(), String> {
    let mut text = text.to_vec();
    for i in 0..records.len() {
        let mut marked = records.clone();
        hoist(&mut marked, &text);
        if marked[i].place == 2 {
            let name = marked[i].name.unwrap();
            (records, text) = put(&records, &text, name, format!("renamed_{i}").as_bytes());
            agrees(&records, &text, name)?;
        }
    }
    for span in spans(&records) {
        agrees_with(&records, &text, span, b"Put_here")?;
    }
    check_annotations(&records, &text)?;
    check_quotes(&records, &text)
}

/// The annotations, which the Rust's tree hasn't: with blanks put around a key the text is accepted, with no word there it isn't; nor is it with an escape
/// that annotations haven't at a value. That a value is between quotes is `tree`'s.
fn check_annotations(records: &[Record], text: &[u8]) -> Result<(), String> {
    for r in records {
        let (Kind::Annotation { value }, Some(key)) = (&r.kind, r.name) else { continue };
        agrees_with(records, text, key, b" x ")?;
        for (span, wrong) in [(key, &b"1"[..]), (*value, b"\\n")] {
            let (_, text) = put(records, text, span, wrong);
            if let Outcome::Accepted(_) = rust_outcome(&text) {
                return Err(format!("accepted by the Rust with \"{}\" at {span:?}", wrong.escape_ascii()));
            }
        }
    }
    Ok(())
}

/// No string is missed: a quote outside the records' strings is in a comment, where another byte changes nothing else.
fn check_quotes(records: &[Record], text: &[u8]) -> Result<(), String> {
    let strings: Vec<Span> = records.iter().filter_map(string_of).collect();
    for at in (0..text.len()).filter(|&at| text[at] == b'"') {
        if !strings.iter().any(|s| s.at <= at + 1 && at <= s.at + s.len) {
            agrees_with(records, text, Span { at, len: 1 }, b"x")?;
        }
    }
    Ok(())
}

fn string_of(r: &Record) -> Option<Span> {
    match r.kind {
        Kind::Annotation { value } | Kind::AttributeInstance { default: Value::Text(value), .. } => Some(value),
        _ => None,
    }
}

/// With other bytes at a span the Rust's tree is that of the records.
fn agrees_with(records: &[Record], text: &[u8], span: Span, word: &[u8]) -> Result<(), String> {
    let (records, text) = put(records, text, span, word);
    agrees(&records, &text, span)
}

fn agrees(records: &[Record], text: &[u8], span: Span) -> Result<(), String> {
    let mut records = records.to_vec();
    hoist(&mut records, text);
    let found = tree(&records, text)?;
    match rust_outcome(text) {
        Outcome::Accepted(idl) if idl == found => Ok(()),
        other => Err(format!("a word put at {span:?}: tree of the records {found:?}\nthe Rust {other:?}")),
    }
}

fn spans(records: &[Record]) -> Vec<Span> {
    let mut all = Vec::new();
    for r in &mut records.to_vec() {
        each_span(r, &mut |span| all.push(*span));
    }
    all
}

pub fn each_span(r: &mut Record, f: &mut impl FnMut(&mut Span)) {
    r.name.as_mut().map(&mut *f);
    r.doc.as_mut().map(&mut *f);
    match &mut r.kind {
        Kind::Enum { base, .. } | Kind::Bitmap { base, .. } => f(base),
        Kind::Field { data_type, .. } => f(data_type),
        Kind::Command { input, output, .. } => {
            input.as_mut().map(&mut *f);
            f(output);
        }
        Kind::AttributeInstance { default: Value::Text(span), .. } | Kind::Annotation { value: span } => f(span),
        _ => (),
    }
}

/// Puts other bytes at a span, and moves the spans after it.
fn put(records: &[Record], text: &[u8], span: Span, word: &[u8]) -> (Vec<Record>, Vec<u8>) {
    let mut records = records.to_vec();
    for r in &mut records {
        each_span(r, &mut |s| {
            if *s == span {
                s.len = word.len();
            } else if s.at > span.at {
                s.at = s.at + word.len() - span.len;
            }
        });
    }
    let text = [&text[..span.at], word, &text[span.at + span.len..]].concat();
    (records, text)
}
