//! Every text of a seed, checked or compared, with figures.
use crate::check::{answer, check_panic, check_spans, Answer};
use crate::generate::*;
use crate::known;
use crate::outcome::LIMIT;
use crate::reader::Reader;
use crate::shrink::shrink;
use std::cell::RefCell;
use std::collections::{BTreeMap, HashSet};
use std::path::Path;

/// Calls `f` with the group and the text of every text of a seed: `count` texts from the grammar and three times as many damaged ones,
/// `count` with many annotations; from a thousand on, also long ones.
pub fn each_text(seed: u64, count: usize, f: &mut dyn FnMut(&'static str, &[u8])) {
    for known in known::texts() {
        f("known", &known);
    }
    for text in rust_examples() {
        f("examples", &text);
    }
    for short in SHORT {
        short.each(&mut |text| f("short", text));
    }
    let mut random = Random(seed);
    let mut other = Vec::new();
    for i in 0..count {
        let text = from_grammar(&mut random);
        f("grammar", &text);
        for _ in 0..3 {
            f("damaged", &damaged(&mut random, &text, &other));
        }
        if i % 40 == 0 {
            for cut in 0..text.len().min(400) {
                f("cut", &text[..cut]);
            }
        }
        if i % 8 == 0 {
            f("bytes", &not_utf8(&mut random));
        }
        other = text;
    }
    each_annotated(&mut random, count / 2, f);
    if count < 1_000 {
        return;
    }
    for len in [1_000, 20_000, 65_536, 65_537, 200_000, LIMIT] {
        let text = long(&mut random, len);
        f("long", &text);
        f("long", &damaged(&mut random, &text, &other));
    }
    for len in [LIMIT, LIMIT + 1] {
        f("limit", &vec![b' '; len]);
    }
}

/// Texts with many annotations, each sound (but for lists that fail) and damaged.
fn each_annotated(random: &mut Random, count: usize, f: &mut dyn FnMut(&'static str, &[u8])) {
    let mut other = Vec::new();
    for _ in 0..count {
        let text = annotated(random);
        f("annotated", &text);
        f("annotated", &damaged(random, &text, &other));
        other = text;
    }
}

/// Accepted texts, one after another, with blanks and an enum up to a length.
fn long(random: &mut Random, len: usize) -> Vec<u8> {
    let end = b"enum Last:t{}";
    let mut text = Vec::new();
    loop {
        let more = if random.chance(4) { annotated(random) } else { from_grammar(random) };
        if text.len() + more.len() + end.len() > len {
            break;
        }
        if matches!(answer(&more), Ok(Answer::Words(_))) {
            text.extend(more);
            // It may end in a line comment.
            text.push(b'\n');
        }
    }
    text.resize(len - end.len(), b' ');
    [&text[..], end].concat()
}

/// From the parser's sources, and the `.matter` files beside them if there are any.
fn rust_examples() -> Vec<Vec<u8>> {
    let sources = Path::new(env!("RUST_SOURCES"));
    let mut all = examples(&std::fs::read_to_string(sources.join("parser.rs")).unwrap());
    let mut folders = vec![sources.join("../..")];
    while let Some(folder) = folders.pop() {
        for entry in std::fs::read_dir(folder).unwrap().flatten() {
            let path = entry.path();
            if path.is_dir() && !path.is_symlink() {
                folders.push(path);
            } else if path.extension().is_some_and(|e| e == "matter") {
                all.extend(std::fs::read(path));
            }
        }
    }
    all
}

/// Figures by group and answer.
#[derive(Default)]
struct Figures(BTreeMap<(&'static str, String), usize>);

impl Figures {
    fn count(&mut self, group: &'static str, answer: &Answer) {
        let key = match answer {
            Answer::Words(_) => "accepted".into(),
            Answer::Refused(number, _) => format!("refused {number}"),
        };
        *self.0.entry((group, key)).or_default() += 1;
    }

    fn print(&self) {
        let mut total = 0;
        for ((group, answer), n) in &self.0 {
            println!("{group:10} {answer:10} {n:9}");
            total += n;
        }
        println!("{total} texts");
    }
}

/// Disagreements, made smaller; each smallest text is printed once, and of many only the first.
#[derive(Default)]
struct Disagreements {
    found: usize,
    printed: HashSet<Vec<u8>>,
}

impl Disagreements {
    /// `what` says how a text disagrees, if it does.
    fn look(&mut self, text: &[u8], what: &dyn Fn(&[u8]) -> Option<String>) {
        if what(text).is_none() {
            return;
        }
        self.found += 1;
        if self.found > 200 {
            return;
        }
        let small = shrink(text, &mut |t| what(t).is_some());
        if self.printed.insert(small.clone()) {
            println!("disagreement on \"{}\"\n{}", small.escape_ascii(), what(&small).unwrap());
        }
    }
}

/// The Rust beside `locate` on every text; places of panics and spans by the Rust alone on some. Returns the number of disagreements.
pub fn check(seed: u64, count: usize) -> usize {
    let (mut figures, mut disagreements) = (Figures::default(), Disagreements::default());
    let (mut panics, mut spans, mut turn) = (0, 0, 0u64);
    each_text(seed, count, &mut |group, text| {
        turn += 1;
        let answer = match answer(text) {
            Ok(answer) => answer,
            Err(_) => return disagreements.look(text, &|t| answer(t).err()),
        };
        figures.count(group, &answer);
        match answer {
            Answer::Refused(4..=6, _) if text.len() < 2_000 && (turn % 4 == 0 || group == "known") => {
                panics += 1;
                disagreements.look(text, &panic_wrong);
            }
            Answer::Words(_) if text.len() < 10_000 && (turn % 8 == 0 || group == "known") => {
                spans += 1;
                disagreements.look(text, &|t| check_spans(t).err());
            }
            _ => (),
        }
    });
    figures.print();
    println!("of these {panics} places of panics and the spans of {spans} texts tested by the Rust alone");
    println!("{} disagreements", disagreements.found);
    disagreements.found
}

fn panic_wrong(text: &[u8]) -> Option<String> {
    match answer(text) {
        Ok(Answer::Refused(number @ 4..=6, place)) => check_panic(text, number, place).err(),
        _ => None,
    }
}

/// A reader beside the Rust; one text of `every` is taken. Returns the number of disagreements.
pub fn compare(reader: &mut dyn Reader, seed: u64, count: usize, every: usize) -> usize {
    let (mut figures, mut disagreements, mut turn) = (Figures::default(), Disagreements::default(), 0);
    let reader = RefCell::new(reader);
    let differs = |text: &[u8]| {
        let mut reader = reader.borrow_mut();
        let owed = match answer(text) {
            Ok(answer) => reader.owed(text, answer),
            Err(e) => return Some(e),
        };
        match reader.read(text) {
            Ok(got) if got == owed => None,
            Ok(got) => Some(format!("the Rust:\n{owed}the reader:\n{got}")),
            Err(e) => Some(e),
        }
    };
    each_text(seed, count, &mut |group, text| {
        turn += 1;
        if turn % every != 0 && !matches!(group, "known" | "long" | "limit") {
            return;
        }
        if let Ok(answer) = answer(text) {
            figures.count(group, &answer);
        }
        disagreements.look(text, &differs);
    });
    figures.print();
    println!("{} disagreements", disagreements.found);
    disagreements.found
}
