//! The stored list of short texts with the Rust's answers.
//!
//! A line is a text's bytes in hexadecimal, then `=` and the catalogue's bytes in hexadecimal, or `!` and the result of a refusal as 16
//! hexadecimal digits: number * 2^56 + place. Surveys come after them. Digits are in lower case; every line ends in a line feed.
use crate::catalogue::{decode, encode, Kind, Record, Span};
use crate::check::{answer, Answer};
use crate::generate::*;
use crate::known;
use crate::survey::{stored, survey, Survey};
use std::collections::{BTreeMap, HashSet};

/// The longest text and catalogue in the list, in bytes, so that a program can hold any line's in fixed buffers.
const MOST_TEXT: usize = 128;
const MOST_CATALOGUE: usize = 512;
/// The longest list: the program holds it in one buffer.
const MOST_LIST: usize = 524_288;
/// Texts that are kept of each answer: accepted, then refused by 2 to 6.
const KEPT: [(u64, usize); 6] = [(0, 1_200), (2, 120), (3, 1_000), (4, 100), (5, 60), (6, 60)];
const KEPT_ANNOTATED: [(u64, usize); 1] = [(0, 15)];

pub fn line(text: &[u8], answer: &Answer) -> String {
    let digits: String = text.iter().map(|b| format!("{b:02x}")).collect();
    match answer {
        Answer::Words(words) => digits + "=" + &words.iter().map(|w| format!("{w:016x}")).collect::<String>(),
        Answer::Refused(number, place) => digits + &format!("!{:016x}", number << 56 | *place as u64),
    }
}

/// The papers' texts and those of the whole grammar, then those about annotations, each without the ones before.
pub fn vectors(seed: u64) -> Vec<(Vec<u8>, Answer)> {
    let mut list = List::default();
    list.all(known::papers());
    list.choose(candidates(seed), &KEPT, part_traits);
    list.all(known::annotations());
    list.choose(annotated_candidates(seed), &KEPT_ANNOTATED, annotation_traits);
    list.texts
}

/// What an accepted text shows.
type Traits = fn(&[u8], &[Record]) -> Vec<String>;

#[derive(Default)]
struct List {
    texts: Vec<(Vec<u8>, Answer)>,
    seen: HashSet<Vec<u8>>,
    traits: HashSet<String>,
}

impl List {
    /// The answer for a text that is not in the list.
    fn answer_new(&mut self, text: &[u8]) -> Option<Answer> {
        let new = self.seen.insert(text.to_vec());
        new.then(|| answer(text).expect("a text on which the Rust and locate agree"))
    }

    fn all(&mut self, texts: Vec<Vec<u8>>) {
        for text in texts {
            let answer = self.answer_new(&text);
            self.texts.extend(answer.map(|answer| (text, answer)));
        }
    }

    /// Of each answer those that show a new trait, short ones first, then any.
    fn choose(&mut self, texts: Vec<Vec<u8>>, kept: &[(u64, usize)], of_records: Traits) {
        let mut found = self.found(texts, of_records);
        for &(number, most) in kept {
            let (new, rest): (Vec<_>, Vec<_>) = found.remove(&number).unwrap_or_default().into_iter().partition(|(new, ..)| *new);
            // Of the rest, evenly from short to long.
            let missing = most.saturating_sub(new.len());
            let step = (rest.len() / missing.max(1)).max(1);
            let rest = rest.into_iter().step_by(step).take(missing);
            self.texts.extend(new.into_iter().take(most).chain(rest).map(|(_, text, answer)| (text, answer)));
        }
    }

    /// New texts by the number of their answer, each with whether it shows a new trait.
    fn found(&mut self, texts: Vec<Vec<u8>>, of_records: Traits) -> BTreeMap<u64, Vec<(bool, Vec<u8>, Answer)>> {
        let mut found: BTreeMap<u64, Vec<_>> = BTreeMap::new();
        for text in texts {
            let Some(answer) = self.answer_new(&text) else { continue };
            let all = match &answer {
                Answer::Words(words) if words.len() * 8 > MOST_CATALOGUE => continue,
                Answer::Words(words) => of_records(&text, &decode(words).unwrap()),
                Answer::Refused(number, place) => refusal_traits(&text, *number, *place),
            };
            let new = all.into_iter().filter(|t| self.traits.insert(t.clone())).count() > 0;
            found.entry(number_of(&answer)).or_default().push((new, text, answer));
        }
        found
    }
}

fn number_of(answer: &Answer) -> u64 {
    match answer {
        Answer::Words(_) => 0,
        Answer::Refused(number, _) => *number,
    }
}

/// Short texts, from the grammar, damaged, and some of the exhaustive ones.
fn candidates(seed: u64) -> Vec<Vec<u8>> {
    let mut random = Random(seed);
    let mut all = Vec::new();
    for short in SHORT {
        short.each(&mut |text| {
            if random.below(1 + short.count() / 2_000) == 0 && text.len() <= MOST_TEXT {
                all.push(text.to_vec());
            }
        });
    }
    let mut other = Vec::new();
    for _ in 0..20_000 {
        let text = Grammar::short(&mut random);
        all.push(damaged(&mut random, &text, &other));
        all.push(text.clone());
        if random.below(8) == 0 {
            all.push(Grammar::new(&mut random).hoisting());
        }
        all.push(not_utf8(&mut random));
        other = text;
    }
    all.retain(|text| text.len() <= MOST_TEXT);
    all.sort_by_key(|text| text.len() / 8);
    all
}

/// Short texts with many annotations.
fn annotated_candidates(seed: u64) -> Vec<Vec<u8>> {
    let mut random = Random(seed);
    let mut all: Vec<_> = (0..10_000).map(|_| annotated(&mut random)).collect();
    all.retain(|text| text.len() <= MOST_TEXT);
    all.sort_by_key(|text| text.len() / 8);
    all
}

/// Of a refusal its number with the tokens around its place.
fn refusal_traits(text: &[u8], number: u64, place: usize) -> Vec<String> {
    let token = |t: Option<&Vec<u8>>| t.map(|t| String::from_utf8_lossy(&t[..t.len().min(9)]).to_lowercase()).unwrap_or_default();
    let (before, after) = (tokens(&text[..place]), tokens(&text[place..]));
    let (before, after) = (token(before.last()), token(after.first()));
    vec![format!("{number} before {after:?}"), format!("{number} after {before:?}")]
}

/// Each field of each kind of record but annotations, which are chosen apart.
fn part_traits(_: &[u8], records: &[Record]) -> Vec<String> {
    records.iter().filter(|r| !matches!(r.kind, Kind::Annotation { .. })).flat_map(record_traits).collect()
}

/// Each value, and each key with its number in its list.
fn annotation_traits(text: &[u8], records: &[Record]) -> Vec<String> {
    let mut all = Vec::new();
    let mut nth = 0;
    for r in records {
        let Kind::Annotation { value } = r.kind else {
            nth = 0;
            continue;
        };
        nth += 1;
        let bytes = |s: Span| text[s.at..s.at + s.len].escape_ascii().to_string();
        all.push(format!("value \"{}\"", bytes(value)));
        all.push(format!("key {nth} {}", bytes(r.name.unwrap())));
    }
    all
}

fn record_traits(r: &Record) -> Vec<String> {
    let words = encode(std::slice::from_ref(r));
    let (first, kind) = (words[0], words[0] >> 56);
    let field = |what: &str, value: u64| format!("kind {kind} {what} {value}");
    let class = |word: u64| 64 - word.leading_zeros() as u64;
    let mut all = vec![
        field("place", first >> 54 & 3),
        field("maturity", first >> 52 & 3),
        field("doc", first >> 51 & 1),
        field("flags", first >> 44 & 127),
        field("privileges", first & 15),
    ];
    all.extend(words.iter().enumerate().skip(1).map(|(i, &w)| field(&format!("word {i}"), class(w))));
    all
}

/// A survey: the text's bytes, then `@` and the catalogue's bytes, then `+` and the report's.
fn survey_line(text: &[u8]) -> String {
    let Survey { catalogue, report } = survey(text);
    let digits: String = text.iter().map(|b| format!("{b:02x}")).collect();
    let words = |words: Vec<u64>| words.iter().map(|w| format!("{w:016x}")).collect::<String>();
    digits + "@" + &words(catalogue) + "+" + &words(report)
}

/// The list as a file, surveys last, with a count by answer on standard error.
pub fn print(seed: u64) -> Result<(), String> {
    let list = vectors(seed);
    let mut figures: BTreeMap<u64, usize> = BTreeMap::new();
    let mut lines = Vec::new();
    for (text, answer) in &list {
        lines.push(line(text, answer));
        *figures.entry(number_of(answer)).or_default() += 1;
    }
    let surveys = stored(seed);
    lines.extend(surveys.iter().map(|text| survey_line(text)));
    let file = lines.join("\n") + "\n";
    if file.len() > MOST_LIST {
        return Err(format!("{} bytes, of which the program holds {MOST_LIST}", file.len()));
    }
    print!("{file}");
    let short = list.iter().filter(|(text, _)| text.len() < 80).count();
    eprintln!("{} texts, {short} of them under 80 bytes; by number, 0 accepted: {figures:?}; {} surveys", list.len(), surveys.len());
    Ok(())
}
