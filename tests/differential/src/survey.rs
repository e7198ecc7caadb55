//! The survey: what document 01 says of a text's sections, each read alone, and the static library beside it.
use crate::catalogue::{encode, Record};
use crate::check::each_span;
use crate::generate::{damaged, not_utf8, Random};
use crate::grammar::from_grammar;
use crate::locate::{hoist, read};
use std::ops::Range;

/// What a survey hands out: the words of its catalogue and of its report.
#[derive(Debug, Clone, PartialEq)]
pub struct Survey {
    pub catalogue: Vec<u64>,
    pub report: Vec<u64>,
}

/// A cut is after every } whose preceding byte is LF.
pub fn sections(text: &[u8]) -> Vec<Range<usize>> {
    let mut start = 0;
    let mut all = Vec::new();
    for end in 2..=text.len() {
        if &text[end - 2..end] == b"\n}" {
            all.push(start..end);
            start = end;
        }
    }
    all.push(start..text.len());
    all
}

/// A section alone: its records before hoisting, or the number and place of its refusal.
fn alone(section: &[u8]) -> Result<Vec<Record>, (u64, usize)> {
    match std::str::from_utf8(section) {
        Ok(_) => read(section),
        Err(e) => Err((2, e.valid_up_to())),
    }
}

/// The records of a section at its start.
fn moved(mut records: Vec<Record>, start: usize) -> Vec<Record> {
    for r in &mut records {
        each_span(r, &mut |span| span.at += start);
    }
    records
}

/// The survey of a text within the limit: every section alone, moved to its start, hoisted once.
pub fn survey(text: &[u8]) -> Survey {
    let mut records = Vec::new();
    let mut report = Vec::new();
    for section in sections(text) {
        let start = section.start;
        let head = (start as u64) << 44 | (section.len() as u64) << 24;
        match alone(&text[section]) {
            Ok(own) => {
                records.extend(moved(own, start));
                report.push(head);
            }
            Err((number, place)) => report.push(head | number << 20 | (start + place) as u64),
        }
    }
    hoist(&mut records, text);
    Survey { catalogue: encode(&records), report }
}

/// Texts of many sections: sound ones from `sound`, damaged ones, blanks, comments and strings with a cut inside, bytes that are not UTF-8.
pub fn many(random: &mut Random, sound: fn(&mut Random) -> Vec<u8>) -> Vec<u8> {
    let mut text = Vec::new();
    let mut other = sound(random);
    for _ in 0..random.below(12) {
        let mut piece = match random.below(8) {
            0 => not_utf8(random),
            1 => random.pick(&["", " ", "/*", "*/", "//", "\"", "cluster C=1{shared enum E:t{}"]).as_bytes().to_vec(),
            2 | 3 => {
                let text = sound(random);
                damaged(random, &text, &other)
            }
            4 => b"cluster C=1{shared enum E:t{}shared bitmap E:t{}shared struct E{}}".to_vec(),
            _ => sound(random),
        };
        piece.truncate(4_000);
        other = piece.clone();
        // Most items end at a cut; few braces inside do.
        let last = piece.iter().rposition(|&b| b == b'}');
        for (i, b) in piece.into_iter().enumerate() {
            if b == b'}' && (if Some(i) == last { !random.chance(4) } else { random.chance(12) }) {
                text.push(b'\n');
            }
            text.push(b);
        }
        if random.chance(6) {
            text.extend(b"\n}");
        }
    }
    text
}

#[cfg(feature = "library")]
/// A section is replaced by other bytes; where all others are found unchanged, the number of those before it, of new ones, and of those after it.
fn replaced(random: &mut Random, text: &[u8], other: &[u8]) -> Option<(Vec<u8>, [usize; 3])> {
    let old = sections(text);
    let i = random.below(old.len());
    let section = old[i].clone();
    let new = match random.below(4) {
        0 => Vec::new(),
        1 => damaged(random, &text[section.clone()], other),
        2 => [other, b"\n}"].concat(),
        _ => b"x\n}enum E:t{\n}".to_vec(),
    };
    let changed = [&text[..section.start], &new, &text[section.end..]].concat();
    let found = sections(&changed);
    let back = old.len() - i - 1;
    let kept = |all: &[Range<usize>], text: &[u8]| all.iter().map(|s| text[s.clone()].to_vec()).collect::<Vec<_>>();
    let same = found.len() >= i + back
        && kept(&old[..i], text) == kept(&found[..i], &changed)
        && kept(&old[i + 1..], text) == kept(&found[found.len() - back..], &changed)
        && (changed.len() - (text.len() - section.len())) == found[i..found.len() - back].iter().map(Range::len).sum::<usize>();
    (same && changed.len() <= crate::outcome::LIMIT).then(|| {
        let middle = found.len() - i - back;
        (changed, [i, middle, back])
    })
}

/// Stored surveys: document 01's case 12, edges of cutting, thousands of sections, and short ones of a seed.
pub fn stored(seed: u64) -> Vec<Vec<u8>> {
    let mut all: Vec<Vec<u8>> = [
        "enum A:t{\n}\nenum B:t{\n}",
        "enum A:?{\n}\nenum B:t{\n}",
        "",
        "\n}",
        "}",
        "\n}\n}",
        "\n\n}}\n}",
        "enum A:t{}\n}",
        "/*\n}*/enum A:t{}",
        "/*\n}\n}*/",
        "//\n}\n",
        "endpoint 0{server cluster C{ram attribute a default=\"\n}\";\n}\n}",
        "enum A:t{a=1[b=\"\n}\"];\n}",
        "cluster C=1{\n  enum A:t{\n}\n}cluster D=2{\n}",
        "cluster C=1{shared enum E:t{}\n}cluster D=2{shared enum E:t{}\n}",
        "cluster C=1{shared enum E:t{}\n}cluster D=2{shared enum E:t{}x\n}cluster F=3{shared enum E:t{}\n}",
        "cluster C=1{x shared enum E:t{}\n}cluster D=2{shared enum E:t{}\n}",
        "enum E:t{\n}cluster D=2{shared enum E:t{}shared enum E:t{}\n}",
        "enum A:t{a=99999999999999999999;\n}enum B:t{\n}",
        "cluster C=1{attribute access(READ:view) t a=1;\n}endpoint 0{\n}",
    ]
    .iter()
    .map(|text| text.as_bytes().to_vec())
    .collect();
    all.push(b"\xff\n}enum B:t{\n}\xc3".to_vec());
    all.push([&b"\n}".repeat(4_095)[..], &b"enum E:t{\n}".repeat(4), b"?\n}enum F:t{}"].concat());
    let mut random = Random(seed);
    while all.len() < 150 {
        let text = many(&mut random, from_grammar);
        if text.len() <= 160 && sections(&text).len() > 1 {
            all.push(text);
        }
    }
    all.extend(ANNOTATED.map(|text| text.as_bytes().to_vec()));
    all
}

/// An annotation's spans move with their section, also where its value is empty. A cut inside a value leaves the sections without one.
/// Neighbours of a refused section and a dropped type keep their annotations.
const ANNOTATED: [&str; 6] = [
    "\n}enum E:t{a=1[b=\"c\"];}",
    "enum A:t{\n}enum E:t{a=1[b=\"\"];\n}bitmap B:t{a=1;b=2[c=\"d\" e=\"\\\"\",];\n}",
    "enum A:t{\n}enum E:t{a=1[b=\"\n}\"];\n}enum F:t{a=1[b=\"c\"];\n}",
    "enum E:t{a=1[b=\"c\"];\n}enum F:t{a=1[b=\"c\",,];\n}enum G:t{a=1[b=\"c\"];\n}",
    "cluster C=1{shared enum E:t{a=1[b=\"c\"];}\n}cluster D=2{shared enum E:t{a=1[b=\"d\"];}\n}",
    "cluster C=1{shared enum E:t{a=1[b=\"\"];}shared enum F:t{}\n}",
];

#[cfg(feature = "library")]
pub mod library {
    use super::*;
    use crate::catalogue::decode;
    use crate::grammar::annotated;
    use crate::reader::{matter_idl_read, matter_idl_survey, Library};

    fn call(text: &[u8], catalogue: usize, report: usize) -> (u64, Vec<u8>, Vec<u8>) {
        let (mut c, mut r) = (vec![Library::FILL; catalogue], vec![Library::FILL; report]);
        let result = unsafe { matter_idl_survey(text.as_ptr(), text.len(), c.as_mut_ptr(), c.len(), r.as_mut_ptr(), r.len()) };
        (result, c, r)
    }

    fn words(bytes: &[u8]) -> Vec<u64> {
        bytes.chunks(8).map(|c| u64::from_be_bytes(c.try_into().unwrap())).collect()
    }

    /// The survey in buffers of just the length needed, of more, and of a byte less, each refused in its order, with nothing written.
    pub fn surveyed(text: &[u8], owed: &Survey) -> Result<Survey, String> {
        let (c, r) = (owed.catalogue.len() * 8, owed.report.len() * 8);
        let (result, catalogue, report) = call(text, c, r);
        if result != c as u64 {
            return Err(format!("result {result:x}, {c} bytes of catalogue and {r} of report expected"));
        }
        let (more, longer, wider) = call(text, c + 24, r + 9);
        if more != result || longer[..c] != catalogue || wider[..r] != report || !Library::untouched(&longer[c..]) || !Library::untouched(&wider[r..]) {
            return Err("longer buffers: another survey, or bytes past it".into());
        }
        for (catalogue, report, refused) in [(c, r - 1, 8 << 56 | r as u64), (c.saturating_sub(1), r - 1, 8 << 56 | r as u64), (c.wrapping_sub(1), r, 7 << 56 | c as u64)] {
            if catalogue > c {
                continue;
            }
            let (result, short, narrow) = call(text, catalogue, report);
            if result != refused || !Library::untouched(&short) || !Library::untouched(&narrow) {
                return Err(format!("buffers of {catalogue} and {report}: {result:x}, {refused:x} expected, or one was written to"));
            }
        }
        Ok(Survey { catalogue: words(&catalogue), report: words(&report) })
    }

    /// A section alone by the library: its records as reading gives them.
    fn alone_by_reading(section: &[u8]) -> Result<Vec<Record>, (u64, usize)> {
        let mut catalogue = vec![0; 64 * section.len() + 64];
        let result = unsafe { matter_idl_read(section.as_ptr(), section.len(), catalogue.as_mut_ptr(), catalogue.len()) };
        let (number, value) = (result >> 56, (result & ((1 << 56) - 1)) as usize);
        if number != 0 {
            return Err((number, value));
        }
        Ok(decode(&words(&catalogue[..value])).expect("records of document 01's table"))
    }

    fn save_places(mut records: Vec<Record>) -> Vec<Record> {
        records.iter_mut().for_each(|r| r.place = 0);
        records
    }

    /// The library's survey is what it reads of each section alone, moved; if all are accepted, reading the whole is the same bytes.
    pub fn by_sections(text: &[u8], got: &Survey) -> Result<(), String> {
        let mut own = Vec::new();
        let mut accepted = true;
        for (section, entry) in sections(text).into_iter().zip(&got.report) {
            let (start, len) = (section.start, section.len());
            let (number, place) = match alone_by_reading(&text[section]) {
                Ok(records) => {
                    own.extend(moved(records, start));
                    (0, 0)
                }
                Err((number, place)) => {
                    accepted = false;
                    (number, start + place)
                }
            };
            if *entry != (start as u64) << 44 | (len as u64) << 24 | number << 20 | place as u64 {
                return Err(format!("the report says {entry:016x} of the section at {start}, alone it is {number} {place}"));
            }
        }
        let handed = decode(&got.catalogue)?;
        if save_places(handed) != save_places(own) {
            return Err("other records than the sections' own".into());
        }
        if accepted {
            let mut catalogue = vec![0; got.catalogue.len() * 8];
            let result = unsafe { matter_idl_read(text.as_ptr(), text.len(), catalogue.as_mut_ptr(), catalogue.len()) };
            if result != catalogue.len() as u64 || words(&catalogue) != got.catalogue {
                return Err("reading the whole gives other bytes".into());
            }
        }
        Ok(())
    }

    /// Of each section its number, its place and its records, save place marks, as if it began at 0. It has as many records as reading it alone gives.
    fn per_section(text: &[u8], got: &Survey) -> Vec<(u64, u64, Vec<Record>)> {
        let mut records = decode(&got.catalogue).unwrap().into_iter();
        let mut all = Vec::new();
        for (section, entry) in sections(text).into_iter().zip(&got.report) {
            let start = section.start;
            let count = alone_by_reading(&text[section]).map_or(0, |own| own.len());
            let mut own: Vec<Record> = records.by_ref().take(count).collect();
            own.iter_mut().for_each(|r| each_span(r, &mut |span| span.at = span.at.wrapping_sub(start)));
            let number = entry >> 20 & 15;
            let place = if number == 0 { 0 } else { (entry & 0xf_ffff) - start as u64 };
            all.push((number, place, save_places(own)));
        }
        all
    }

    /// One section replaced: all others are reported and handed out as before, moved by the change in length.
    fn replacement(random: &mut Random, text: &[u8], other: &[u8], before: &Survey) -> Result<bool, String> {
        let Some((changed, [front, middle, back])) = replaced(random, text, other) else {
            return Ok(false);
        };
        let after = surveyed(&changed, &survey(&changed))?;
        let (old, new) = (per_section(text, before), per_section(&changed, &after));
        if old[..front] != new[..front] || old[front + 1..] != new[front + middle..] || old.len() != front + 1 + back {
            return Err(format!("replaced, \"{}\": other sections changed", changed.escape_ascii()));
        }
        Ok(true)
    }

    fn differs(text: &[u8]) -> Option<String> {
        let owed = survey(text);
        match surveyed(text, &owed) {
            Ok(got) if got == owed => by_sections(text, &got).err(),
            Ok(got) => Some(format!("expected {owed:x?}\nsurveyed {got:x?}")),
            Err(e) => Some(e),
        }
    }

    /// Returns the number of disagreements.
    pub fn run(seed: u64, count: usize) -> usize {
        let mut random = Random(seed);
        let (mut found, mut parts, mut spoilt, mut replacements) = (0, 0, 0, 0);
        let mut other = Vec::new();
        for i in 0..count {
            let text = many(&mut random, if i % 4 == 0 { annotated } else { from_grammar });
            if let Some(what) = differs(&text) {
                found += 1;
                let small = crate::shrink::shrink(&text, &mut |t| differs(t).is_some());
                println!("disagreement on \"{}\"\n{}\n{what}", small.escape_ascii(), differs(&small).unwrap_or_default());
                continue;
            }
            let got = survey(&text);
            parts += got.report.len();
            spoilt += got.report.iter().filter(|e| *e >> 20 & 15 != 0).count();
            match replacement(&mut random, &text, &other, &got) {
                Ok(done) => replacements += done as usize,
                Err(e) => {
                    found += 1;
                    println!("disagreement on \"{}\"\n{e}", text.escape_ascii());
                }
            }
            other = text;
        }
        println!("{count} texts, {parts} sections, {spoilt} of them refused; {replacements} replacements; {found} disagreements");
        found
    }
}
