//! A plain reader with offsets, after document 01's text and the order of the Rust's tries.
//!
//! The Rust's tree holds strings without offsets, parts of different kinds in lists of their own, no dropped types, and nothing after a panic.
//! Those are found here. What both tell (tree, number, place of a 3) is compared for every text; `check` also tests the spans by the Rust.
use crate::catalogue::{Kind, Record, Span, Value, RESPONSE, SHARED};
use std::collections::HashSet;

#[derive(Debug, PartialEq)]
pub enum Halt {
    /// A step failed; its place.
    Failed(usize),
    /// Where the Rust panics: number and place.
    Stopped(u64, usize),
}

/// The place of a type at the top level, until `hoist` gives it 1.
const TOP: u64 = 3;

type Step<T> = Result<T, Halt>;

struct Reader<'a> {
    text: &'a [u8],
    at: usize,
    records: Vec<Record>,
}

/// The records of a text, or the number and place of its refusal. The text is UTF-8 and within the limit.
pub fn locate(text: &[u8]) -> Result<Vec<Record>, (u64, usize)> {
    let mut records = read(text)?;
    hoist(&mut records, text);
    Ok(records)
}

/// The records before hoisting: the place is TOP for types at the top level, else 0.
pub fn read(text: &[u8]) -> Result<Vec<Record>, (u64, usize)> {
    let mut reader = Reader { text, at: 0, records: Vec::new() };
    while reader.at < text.len() {
        reader.item().map_err(refusal)?;
    }
    Ok(reader.records)
}

/// The first item: its records, with place 1 for a type at the top level and else 0, and the offset after it.
pub fn first_item(text: &[u8]) -> Result<(Vec<Record>, usize), (u64, usize)> {
    let mut reader = Reader { text, at: 0, records: Vec::new() };
    reader.item().map_err(refusal)?;
    reader.records.iter_mut().for_each(|r| r.place = r.place.min(1));
    Ok((reader.records, reader.at))
}

fn refusal(halt: Halt) -> (u64, usize) {
    match halt {
        Halt::Failed(place) => (3, place),
        Halt::Stopped(number, place) => (number, place),
    }
}

/// Marks the types of `read`'s records, by document 01's three tables of ids.
pub fn hoist(records: &mut [Record], text: &[u8]) {
    let mut tables = [HashSet::new(), HashSet::new(), HashSet::new()];
    let mut joining = Vec::new();
    for r in records {
        let (table, shared) = match r.kind {
            Kind::Enum { shared, .. } => (0, shared),
            Kind::Bitmap { shared, .. } => (1, shared),
            Kind::Struct { form, .. } => (2, form == SHARED),
            Kind::Cluster { .. } | Kind::Endpoint { .. } => {
                join(&mut tables, &mut joining);
                continue;
            }
            _ => continue,
        };
        let name = r.name.unwrap();
        let id = &text[name.at..name.at + name.len];
        if r.place == TOP {
            join(&mut tables, &mut joining);
            r.place = 1;
            tables[table].insert(id);
        } else if shared {
            r.place = if tables[table].contains(id) { 2 } else { 1 };
            joining.push((table, id));
        }
    }
}

fn join<'a>(tables: &mut [HashSet<&'a [u8]>; 3], joining: &mut Vec<(usize, &'a [u8])>) {
    for (table, id) in joining.drain(..) {
        tables[table].insert(id);
    }
}

fn letter(c: u8) -> bool {
    c.is_ascii_alphabetic() || c == b'_'
}

fn letter_or_digit(c: u8) -> bool {
    c.is_ascii_alphanumeric() || c == b'_'
}

const MATURITIES: [&str; 4] = ["stable", "provisional", "internal", "deprecated"];
const PRIVILEGES: [&str; 4] = ["view", "operate", "manage", "administer"];
const PRIORITIES: [&str; 3] = ["critical", "info", "debug"];
const HANDLINGS: [&str; 3] = ["ram", "callback", "persist"];
const FORMS: [&str; 3] = ["request", "response", "shared"];

// How steps are put together.
impl<'a> Reader<'a> {
    fn fail<T>(&self) -> Step<T> {
        Err(Halt::Failed(self.at))
    }

    fn rest(&self) -> &'a [u8] {
        &self.text[self.at..]
    }

    /// A try: after a failure the reader is as it was.
    fn attempt<T>(&mut self, step: impl FnOnce(&mut Self) -> Step<T>) -> Step<T> {
        let (at, len) = (self.at, self.records.len());
        let result = step(self);
        if result.is_err() {
            self.at = at;
            self.records.truncate(len);
        }
        result
    }

    /// A try whose failure passes no place on.
    fn option<T>(&mut self, step: impl FnOnce(&mut Self) -> Step<T>) -> Step<Option<T>> {
        match self.attempt(step) {
            Ok(value) => Ok(Some(value)),
            Err(Halt::Failed(_)) => Ok(None),
            Err(stop) => Err(stop),
        }
    }

    fn many<T>(&mut self, step: impl Fn(&mut Self) -> Step<T>) -> Step<Vec<T>> {
        let mut all = Vec::new();
        while let Some(value) = self.option(&step)? {
            all.push(value);
        }
        Ok(all)
    }

    /// The first try that succeeds; else the furthest place.
    fn first(&mut self, tries: &[&dyn Fn(&mut Self) -> Step<()>]) -> Step<()> {
        let mut furthest = 0;
        for step in tries {
            match self.attempt(step) {
                Err(Halt::Failed(place)) => furthest = furthest.max(place),
                done => return done,
            }
        }
        Err(Halt::Failed(furthest))
    }

    /// Parts up to a closing brace, where the furthest place of any try inside is kept.
    fn parts(&mut self, tries: &[&dyn Fn(&mut Self) -> Step<()>]) -> Step<()> {
        let mut furthest = 0;
        loop {
            self.blanks();
            let mut found = false;
            for step in tries {
                match self.attempt(step) {
                    Err(Halt::Failed(place)) => furthest = furthest.max(place),
                    Err(stop) => return Err(stop),
                    Ok(()) => {
                        found = true;
                        break;
                    }
                }
            }
            if !found {
                return self.tag("}").map_err(|_| Halt::Failed(furthest.max(self.at)));
            }
        }
    }

    fn push(&mut self, maturity: u64, doc: Option<Span>, name: Option<Span>, kind: Kind) {
        self.records.push(Record { place: 0, maturity, doc, name, kind });
    }
}

// Tokens.
impl<'a> Reader<'a> {
    /// Any blanks; the doc comment that counts.
    fn blanks(&mut self) -> Option<Span> {
        let mut doc = None;
        loop {
            let rest = self.rest();
            if rest.starts_with(b"//") {
                let len = rest.iter().position(|&c| c == b'\n' || c == b'\r').unwrap_or(rest.len());
                if len == 2 {
                    return doc;
                }
                doc = None;
                self.at += len;
            } else if rest.starts_with(b"/*") {
                let Some(len) = rest[2..].windows(2).position(|w| w == b"*/") else { return doc };
                doc = Some(Span { at: self.at + 3, len: len.wrapping_sub(1) }).filter(|_| len > 0 && rest[2] == b'*');
                self.at += len + 4;
            } else if rest.first().is_some_and(|c| b" \t\r\n".contains(c)) {
                self.at += 1;
            } else {
                return doc;
            }
        }
    }

    fn blank(&mut self) -> Step<()> {
        let at = self.at;
        self.blanks();
        if self.at == at {
            return self.fail();
        }
        Ok(())
    }

    fn tag(&mut self, tag: &str) -> Step<()> {
        if !self.rest().starts_with(tag.as_bytes()) {
            return self.fail();
        }
        self.at += tag.len();
        Ok(())
    }

    /// A tag with any blanks on both sides.
    fn spaced(&mut self, tag: &str) -> Step<()> {
        self.blanks();
        self.tag(tag)?;
        self.blanks();
        Ok(())
    }

    /// A tag with any blanks before it.
    fn closing(&mut self, tag: &str) -> Step<()> {
        self.blanks();
        self.tag(tag)
    }

    fn word(&mut self) -> Step<Span> {
        let rest = self.rest();
        if !rest.first().is_some_and(|&c| letter(c)) {
            return self.fail();
        }
        let len = rest.iter().position(|&c| !letter_or_digit(c)).unwrap_or(rest.len());
        let span = Span { at: self.at, len };
        self.at += len;
        Ok(span)
    }

    fn bytes(&self, span: Span) -> &'a [u8] {
        &self.text[span.at..span.at + span.len]
    }

    fn keyword(&mut self, keyword: &str) -> Step<Span> {
        self.attempt(|r| {
            let at = r.at;
            let span = r.word()?;
            if r.bytes(span).eq_ignore_ascii_case(keyword.as_bytes()) {
                Ok(span)
            } else {
                Err(Halt::Failed(at))
            }
        })
    }

    /// The index of one of several keywords.
    fn one_of(&mut self, keywords: &[&str]) -> Step<(u64, Span)> {
        for (i, keyword) in keywords.iter().enumerate() {
            if let Ok(span) = self.keyword(keyword) {
                return Ok((i as u64, span));
            }
        }
        self.fail()
    }

    fn maturity(&mut self) -> u64 {
        self.one_of(&MATURITIES).map_or(0, |(i, _)| i)
    }

    /// Which words of a set are there in lower case.
    fn set<const N: usize>(&mut self, words: [&str; N]) -> [bool; N] {
        let mut found = [false; N];
        let mut first = true;
        while let Ok((i, span)) = self.attempt(|r| {
            if !first {
                r.blank()?;
            }
            r.one_of(&words)
        }) {
            first = false;
            found[i as usize] |= self.bytes(span) == words[i as usize].as_bytes();
        }
        found
    }

    fn integer(&mut self) -> Step<u64> {
        let rest = self.rest();
        let hexadecimal = rest.len() > 2 && rest[0] == b'0' && rest[1] | 32 == b'x' && rest[2].is_ascii_hexdigit();
        let (start, radix) = if hexadecimal { (2, 16) } else { (0, 10) };
        let digits = rest[start..].iter().take_while(|&&c| (c as char).is_digit(radix)).count();
        if digits == 0 {
            return self.fail();
        }
        let mut value = 0u64;
        for &c in &rest[start..start + digits] {
            let digit = (c as char).to_digit(radix).unwrap() as u64;
            value = value.checked_mul(radix as u64).and_then(|v| v.checked_add(digit)).ok_or(Halt::Stopped(4, self.at))?;
        }
        self.at += start + digits;
        Ok(value)
    }

    /// An annotation's string: the span between its quotes.
    fn string(&mut self) -> Step<Span> {
        self.tag("\"")?;
        let at = self.at;
        loop {
            match self.rest() {
                [b'\\', b'"' | b'\\', ..] => self.at += 2,
                [] | [b'\\', ..] => return self.fail(),
                [b'"', ..] => return self.string_end(at),
                _ => self.at += 1,
            }
        }
    }

    /// A default's string: the span between its quotes.
    fn default_string(&mut self) -> Step<Span> {
        self.tag("\"")?;
        let at = self.at;
        loop {
            match self.rest() {
                [b'\\', b'r', ..] => return Err(Halt::Stopped(5, self.at)),
                [b'\\', b'"' | b'\\' | b'n' | b't', ..] => self.at += 2,
                [] | [b'\\', ..] => return self.fail(),
                [b'"', ..] => return self.string_end(at),
                _ => self.at += 1,
            }
        }
    }

    /// The span from a string's first byte to the quote that is next.
    fn string_end(&mut self, at: usize) -> Step<Span> {
        let len = self.at - at;
        self.tag("\"")?;
        Ok(Span { at, len })
    }

    fn signed(&mut self) -> Step<i64> {
        let rest = self.rest();
        if !matches!(rest.first(), Some(b'+' | b'-')) {
            return self.fail();
        }
        let len = 1 + rest[1..].iter().take_while(|c| c.is_ascii_digit()).count();
        let value = std::str::from_utf8(&rest[..len]).unwrap().parse().or(self.fail())?;
        self.at += len;
        Ok(value)
    }
}

// Items.
impl Reader<'_> {
    fn item(&mut self) -> Step<()> {
        self.first(&[
            &Self::cluster,
            &Self::endpoint,
            &|r| r.top(|r, doc, maturity| r.enumeration(doc, maturity, "enum")),
            &|r| r.top(|r, doc, maturity| r.enumeration(doc, maturity, "bitmap")),
            &|r| r.top(Self::structure),
            &Self::blank,
        ])
    }

    fn front(&mut self) -> (Option<Span>, u64) {
        let doc = self.blanks();
        let maturity = self.maturity();
        self.blanks();
        (doc, maturity)
    }

    fn top(&mut self, step: impl Fn(&mut Self, Option<Span>, u64) -> Step<()>) -> Step<()> {
        let first = self.records.len();
        let (doc, maturity) = self.front();
        step(self, doc, maturity)?;
        self.records[first].place = TOP;
        Ok(())
    }

    fn enumeration(&mut self, doc: Option<Span>, maturity: u64, keyword: &str) -> Step<()> {
        let shared = self.option(|r| {
            r.keyword("shared")?;
            r.blank()
        })?;
        let shared = shared.is_some();
        self.keyword(keyword)?;
        self.blank()?;
        let name = self.word()?;
        self.spaced(":")?;
        let base = self.word()?;
        let kind = if keyword == "enum" { Kind::Enum { shared, base } } else { Kind::Bitmap { shared, base } };
        self.push(maturity, doc, Some(name), kind);
        self.closing("{")?;
        self.many(Self::entry)?;
        self.closing("}")
    }

    fn entry(&mut self) -> Step<()> {
        let (_, maturity) = self.front();
        let name = self.word()?;
        self.spaced("=")?;
        let code = self.integer()?;
        self.blanks();
        let annotations = self.option(Self::annotations)?;
        self.closing(";")?;
        self.push(maturity, None, Some(name), Kind::Entry { code });
        for (key, value) in annotations.unwrap_or_default() {
            self.push(0, None, Some(key), Kind::Annotation { value });
        }
        Ok(())
    }

    fn annotations(&mut self) -> Step<Vec<(Span, Span)>> {
        self.tag("[")?;
        let all = self.many(|r| {
            r.blanks();
            let key = r.word()?;
            r.spaced("=")?;
            let value = r.string()?;
            r.blanks();
            r.option(|r| r.tag(","))?;
            Ok((key, value))
        })?;
        self.closing("]")?;
        Ok(all)
    }

    fn structure(&mut self, doc: Option<Span>, maturity: u64) -> Step<()> {
        let form = match self.one_of(&FORMS) {
            Ok((i, span)) if self.bytes(span) == FORMS[i as usize].as_bytes() => i + 1,
            _ => 0,
        };
        self.blanks();
        let [fabric_scoped] = self.set(["fabric_scoped"]);
        self.blanks();
        self.keyword("struct")?;
        self.blank()?;
        let name = self.word()?;
        self.blanks();
        let mut code = 0;
        if form == RESPONSE {
            self.tag("=")?;
            self.blanks();
            code = self.integer()?;
            self.blanks();
        }
        self.push(maturity, doc, Some(name), Kind::Struct { form, fabric_scoped, code });
        self.fields()
    }

    fn fields(&mut self) -> Step<()> {
        self.tag("{")?;
        self.many(|r| {
            r.field()?;
            r.closing(";")
        })?;
        self.closing("}")
    }

    fn field(&mut self) -> Step<()> {
        let (_, maturity) = self.front();
        let [optional, nullable, fabric_sensitive] = self.set(["optional", "nullable", "fabric_sensitive"]);
        self.blanks();
        let data_type = self.word()?;
        let maximum = self.option(|r| {
            r.spaced("<")?;
            let maximum = r.integer()?;
            r.closing(">")?;
            Ok(maximum)
        })?;
        self.blank()?;
        let name = self.word()?;
        self.blanks();
        let list = self.option(|r| {
            r.tag("[")?;
            r.spaced("]")
        })?;
        self.tag("=")?;
        self.blanks();
        let code = self.integer()?;
        let list = list.is_some();
        self.push(maturity, None, Some(name), Kind::Field { list, maximum, optional, nullable, fabric_sensitive, data_type, code });
        Ok(())
    }

    fn cluster(&mut self) -> Step<()> {
        let (doc, maturity) = self.front();
        self.option(|r| {
            r.one_of(&["client", "server"])?;
            r.blank()
        })?;
        self.keyword("cluster")?;
        self.blank()?;
        let name = self.word()?;
        self.spaced("=")?;
        let code = self.integer()?;
        self.closing("{")?;
        let first = self.records.len();
        self.push(maturity, doc, Some(name), Kind::Cluster { code, revision: 0 });
        self.many(|r| r.member(first))?;
        self.closing("}")
    }

    fn member(&mut self, cluster: usize) -> Step<()> {
        let (doc, maturity) = self.front();
        self.first(&[
            &|r| r.revision(cluster),
            &|r| r.enumeration(doc, maturity, "bitmap"),
            &|r| r.enumeration(doc, maturity, "enum"),
            &|r| r.structure(doc, maturity),
            &|r| r.attribute(doc, maturity),
            &|r| r.command(doc, maturity),
            &|r| r.event(doc, maturity),
        ])
    }

    fn revision(&mut self, cluster: usize) -> Step<()> {
        self.keyword("revision")?;
        self.blank()?;
        let number = self.integer()?;
        self.closing(";")?;
        let Kind::Cluster { revision, .. } = &mut self.records[cluster].kind else { unreachable!() };
        *revision = number;
        Ok(())
    }

    fn attribute(&mut self, doc: Option<Span>, maturity: u64) -> Step<()> {
        let flags = self.set(["readonly", "writeonly", "nosubscribe", "timedwrite"]);
        self.blanks();
        self.keyword("attribute")?;
        self.blank()?;
        let (read, write) = self.attribute_access()?;
        self.push(maturity, doc, None, Kind::Attribute { flags, read, write });
        self.field()?;
        self.closing(";")
    }

    fn attribute_access(&mut self) -> Step<(u64, u64)> {
        let list = self.option(|r| {
            r.blanks();
            r.keyword("access")?;
            r.spaced("(")?;
            let mut list = Vec::new();
            while let Ok(entry) = r.attempt(|r| {
                if !list.is_empty() {
                    r.spaced(",")?;
                }
                r.blanks();
                let (_, word) = r.one_of(&["read", "write"])?;
                r.spaced(":")?;
                let (privilege, _) = r.one_of(&PRIVILEGES)?;
                r.blanks();
                Ok((word, privilege))
            }) {
                list.push(entry);
            }
            r.closing(")")?;
            Ok(list)
        })?;
        let (mut read, mut write) = (0, 1);
        for (word, privilege) in list.unwrap_or_default() {
            match self.bytes(word) {
                b"read" => read = privilege,
                b"write" => write = privilege,
                _ => return Err(Halt::Stopped(6, word.at)),
            }
        }
        Ok((read, write))
    }

    /// `access(read: view)` of events and `access(invoke: view)` of commands: no blank before the colon.
    fn access(&mut self, word: &str) -> Step<Option<u64>> {
        self.option(|r| {
            r.keyword("access")?;
            r.spaced("(")?;
            r.keyword(word)?;
            r.tag(":")?;
            r.blanks();
            let (privilege, _) = r.one_of(&PRIVILEGES)?;
            r.closing(")")?;
            Ok(privilege)
        })
    }

    fn command(&mut self, doc: Option<Span>, maturity: u64) -> Step<()> {
        let [timed, fabric] = self.set(["timed", "fabric"]);
        self.blanks();
        self.keyword("command")?;
        self.blanks();
        let invoke = self.access("invoke")?.unwrap_or(1);
        self.blanks();
        let name = self.word()?;
        self.spaced("(")?;
        let input = self.option(Self::word)?;
        self.closing(")")?;
        self.spaced(":")?;
        let output = self.word()?;
        self.spaced("=")?;
        let code = self.integer()?;
        self.closing(";")?;
        self.push(maturity, doc, Some(name), Kind::Command { timed, fabric, input, output, code, invoke });
        Ok(())
    }

    fn event(&mut self, doc: Option<Span>, maturity: u64) -> Step<()> {
        let [fabric_sensitive] = self.set(["fabric_sensitive"]);
        self.blanks();
        let (priority, _) = self.one_of(&PRIORITIES)?;
        self.blank()?;
        self.keyword("event")?;
        self.blank()?;
        let read = self.access("read")?.unwrap_or(0);
        self.blanks();
        let name = self.word()?;
        self.spaced("=")?;
        let code = self.integer()?;
        self.push(maturity, doc, Some(name), Kind::Event { priority, fabric_sensitive, code, read });
        self.blanks();
        self.fields()
    }

    fn endpoint(&mut self) -> Step<()> {
        self.blanks();
        self.keyword("endpoint")?;
        self.blank()?;
        let id = self.integer()?;
        self.closing("{")?;
        self.push(0, None, None, Kind::Endpoint { id });
        self.parts(&[&Self::device_type, &|r| r.named(["binding", "cluster"], Kind::Binding), &Self::instantiation])
    }

    /// Two keywords, a name and a semicolon.
    fn named(&mut self, keywords: [&str; 2], kind: Kind) -> Step<()> {
        for keyword in keywords {
            self.keyword(keyword)?;
            self.blank()?;
        }
        let name = self.word()?;
        self.closing(";")?;
        self.push(0, None, Some(name), kind);
        Ok(())
    }

    fn device_type(&mut self) -> Step<()> {
        self.keyword("device")?;
        self.blank()?;
        self.keyword("type")?;
        self.blank()?;
        let name = self.word()?;
        self.spaced("=")?;
        let code = self.integer()?;
        self.spaced(",")?;
        self.keyword("version")?;
        self.blanks();
        let version = self.integer()?;
        self.closing(";")?;
        self.push(0, None, Some(name), Kind::DeviceType { code, version });
        Ok(())
    }

    fn instantiation(&mut self) -> Step<()> {
        self.keyword("server")?;
        self.blank()?;
        self.keyword("cluster")?;
        self.blank()?;
        let name = self.word()?;
        self.closing("{")?;
        self.push(0, None, Some(name), Kind::Instantiation);
        self.parts(&[&Self::attribute_instance, &|r| r.named(["handle", "command"], Kind::CommandInstance), &|r| {
            r.named(["emits", "event"], Kind::EventInstance)
        }])
    }

    fn attribute_instance(&mut self) -> Step<()> {
        let (handling, _) = self.one_of(&HANDLINGS)?;
        self.blank()?;
        self.keyword("attribute")?;
        self.blank()?;
        let name = self.word()?;
        let default = self.option(|r| {
            r.blank()?;
            r.default()
        })?;
        self.closing(";")?;
        let default = default.unwrap_or(Value::None);
        self.push(0, None, Some(name), Kind::AttributeInstance { handling, default });
        Ok(())
    }

    fn default(&mut self) -> Step<Value> {
        self.keyword("default")?;
        self.spaced("=")?;
        if let Some(n) = self.option(Self::integer)? {
            return Ok(Value::Number(n));
        }
        if let Some(n) = self.option(Self::signed)? {
            return Ok(Value::Signed(n));
        }
        if let Some((i, _)) = self.option(|r| r.one_of(&["false", "true"]))? {
            return Ok(Value::Truth(i == 1));
        }
        self.default_string().map(Value::Text)
    }
}
