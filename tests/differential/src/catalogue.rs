//! Document 01's table with document 02's annotations: records as runs of words, and back.

#[derive(Debug, Clone, Copy, PartialEq)]
pub struct Span {
    pub at: usize,
    pub len: usize,
}

/// Places, maturities, privileges and the like are document 01's numbers. An annotation's name is its key.
#[derive(Debug, Clone, PartialEq)]
pub struct Record {
    pub place: u64,
    pub maturity: u64,
    pub doc: Option<Span>,
    pub name: Option<Span>,
    pub kind: Kind,
}

#[derive(Debug, Clone, PartialEq)]
pub enum Kind {
    Cluster { code: u64, revision: u64 },
    Enum { shared: bool, base: Span },
    Bitmap { shared: bool, base: Span },
    Entry { code: u64 },
    Struct { form: u64, fabric_scoped: bool, code: u64 },
    Field { list: bool, maximum: Option<u64>, optional: bool, nullable: bool, fabric_sensitive: bool, data_type: Span, code: u64 },
    Attribute { flags: [bool; 4], read: u64, write: u64 },
    Command { timed: bool, fabric: bool, input: Option<Span>, output: Span, code: u64, invoke: u64 },
    Event { priority: u64, fabric_sensitive: bool, code: u64, read: u64 },
    Endpoint { id: u64 },
    DeviceType { code: u64, version: u64 },
    Binding,
    Instantiation,
    AttributeInstance { handling: u64, default: Value },
    CommandInstance,
    EventInstance,
    Annotation { value: Span },
}

#[derive(Debug, Clone, PartialEq)]
pub enum Value {
    None,
    Number(u64),
    Signed(i64),
    Truth(bool),
    Text(Span),
}

pub const SHARED: u64 = 3;
pub const RESPONSE: u64 = 2;

/// Fields with their widths, the most significant first, the rest zero.
fn pack(fields: &[(u64, u32)]) -> u64 {
    let mut word = 0;
    let mut left = 64;
    for &(value, width) in fields {
        assert!(value >> width == 0, "{value} is wider than {width} bits");
        left -= width;
        word |= value << left;
    }
    word
}

fn span_word(span: Option<Span>) -> u64 {
    span.map_or(0, |s| pack(&[(s.at as u64, 20), (s.len as u64, 20)]))
}

pub fn encode(records: &[Record]) -> Vec<u64> {
    let mut words = Vec::new();
    for r in records {
        encode_one(r, &mut words);
    }
    words
}

fn encode_one(r: &Record, words: &mut Vec<u64>) {
    let doc = span_word(r.doc);
    let b = |flag: bool| (flag as u64, 1);
    let (number, flags, privileges, further) = match r.kind {
        Kind::Cluster { code, revision } => (1, vec![], (0, 0), vec![doc, code, revision]),
        Kind::Enum { shared, base } => (2, vec![b(shared)], (0, 0), vec![doc, span_word(Some(base))]),
        Kind::Bitmap { shared, base } => (3, vec![b(shared)], (0, 0), vec![doc, span_word(Some(base))]),
        Kind::Entry { code } => (4, vec![], (0, 0), vec![code]),
        Kind::Struct { form, fabric_scoped, code } => (5, vec![(form, 2), b(fabric_scoped)], (0, 0), vec![doc, code]),
        Kind::Field { list, maximum, optional, nullable, fabric_sensitive, data_type, code } => {
            let flags = vec![b(list), b(maximum.is_some()), b(optional), b(nullable), b(fabric_sensitive)];
            (6, flags, (0, 0), vec![span_word(Some(data_type)), code, maximum.unwrap_or(0)])
        }
        Kind::Attribute { flags, read, write } => (7, flags.map(b).to_vec(), (read, write), vec![doc]),
        Kind::Command { timed, fabric, input, output, code, invoke } => {
            let further = vec![doc, span_word(input), span_word(Some(output)), code];
            (8, vec![b(timed), b(fabric), b(input.is_some())], (invoke, 0), further)
        }
        Kind::Event { priority, fabric_sensitive, code, read } => (9, vec![(priority, 2), b(fabric_sensitive)], (read, 0), vec![doc, code]),
        Kind::Endpoint { id } => (10, vec![], (0, 0), vec![id]),
        Kind::DeviceType { code, version } => (11, vec![], (0, 0), vec![code, version]),
        Kind::Binding => (12, vec![], (0, 0), vec![]),
        Kind::Instantiation => (13, vec![], (0, 0), vec![]),
        Kind::AttributeInstance { handling, ref default } => {
            let (number, value) = match *default {
                Value::None => (0, 0),
                Value::Number(n) => (1, n),
                Value::Signed(n) => (2, n as u64),
                Value::Truth(t) => (3, t as u64),
                Value::Text(s) => (4, span_word(Some(s))),
            };
            (14, vec![(handling, 2), (number, 3)], (0, 0), vec![value])
        }
        Kind::CommandInstance => (15, vec![], (0, 0), vec![]),
        Kind::EventInstance => (16, vec![], (0, 0), vec![]),
        Kind::Annotation { value } => (17, vec![], (0, 0), vec![span_word(Some(value))]),
    };
    let name = r.name.unwrap_or(Span { at: 0, len: 0 });
    let flags = pack(&flags) >> 57;
    let head = [(number, 8), (r.place, 2), (r.maturity, 2), b(r.doc.is_some()), (flags, 7)];
    let tail = [(name.at as u64, 20), (name.len as u64, 20), (privileges.0, 2), (privileges.1, 2)];
    words.push(pack(&[&head[..], &tail[..]].concat()));
    words.extend(further);
}

/// A word taken apart from the top.
struct Bits(u64, u32);

impl Bits {
    fn take(&mut self, width: u32) -> u64 {
        self.1 += width;
        self.0 >> (64 - self.1) & ((1 << width) - 1)
    }

    fn flag(&mut self) -> bool {
        self.take(1) == 1
    }

    fn span(&mut self) -> Span {
        Span { at: self.take(20) as usize, len: self.take(20) as usize }
    }
}

/// The records of a catalogue. A bit that the table doesn't give a meaning is an error: the records written again must be the same words.
pub fn decode(words: &[u64]) -> Result<Vec<Record>, String> {
    let mut rest = words.iter().copied();
    let mut records = Vec::new();
    while let Some(first) = rest.next() {
        let record = decode_one(first, &mut rest).ok_or(format!("record {} is cut or of no kind", records.len()))?;
        let mut again = Vec::new();
        encode_one(&record, &mut again);
        let end = words.len() - rest.len();
        if again != words[end - again.len()..end] {
            return Err(format!("record {} has a bit outside the table: {record:?}", records.len()));
        }
        records.push(record);
    }
    Ok(records)
}

fn decode_one(first: u64, rest: &mut impl Iterator<Item = u64>) -> Option<Record> {
    let mut bits = Bits(first, 0);
    let (number, place, maturity, has_doc) = (bits.take(8), bits.take(2), bits.take(2), bits.flag());
    let mut flags = Bits(first, bits.1);
    bits.take(7);
    let name = Some(bits.span()).filter(|_| number != 7 && number != 10);
    let (p, q) = (bits.take(2), bits.take(2));
    let mut doc = None;
    if matches!(number, 1..=3 | 5 | 7..=9) {
        doc = Some(Bits(rest.next()?, 0).span()).filter(|_| has_doc);
    }
    let mut word = || rest.next();
    let span = |word: u64| Bits(word, 0).span();
    let kind = match number {
        1 => Kind::Cluster { code: word()?, revision: word()? },
        2 => Kind::Enum { shared: flags.flag(), base: span(word()?) },
        3 => Kind::Bitmap { shared: flags.flag(), base: span(word()?) },
        4 => Kind::Entry { code: word()? },
        5 => Kind::Struct { form: flags.take(2), fabric_scoped: flags.flag(), code: word()? },
        6 => {
            let (list, has_maximum) = (flags.flag(), flags.flag());
            let (optional, nullable, fabric_sensitive) = (flags.flag(), flags.flag(), flags.flag());
            let (data_type, code, maximum) = (span(word()?), word()?, Some(word()?).filter(|_| has_maximum));
            Kind::Field { list, maximum, optional, nullable, fabric_sensitive, data_type, code }
        }
        7 => Kind::Attribute { flags: [flags.flag(), flags.flag(), flags.flag(), flags.flag()], read: p, write: q },
        8 => {
            let (timed, fabric, has_input) = (flags.flag(), flags.flag(), flags.flag());
            let (input, output) = (Some(span(word()?)).filter(|_| has_input), span(word()?));
            Kind::Command { timed, fabric, input, output, code: word()?, invoke: p }
        }
        9 => Kind::Event { priority: flags.take(2), fabric_sensitive: flags.flag(), code: word()?, read: p },
        10 => Kind::Endpoint { id: word()? },
        11 => Kind::DeviceType { code: word()?, version: word()? },
        12 => Kind::Binding,
        13 => Kind::Instantiation,
        14 => {
            let (handling, number, value) = (flags.take(2), flags.take(3), word()?);
            let default = match number {
                0 => Value::None,
                1 => Value::Number(value),
                2 => Value::Signed(value as i64),
                3 => Value::Truth(value == 1),
                4 => Value::Text(span(value)),
                _ => return None,
            };
            Kind::AttributeInstance { handling, default }
        }
        15 => Kind::CommandInstance,
        16 => Kind::EventInstance,
        17 => Kind::Annotation { value: span(word()?) },
        _ => return None,
    };
    Some(Record { place, maturity, doc, name, kind })
}
