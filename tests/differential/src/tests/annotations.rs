//! That wrong annotations are noticed.
use super::{disagreements, Wrong};
use crate::catalogue::{encode, Kind, Record, Span};
use crate::check::check_spans_of;
use crate::generate::{annotated, Random};
use crate::locate::{locate, read};
use crate::survey::survey;
use crate::tree::tree;

/// Makes other records from an entry's annotations, or from none after any other record.
fn each_list(records: Vec<Record>, mut f: impl FnMut(Record, Vec<Record>) -> Vec<Record>) -> Vec<Record> {
    let mut all = Vec::new();
    let mut rest = records.into_iter().peekable();
    while let Some(r) = rest.next() {
        let list = std::iter::from_fn(|| rest.next_if(|r| matches!(r.kind, Kind::Annotation { .. }))).collect();
        all.extend(f(r, list));
    }
    all
}

fn each_value(mut records: Vec<Record>, f: fn(&mut Span)) -> Vec<Record> {
    for r in &mut records {
        if let Kind::Annotation { value } = &mut r.kind {
            f(value);
        }
    }
    records
}

fn only_the_first(records: Vec<Record>) -> Vec<Record> {
    each_list(records, |entry, list| [entry].into_iter().chain(list.into_iter().take(1)).collect())
}

fn only_the_last(records: Vec<Record>) -> Vec<Record> {
    each_list(records, |entry, list| [entry].into_iter().chain(list.into_iter().last()).collect())
}

fn in_the_wrong_order(records: Vec<Record>) -> Vec<Record> {
    each_list(records, |entry, list| [entry].into_iter().chain(list.into_iter().rev()).collect())
}

fn before_the_entry(records: Vec<Record>) -> Vec<Record> {
    each_list(records, |entry, list| list.into_iter().chain([entry]).collect())
}

fn none_in_bitmaps(records: Vec<Record>) -> Vec<Record> {
    let mut bitmap = false;
    each_list(records, |r, list| {
        bitmap = matches!(r.kind, Kind::Bitmap { .. }) || bitmap && matches!(r.kind, Kind::Entry { .. });
        let kept = if bitmap { vec![] } else { list };
        [r].into_iter().chain(kept).collect()
    })
}

fn with_quotes(records: Vec<Record>) -> Vec<Record> {
    each_value(records, |value| *value = Span { at: value.at - 1, len: value.len + 2 })
}

fn one_short(records: Vec<Record>) -> Vec<Record> {
    each_value(records, |value| value.len = value.len.saturating_sub(1))
}

fn an_empty_value_as_absent(records: Vec<Record>) -> Vec<Record> {
    each_value(records, |value| value.at = if value.len == 0 { 0 } else { value.at })
}

fn with_the_entrys_maturity(records: Vec<Record>) -> Vec<Record> {
    each_list(records, |entry, mut list| {
        list.iter_mut().for_each(|r| r.maturity = entry.maturity);
        [entry].into_iter().chain(list).collect()
    })
}

fn key_and_value_exchanged(mut records: Vec<Record>) -> Vec<Record> {
    for r in &mut records {
        if let (Kind::Annotation { value }, Some(key)) = (&mut r.kind, &mut r.name) {
            std::mem::swap(value, key);
        }
    }
    records
}

const WRONG: [fn(Vec<Record>) -> Vec<Record>; 10] = [
    only_the_first, only_the_last, in_the_wrong_order, before_the_entry, none_in_bitmaps, with_quotes, one_short, an_empty_value_as_absent,
    with_the_entrys_maturity, key_and_value_exchanged,
];

#[test]
fn wrong_readers_are_noticed() {
    assert!(disagreements(&mut Wrong(|_, r| encode(&only_the_first(r)))) > 0);
    assert!(disagreements(&mut Wrong(|_, r| encode(&only_the_last(r)))) > 0);
    assert!(disagreements(&mut Wrong(|_, r| encode(&in_the_wrong_order(r)))) > 0);
    assert!(disagreements(&mut Wrong(|_, r| encode(&before_the_entry(r)))) > 0);
    assert!(disagreements(&mut Wrong(|_, r| encode(&none_in_bitmaps(r)))) > 0);
    assert!(disagreements(&mut Wrong(|_, r| encode(&with_quotes(r)))) > 0);
    assert!(disagreements(&mut Wrong(|_, r| encode(&one_short(r)))) > 0);
    assert!(disagreements(&mut Wrong(|_, r| encode(&an_empty_value_as_absent(r)))) > 0);
    assert!(disagreements(&mut Wrong(|_, r| encode(&with_the_entrys_maturity(r)))) > 0);
    assert!(disagreements(&mut Wrong(|_, r| encode(&key_and_value_exchanged(r)))) > 0);
    // Two words an entry, whatever its annotations.
    assert!(
        disagreements(&mut Wrong(|_, r| {
            let words = encode(&r);
            let annotations = r.iter().filter(|r| matches!(r.kind, Kind::Annotation { .. })).count();
            words[..words.len() - 2 * annotations].to_vec()
        })) > 0
    );
    // The walk that marks types ends at the first annotation.
    assert!(
        disagreements(&mut Wrong(|_, mut r| {
            r.iter_mut().skip_while(|r| !matches!(r.kind, Kind::Annotation { .. })).for_each(|r| r.place = 0);
            encode(&r)
        })) > 0
    );
}

/// Accepted texts with annotations, of a seed.
fn texts() -> Vec<Vec<u8>> {
    let mut random = Random(1);
    let all = (0..600).map(|_| annotated(&mut random));
    all.filter(|text| read(text).is_ok_and(|r| r.iter().any(|r| matches!(r.kind, Kind::Annotation { .. })))).collect()
}

/// What is tested of a catalogue without the locator's answer beside it: the order of its records, and its spans by the Rust.
fn is_noticed(text: &[u8], wrong: fn(Vec<Record>) -> Vec<Record>) -> bool {
    tree(&wrong(locate(text).unwrap()), text).is_err() || check_spans_of(wrong(read(text).unwrap()), text).is_err()
}

#[test]
fn wrong_catalogues_are_noticed() {
    crate::outcome::quiet();
    let texts = texts();
    assert!(texts.len() > 200, "{} texts", texts.len());
    for text in &texts {
        assert!(!is_noticed(text, |r| r), "{}", text.escape_ascii());
        for (i, wrong) in WRONG.into_iter().enumerate() {
            let same = wrong(locate(text).unwrap()) == locate(text).unwrap();
            assert_eq!(is_noticed(text, wrong), !same, "{i}: {}", text.escape_ascii());
        }
    }
    for wrong in WRONG {
        assert!(texts.iter().any(|text| is_noticed(text, wrong)));
    }
}

#[test]
fn a_survey_moves_them() {
    let moved = survey(b"\n}enum E:t{a=1[b=\"c\"];}").catalogue;
    assert_eq!(moved[5..], [0x110000000f000010, 0x0001200001000000]);
    let empty = survey(b"\n}enum E:t{a=1[b=\"\"];}").catalogue;
    assert_eq!(empty[5..], [0x110000000f000010, 0x0001200000000000]);
}
