//! That wrong readers and wrong catalogues are noticed.
mod annotations;

use crate::catalogue::{decode, encode, Kind, Record};
use crate::check::{answer, check_spans_of, Answer};
use crate::locate::{locate, read};
use crate::reader::Reader;
use crate::run::compare;
use crate::shrink::shrink;
use crate::tree::tree;

/// A reader made from the right records.
struct Wrong(fn(&[u8], Vec<Record>) -> Vec<u64>);

impl Reader for Wrong {
    fn read(&mut self, text: &[u8]) -> Result<Answer, String> {
        Ok(match answer(text)? {
            Answer::Words(words) => Answer::Words(self.0(text, decode(&words)?)),
            refused => refused,
        })
    }
}

struct AlwaysRefuses;

impl Reader for AlwaysRefuses {
    fn read(&mut self, _: &[u8]) -> Result<Answer, String> {
        Ok(Answer::Refused(3, 0))
    }
}

fn disagreements(reader: &mut dyn Reader) -> usize {
    crate::outcome::quiet();
    compare(reader, 1, 200, 500)
}

#[test]
fn a_true_reader_agrees() {
    assert_eq!(disagreements(&mut Wrong(|_, records| encode(&records))), 0);
}

#[test]
fn wrong_readers_are_noticed() {
    assert!(disagreements(&mut AlwaysRefuses) > 0);
    // The same empty catalogue each time.
    assert!(disagreements(&mut Wrong(|_, _| vec![])) > 0);
    // The first item truly, blank records for the rest.
    assert!(disagreements(&mut Wrong(|_, r| encode(&r).iter().enumerate().map(|(i, &w)| if i < 3 { w } else { 0 }).collect())) > 0);
    // Dropped types marked as global.
    assert!(
        disagreements(&mut Wrong(|_, mut r| {
            r.iter_mut().for_each(|r| r.place = r.place.min(1));
            encode(&r)
        })) > 0
    );
    // Offsets one too far.
    assert!(
        disagreements(&mut Wrong(|_, mut r| {
            r.iter_mut().for_each(|r| r.name.iter_mut().for_each(|n| n.at += 1));
            encode(&r)
        })) > 0
    );
}

#[test]
fn bits_outside_the_table_are_noticed() {
    for text in crate::known::texts() {
        let Ok(Answer::Words(words)) = answer(&text) else { continue };
        for i in 0..words.len() * 64 {
            let mut other = words.clone();
            other[i / 64] ^= 1 << (i % 64);
            // Another catalogue, or none: but never the same tree and the same words.
            if let Ok(records) = decode(&other) {
                assert_eq!(encode(&records), other);
                assert_ne!(records, locate(&text).unwrap());
            }
        }
    }
}

#[test]
fn nesting_is_checked() {
    let records = locate(b"cluster C=1{attribute t a=1;}enum E:t{a=1;}endpoint 0{server cluster C{handle command c;}}").unwrap();
    assert!(tree(&records, &[b'a'; 200]).is_ok());
    let mut refused = 0;
    for i in 0..records.len() {
        let mut fewer = records.clone();
        fewer.remove(i);
        refused += tree(&fewer, &[b'a'; 200]).is_err() as usize;
    }
    // Without the entry or the last record it is still a catalogue; without any other one it is none.
    assert_eq!(refused, 6);
}

#[test]
fn a_span_at_another_place_with_the_same_bytes_is_noticed() {
    let text = b"enum a:a{}";
    let mut records = read(text).unwrap();
    assert_eq!(check_spans_of(records.clone(), text), Ok(()));
    let name = records[0].name.unwrap();
    records[0].kind = Kind::Enum { shared: false, base: name };
    assert!(check_spans_of(records, text).is_err());
}

#[test]
fn shrinking_keeps_what_holds() {
    let small = shrink(b"enum E:t{a=1; b=18446744073709551616;} struct S{}", &mut |t| matches!(answer(t), Ok(Answer::Refused(4, _))));
    assert_eq!(answer(&small).map(|a| matches!(a, Answer::Refused(4, _))), Ok(true));
    assert!(small.len() < 36, "{}", String::from_utf8_lossy(&small));
}
