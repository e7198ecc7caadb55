//! A smaller text for which something still holds.
use crate::generate::tokens;

/// The bytes of all texts tried for one.
const MOST: usize = 20_000_000;

pub fn shrink(text: &[u8], still: &mut dyn FnMut(&[u8]) -> bool) -> Vec<u8> {
    let mut tried = 0;
    let still = &mut |t: &[u8]| {
        tried += t.len();
        tried < MOST && still(t)
    };
    let mut text = text.to_vec();
    loop {
        let before = text.len();
        text = fewer(tokens(&text), still).concat();
        text = fewer(text.iter().map(|&c| vec![c]).collect(), still).concat();
        text = plainer(text, still);
        if text.len() == before {
            return text;
        }
    }
}

/// Runs of pieces are removed, long ones first, while it still holds.
fn fewer(mut pieces: Vec<Vec<u8>>, still: &mut dyn FnMut(&[u8]) -> bool) -> Vec<Vec<u8>> {
    let mut len = pieces.len();
    while len > 0 {
        let mut at = 0;
        while at < pieces.len() {
            let end = (at + len).min(pieces.len());
            let left = [&pieces[..at], &pieces[end..]].concat();
            if still(&left.concat()) {
                pieces = left;
            } else {
                at += len;
            }
        }
        len /= 2;
    }
    pieces
}

/// Comments become spaces, where it still holds.
fn plainer(mut text: Vec<u8>, still: &mut dyn FnMut(&[u8]) -> bool) -> Vec<u8> {
    let mut at = 0;
    while at + 2 <= text.len() {
        let end: &[u8] = match &text[at..at + 2] {
            b"/*" => b"*/",
            b"//" => b"\n",
            _ => b"",
        };
        let len = text[at + 2..].windows(end.len().max(1)).position(|w| w == end);
        if let Some(len) = len {
            let other = [&text[..at], b" ", &text[at + 2 + len + end.len()..]].concat();
            if still(&other) {
                text = other;
            }
        }
        at += 1;
    }
    text
}
