//! The reader under test.
use crate::check::Answer;
use std::io::Write;
use std::process::{Command, Stdio};

pub trait Reader {
    fn read(&mut self, text: &[u8]) -> Result<Answer, String>;

    /// What this reader owes where the answer is that of a text and a catalogue of any length.
    fn owed(&self, _text: &[u8], answer: Answer) -> Answer {
        answer
    }
}

/// A program like document 01's lister: a text on standard input; words or `refused N PLACE` on standard output.
pub struct Program(pub String);

const LISTER_BUFFER: usize = 65_536;

impl Reader for Program {
    fn read(&mut self, text: &[u8]) -> Result<Answer, String> {
        let mut child =
            Command::new(&self.0).stdin(Stdio::piped()).stdout(Stdio::piped()).spawn().map_err(|e| format!("{}: {e}", self.0))?;
        // A reader that stops early closes its end; what it prints is looked at all the same.
        let _ = child.stdin.take().unwrap().write_all(text);
        let output = child.wait_with_output().map_err(|e| e.to_string())?;
        parse(&String::from_utf8_lossy(&output.stdout))
    }

    fn owed(&self, text: &[u8], answer: Answer) -> Answer {
        match answer {
            _ if text.len() > LISTER_BUFFER => Answer::Refused(1, LISTER_BUFFER),
            Answer::Words(words) if words.len() * 8 > LISTER_BUFFER => Answer::Refused(7, words.len() * 8),
            answer => answer,
        }
    }
}

fn parse(output: &str) -> Result<Answer, String> {
    let bad = || format!("not the lister's format: {output:?}");
    if let Some(rest) = output.strip_prefix("refused ") {
        let (number, place) = rest.strip_suffix('\n').and_then(|r| r.split_once(' ')).ok_or_else(bad)?;
        return Ok(Answer::Refused(number.parse().map_err(|_| bad())?, place.parse().map_err(|_| bad())?));
    }
    let lower = |line: &str| line.len() == 16 && line.bytes().all(|c| c.is_ascii_digit() || (b'a'..=b'f').contains(&c));
    let words = output.split_inclusive('\n').map(|line| {
        let line = line.strip_suffix('\n').filter(|l| lower(l)).ok_or_else(bad)?;
        u64::from_str_radix(line, 16).map_err(|_| bad())
    });
    words.collect::<Result<_, _>>().map(Answer::Words)
}

/// `matter_idl_read` of the static library, with the promises about its buffer.
#[cfg(feature = "library")]
pub struct Library;

#[cfg(feature = "library")]
extern "C" {
    pub fn matter_idl_read(text: *const u8, text_len: usize, catalogue: *mut u8, catalogue_len: usize) -> u64;
    pub fn matter_idl_survey(text: *const u8, text_len: usize, catalogue: *mut u8, catalogue_len: usize, report: *mut u8, report_len: usize) -> u64;
}

#[cfg(feature = "library")]
impl Library {
    pub const FILL: u8 = 0xa5;

    /// Number, value and the buffer afterwards.
    fn call(text: &[u8], len: usize) -> (u64, usize, Vec<u8>) {
        let mut catalogue = vec![Self::FILL; len];
        let result = unsafe { matter_idl_read(text.as_ptr(), text.len(), catalogue.as_mut_ptr(), len) };
        (result >> 56, (result & ((1 << 56) - 1)) as usize, catalogue)
    }

    pub fn untouched(bytes: &[u8]) -> bool {
        bytes.iter().all(|&b| b == Self::FILL)
    }
}

#[cfg(feature = "library")]
impl Reader for Library {
    fn read(&mut self, text: &[u8]) -> Result<Answer, String> {
        let (number, value, _) = Self::call(text, 0);
        if number != 7 && number != 0 {
            let (again, place, catalogue) = Self::call(text, 64);
            if (again, place) != (number, value) || !Self::untouched(&catalogue) {
                return Err(format!("refused {number} {value}, with a longer catalogue {again} {place}, or it was written to"));
            }
            return Ok(Answer::Refused(number, value));
        }
        let needed = value;
        for short in [needed / 2, needed.saturating_sub(1)] {
            let (number, value, catalogue) = Self::call(text, short);
            if short < needed && ((number, value) != (7, needed) || !Self::untouched(&catalogue)) {
                return Err(format!("needs {needed}, with {short}: {number} {value}, or the catalogue was written to"));
            }
        }
        let (number, written, catalogue) = Self::call(text, needed + 24);
        if (number, written) != (0, needed) || !Self::untouched(&catalogue[needed..]) || needed % 8 != 0 {
            return Err(format!("needs {needed}, with more: {number} {written}, or bytes past them were written"));
        }
        if Self::call(text, needed).2 != catalogue[..needed] {
            return Err(format!("other bytes in a catalogue of just {needed}"));
        }
        Ok(Answer::Words(catalogue[..needed].chunks(8).map(|c| u64::from_be_bytes(c.try_into().unwrap())).collect()))
    }
}
