//! attributes FILE: surveys a Matter IDL text and prints its clusters, attributes, enums and bitmaps, as clusters.c does.
//! `rustc --edition 2021 -L FOLDER attributes.rs` compiles it; the folder has either library. docs/FORMAT.md says what the words hold.
use std::{env, error::Error, fs, io, io::Write, process::exit};

#[link(name = "matter_idl")]
extern "C" {
    fn matter_idl_survey(text: *const u8, length: usize, catalogue: *mut u8, length: usize, report: *mut u8, length: usize) -> u64;
    fn matter_idl_unescape(part: *const u8, length: usize, output: *mut u8, length: usize) -> u64;
    fn matter_idl_format_2() -> u64; // a library of another format has no such function
}

const WORDS: [usize; 18] = [0, 4, 3, 3, 2, 3, 4, 2, 5, 3, 2, 3, 1, 1, 2, 1, 1, 2]; // of a record, by its kind
const PRIVILEGES: [&str; 4] = ["view", "operate", "manage", "administer"];

fn unescaped(part: &str) -> String {
    let mut output = vec![0; part.len()];
    let written = unsafe { matter_idl_unescape(part.as_ptr(), part.len(), output.as_mut_ptr(), output.len()) };
    String::from_utf8_lossy(&output[..written as usize]).into_owned()
}

fn list(text: &[u8], words: &[u64]) -> io::Result<()> {
    let name = |first: u64| String::from_utf8_lossy(&text[(first >> 24 & 0xfffff) as usize..][..(first >> 4 & 0xfffff) as usize]);
    let privilege = |number: u64| PRIVILEGES[(number & 3) as usize];
    let (mut output, mut at) = (io::stdout(), 0);
    while at < words.len() {
        let (first, kind) = (words[at], (words[at] >> 56) as usize);
        match kind {
            1 => writeln!(output, "{} = {}", name(first), words[at + 2])?, // a cluster
            // An enum or a bitmap, indented if it is its cluster's own.
            2 | 3 => writeln!(output, "{}{} {}", ["  ", "", ""][(first >> 54 & 3) as usize], ["enum", "bitmap"][kind - 2], name(first))?,
            4 => writeln!(output, "    {:5} {}", words[at + 1], name(first))?, // an entry
            7 => {
                // An attribute: its name and its code are in the field that follows.
                let read = if first >> 49 & 1 == 0 { format!(", read: {}", privilege(first >> 2)) } else { String::new() };
                let write = if first >> 50 & 1 == 0 { format!(", write: {}", privilege(first)) } else { String::new() };
                writeln!(output, "  {:5} {}{read}{write}", words[at + 4], name(words[at + 2]))?;
            }
            // An annotation, with the key as its name; a span of its own is 20 bits above where a name is.
            17 => writeln!(output, "          {}: {}", name(first), unescaped(&name(words[at + 1] >> 20)))?,
            _ => (),
        }
        at += WORDS[kind];
    }
    output.flush()
}

fn run() -> Result<i32, Box<dyn Error>> {
    assert_eq!(unsafe { matter_idl_format_2() }, 2);
    let text = fs::read(env::args_os().nth(1).ok_or("usage: attributes FILE")?)?;
    // Buffers of these lengths are always enough.
    let (mut catalogue, mut report) = (vec![0; 8 * text.len() + 8], vec![0; 4 * text.len() + 8]);
    let (from, to, about) = (text.as_ptr(), catalogue.as_mut_ptr(), report.as_mut_ptr());
    let result = unsafe { matter_idl_survey(from, text.len(), to, catalogue.len(), about, report.len()) };
    if result >> 56 != 0 {
        return Err(format!("refused by {}", result >> 56).into());
    }
    let words = |bytes: &[u8]| -> Vec<u64> { bytes.chunks(8).map(|word| u64::from_be_bytes(word.try_into().unwrap())).collect() };
    list(&text, &words(&catalogue[..result as usize]))?;
    let sections = text.windows(2).filter(|pair| pair == b"\n}").count() + 1;
    let refused = words(&report[..8 * sections]).into_iter().filter(|word| word >> 20 & 15 != 0);
    let line = |word: u64| eprintln!("section at byte {}: refused by {} at byte {}", word >> 44, word >> 20 & 15, word & 0xfffff);
    Ok(refused.map(line).count().min(1) as i32)
}

fn main() {
    exit(run().map_err(|error| eprintln!("attributes: {error}")).unwrap_or(2));
}
