//! The Rust beside this repository's reader: see README.md.
mod catalogue;
mod check;
mod generate;
mod grammar;
mod known;
mod locate;
mod outcome;
mod reader;
mod run;
mod shrink;
#[cfg(feature = "library")]
mod speed;
mod survey;
#[cfg(test)]
mod tests;
mod tree;
mod vectors;

// The Rust's own modules, laid out by build.rs.
include!(concat!(env!("OUT_DIR"), "/rust.rs"));

use std::io::Read;
use std::process::ExitCode;

const USAGE: &str = "words [FILE]                            the words for the Rust's tree of a text, as the lister writes them
check [SEED [COUNT]]                    the papers' texts and all generated ones: the Rust beside the locator
compare PROGRAM [SEED [COUNT [EVERY]]]  a program like the lister beside the Rust, on one text of EVERY
library [SEED [COUNT [EVERY]]]          the same with the static library (build with MATTER_IDL_LIB set)
survey [SEED [COUNT]]                   the static library's survey on texts of many sections, and with one section replaced
vectors [SEED]                          the stored list of short texts with answers
declarations                            the lines of standard input as the program `declarations` answers them
speed FILE ..                           the Rust and the static library on each text, in turn";

fn main() -> ExitCode {
    let arguments: Vec<String> = std::env::args().skip(1).collect();
    let arguments: Vec<&str> = arguments.iter().map(String::as_str).collect();
    outcome::quiet();
    match command(&arguments) {
        Ok(0) => ExitCode::SUCCESS,
        Ok(_) => ExitCode::FAILURE,
        Err(e) => {
            eprintln!("{e}");
            ExitCode::from(2)
        }
    }
}

/// Returns the number of disagreements.
fn command(arguments: &[&str]) -> Result<usize, String> {
    let (name, rest) = arguments.split_first().ok_or(USAGE)?;
    match *name {
        "words" => words(rest.first().copied()),
        "check" => Ok(known::check() + run::check(number(rest, 0, 1)?, number(rest, 1, 300_000)? as usize)),
        "compare" => {
            let (program, rest) = rest.split_first().ok_or(USAGE)?;
            compare(&mut reader::Program(program.to_string()), rest, 100)
        }
        #[cfg(feature = "library")]
        "library" => compare(&mut reader::Library, rest, 1),
        #[cfg(feature = "library")]
        "survey" => Ok(survey::library::run(number(rest, 0, 1)?, number(rest, 1, 100_000)? as usize)),
        #[cfg(feature = "library")]
        "speed" => rest.iter().try_for_each(|file| speed::compare(file)).map(|()| 0),
        "declarations" => declarations(),
        "vectors" => vectors::print(number(rest, 0, 1)?).map(|()| 0),
        _ => Err(USAGE.into()),
    }
}

fn number(arguments: &[&str], i: usize, default: u64) -> Result<u64, String> {
    arguments.get(i).map_or(Ok(default), |a| a.parse().map_err(|e| format!("{a}: {e}")))
}

fn compare(reader: &mut dyn reader::Reader, rest: &[&str], every: u64) -> Result<usize, String> {
    let (seed, count, every) = (number(rest, 0, 1)?, number(rest, 1, 300_000)?, number(rest, 2, every)?);
    Ok(run::compare(reader, seed, count as usize, every as usize))
}

fn words(file: Option<&str>) -> Result<usize, String> {
    let mut text = Vec::new();
    match file {
        Some(file) => text = std::fs::read(file).map_err(|e| format!("{file}: {e}"))?,
        None => drop(std::io::stdin().read_to_end(&mut text).map_err(|e| e.to_string())?),
    }
    print!("{}", check::answer(&text)?);
    Ok(0)
}

/// Each line is a text with escapes; it comes back with the answer for its first item.
fn declarations() -> Result<usize, String> {
    let lines = std::io::read_to_string(std::io::stdin()).map_err(|e| e.to_string())?;
    for line in lines.split_terminator('\n') {
        let text = tree::unescape(line).into_bytes();
        // The Rust and the locator agree on the text. The Rust alone tells nothing of its first item.
        check::answer(&text)?;
        let answer = match locate::first_item(&text) {
            Ok((records, next)) => {
                let words: String = catalogue::encode(&records).iter().map(|w| format!(" {w:016x}")).collect();
                format!("{words} next {next}")
            }
            Err((number, place)) => format!(" refused {number} {place}"),
        };
        println!("{line} ->{answer}");
    }
    Ok(0)
}
