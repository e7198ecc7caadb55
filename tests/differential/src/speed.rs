//! The Rust and the static library on the same text, in turn, in one run.
use crate::idl::parser::Idl;
use crate::reader::{matter_idl_read, matter_idl_survey};
use std::hint::black_box;
use std::time::{Duration, Instant};

const ROUNDS: usize = 40;

/// Prints the shortest time of each, and how many times as fast as the Rust the library reads and surveys the text.
pub fn compare(file: &str) -> Result<(), String> {
    let text = std::fs::read_to_string(file).map_err(|e| format!("{file}: {e}"))?;
    let needed = read(text.as_bytes(), &mut []) & 0xff_ffff_ffff_ffff;
    let mut catalogue = vec![0; needed as usize];
    let mut report = vec![0; 4 * text.len() + 8];
    if read(text.as_bytes(), &mut catalogue) != needed
        || survey(text.as_bytes(), &mut catalogue, &mut report) != needed
        || Idl::parse(text.as_str().into()).is_err()
    {
        return Err(format!("{file}: refused"));
    }
    let (mut rust, mut reading, mut surveying) = (Duration::MAX, Duration::MAX, Duration::MAX);
    // the Rust runs before each of the two, so that both find its bytes in the caches and not each other's
    for _ in 0..ROUNDS {
        rust = rust.min(time(|| Idl::parse(black_box(text.as_str()).into())));
        reading = reading.min(time(|| read(black_box(text.as_bytes()), &mut catalogue)));
        rust = rust.min(time(|| Idl::parse(black_box(text.as_str()).into())));
        surveying = surveying.min(time(|| survey(black_box(text.as_bytes()), &mut catalogue, &mut report)));
    }
    let [rust, reading, surveying] = [rust, reading, surveying].map(|t| t.as_secs_f64());
    println!("{file}: {} bytes, {needed} of catalogue; the Rust {:.1} ms", text.len(), rust * 1e3);
    for (what, took) in [("reading", reading), ("survey", surveying)] {
        println!("  {what:7} {:.2} ms: {:.1} times as fast as the Rust", took * 1e3, rust / took);
    }
    Ok(())
}

fn read(text: &[u8], catalogue: &mut [u8]) -> u64 {
    unsafe { matter_idl_read(text.as_ptr(), text.len(), catalogue.as_mut_ptr(), catalogue.len()) }
}

fn survey(text: &[u8], catalogue: &mut [u8], report: &mut [u8]) -> u64 {
    unsafe { matter_idl_survey(text.as_ptr(), text.len(), catalogue.as_mut_ptr(), catalogue.len(), report.as_mut_ptr(), report.len()) }
}

fn time<T>(f: impl FnOnce() -> T) -> Duration {
    let start = Instant::now();
    let result = black_box(f());
    let elapsed = start.elapsed();
    drop(result);
    elapsed
}
