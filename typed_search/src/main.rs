//! Judges what programs print for typed texts by a parser of another kind: a table over all spans of the items (`table`) with values of its own
//! in 128 bits (`value`).
//! `typed_search VECTORS [COUNT]` puts random texts, 100,000 unless said otherwise, through a program that reads a text a line; a mismatch prints the
//! text with both lines and fails. The environment's SEED repeats a run.
//! `typed_search program PATH` runs the typed program, which reads one text, on inputs at the edges of its length.
//! `typed_search expect` reads texts, one a line, and prints the right line of each.

mod items;
mod judge;
mod process;
mod program;
mod random;
mod reading;
mod table;
mod texts;
mod value;

use std::io::Read;
use std::process::ExitCode;
use std::time::{SystemTime, UNIX_EPOCH};

const USAGE: &str = "usage: typed_search VECTORS [COUNT] | typed_search program PATH | typed_search expect";

fn main() -> ExitCode {
    let words: Vec<String> = std::env::args().skip(1).collect();
    let result = match &words.iter().map(String::as_str).collect::<Vec<_>>()[..] {
        ["expect"] => expect(),
        ["program"] => Err(USAGE.into()),
        ["program", path] => run_program(path),
        [vectors] => run(vectors, "100000"),
        [vectors, count] => run(vectors, count),
        _ => Err(USAGE.into()),
    };
    if let Err(message) = &result {
        eprintln!("{message}");
    }
    ExitCode::from(u8::from(result.is_err()))
}

fn run(vectors: &str, count: &str) -> Result<(), String> {
    let count = count.parse().map_err(|_| format!("COUNT is no number: {count}\n{USAGE}"))?;
    if count == 0 {
        return Err(format!("COUNT is 0: a run without texts would test nothing\n{USAGE}"));
    }
    let seed = seed()?;
    println!("typed_search: all right: {}; SEED={seed}", judge::random_texts(vectors, seed, count)?);
    Ok(())
}

/// The seed, new in each run, printed before anything can go wrong.
fn seed() -> Result<u64, String> {
    let clock = SystemTime::now().duration_since(UNIX_EPOCH).map_or(1, |t| t.as_nanos() as u64);
    let seed = match std::env::var("SEED") {
        Ok(text) => text.parse().map_err(|_| format!("SEED is no number: {text}"))?,
        Err(_) => clock,
    };
    println!("typed_search: SEED={seed}");
    Ok(seed)
}

fn run_program(path: &str) -> Result<(), String> {
    println!("typed_search: all right: {} inputs through the typed program", program::program(path)?);
    Ok(())
}

fn expect() -> Result<(), String> {
    let mut input = Vec::new();
    std::io::stdin().read_to_end(&mut input).map_err(|e| e.to_string())?;
    for row in input.split_inclusive(|&byte| byte == b'\n') {
        println!("{}", reading::line(row.strip_suffix(b"\n").unwrap_or(row)));
    }
    Ok(())
}
