//! `search` plans stored and random books of both versions, judges each line and ends with three summary lines; a mismatch prints the book
//! in hexadecimal with both lines and fails. The environment's SEED repeats a run; SHORT, LONG, BUSY, CARRIED, DAMAGED, ORDERS, PANELS,
//! STARTS and REPACKED say how many books there are of version 1, with a 2 at their ends of version 2, as LONGEST2, BATCHES, SLIPS and CORNERS do, and
//! ALIKE of both.
//! `search program PATH [VERSION]` runs the plan program of a version, 1 unless it is named, on stored and some random books.
//! `search panel PATH [VERSION]` and `search repacker PATH [VERSION]` run the programs of the panel and of the repacker likewise.
//! `search joint PATH` runs the program that plans two books as one; JOINT, JOINT_LONG and JOINT_LONGEST say how many random pairs there
//! are without words.
//! `search session PATH` runs SCRIPTS random scripts of 300 steps through the session program, `search corners PATH` the corner program on
//! what the plan program is run on, `search batch PATH` the batch program likewise, with some objectives for each book,
//! `search check PATH` the check program on lines of slips and on texts that are none.
//! `search repack PATH` puts stored books and REPACKS random ones through the program of the reader and the repacker.
//! `search look [VERSION]` reads books in hexadecimal, one a line, and prints for each the right line, the planner's and the verdict.

use search::book::from_hex;
use search::judge::expected_as;
use search::layout::Layout;
use search::panel;
use search::planner::{ONE, TWO};
use search::prefixes::Way;
use search::program::program;
use search::repack;
use search::runs::{
    both_versions, busy_books, carried_books, damaged_books, orders, random_books, short_buffers, stored_lines, Lengths, Tally,
};
use std::process::ExitCode;
use std::time::{Instant, SystemTime, UNIX_EPOCH};

fn main() -> ExitCode {
    let words: Vec<String> = std::env::args().skip(1).collect();
    let result = match &words.iter().map(String::as_str).collect::<Vec<_>>()[..] {
        [] => seed().and_then(run),
        ["program", path] => run_program(path, "1"),
        ["program", path, version] => run_program(path, version),
        ["panel", path] => run_panel(path, "1"),
        ["panel", path, version] => run_panel(path, version),
        ["repacker", path] => run_repacker(path, "1"),
        ["repacker", path, version] => run_repacker(path, version),
        ["joint", path] => run_joint(path),
        ["session", path] => run_session(path),
        ["corners", path] => run_corners(path),
        ["batch", path] => run_batch(path),
        ["check", path] => run_check(path),
        ["repack", path] => seed().and_then(|seed| run_repack(path, seed)),
        ["look"] => look("1"),
        ["look", version] => look(version),
        _ => {
            Err("usage: search [look [VERSION] | program PATH [VERSION] | panel PATH [VERSION] | repacker PATH [VERSION] | joint PATH | session PATH | corners PATH | batch PATH | check PATH | repack PATH]"
                .into())
        }
    };
    if let Err(message) = &result {
        eprintln!("{message}");
    }
    ExitCode::from(u8::from(result.is_err()))
}

/// The seed, printed before anything can go wrong.
fn seed() -> Result<u64, String> {
    let clock = SystemTime::now().duration_since(UNIX_EPOCH).map_or(1, |t| t.as_secs());
    let seed = setting("SEED", clock)?;
    println!("search: SEED={seed}");
    Ok(seed)
}

fn run(seed: u64) -> Result<(), String> {
    println!("search: version 1 all right: {}", run_one(seed)?);
    println!("search: version 2 all right: {}", run_two(seed.rotate_left(32))?);
    println!("search: both versions all right: {}; SEED={seed}", run_both(seed.rotate_left(16))?);
    joined(seed.rotate_left(48))
}

fn run_one(seed: u64) -> Result<String, String> {
    let mut tally = Tally::default();
    let stored = stored_lines(&ONE, &mut tally)?;
    short_buffers(&ONE)?;
    let short = timed("SHORT", 200_000, |n| random_books(&ONE, &mut tally, seed, n, Lengths { most: 12, anew: 12 }))?;
    let long = timed("LONG", 4_000, |n| random_books(&ONE, &mut tally, seed ^ 1 << 61, n, Lengths { most: 255, anew: 40 }))?;
    let busy = timed("BUSY", 1_000, |n| busy_books(&ONE, &mut tally, seed ^ 1 << 58, n, 200))?;
    let carried = timed("CARRIED", 4_000, |n| carried_books(&ONE, &mut tally, seed ^ 1 << 53, n, 50, 255))?;
    let damaged = timed("DAMAGED", 20_000, |n| damaged_books(&ONE, &mut tally, seed ^ 1 << 62, n))?;
    let shuffled = timed("ORDERS", 1_000, |n| orders(&ONE, seed ^ 1 << 63, n))?;
    let panels = timed("PANELS", 20_000, |n| panel::panels(&ONE, seed ^ 1 << 60, n))?;
    let starts = timed("STARTS", 20_000, |n| starts(&ONE, seed ^ 1 << 59, n))?;
    Ok(format!(
        "{stored} stored books, {short} of 0 to 12 rules, {long} of 0 to 255, {busy} busy ones of 200 to 255, \
         {carried} of 50 to 255 that carry the boundary along, {damaged} damaged ({tally}), {shuffled} in ten orders, {panels} panels, {starts} start pairs"
    ))
}

/// Fewer books than of version 1, whose planner is the same but for the reader: a book of 4,095 rules takes half a second to search.
fn run_two(seed: u64) -> Result<String, String> {
    let mut tally = Tally::default();
    let stored = stored_lines(&TWO, &mut tally)?;
    short_buffers(&TWO)?;
    let short = timed("SHORT2", 20_000, |n| random_books(&TWO, &mut tally, seed, n, Lengths { most: 12, anew: 12 }))?;
    let long = timed("LONG2", 400, |n| random_books(&TWO, &mut tally, seed ^ 1 << 61, n, Lengths { most: 255, anew: 40 }))?;
    let longest =
        timed("LONGEST2", 16, |n| random_books(&TWO, &mut tally, seed ^ 1 << 57, n, Lengths { most: 4_095, anew: 40 }))?;
    let busy = timed("BUSY2", 16, |n| busy_books(&TWO, &mut tally, seed ^ 1 << 58, n, 1_000))?;
    let carried = timed("CARRIED2", 100, |n| carried_books(&TWO, &mut tally, seed ^ 1 << 53, n, 50, 1_000))?;
    let damaged = timed("DAMAGED2", 400, |n| damaged_books(&TWO, &mut tally, seed ^ 1 << 62, n))?;
    let shuffled = timed("ORDERS2", 100, |n| orders(&TWO, seed ^ 1 << 63, n))?;
    let panels = timed("PANELS2", 2_000, |n| panel::panels(&TWO, seed ^ 1 << 60, n))?;
    let starts = timed("STARTS2", 2_000, |n| starts(&TWO, seed ^ 1 << 59, n))?;
    let batches = batches(seed ^ 1 << 56, count("BATCHES", 4_000)?)?;
    let slips = timed("SLIPS", 10_000, |n| slips(seed ^ 1 << 55, n))?;
    let corners = timed("CORNERS", 10_000, |n| corner_bytes(seed ^ 1 << 54, n))?;
    Ok(format!(
        "{stored} stored books, {short} of 0 to 12 rules, {long} of 0 to 255, {longest} of 0 to 4,095, {busy} busy ones of 1,000 to 4,095, \
         {carried} of 50 to 1,000 that carry the boundary along, {damaged} damaged ({tally}), {shuffled} in ten orders, {panels} panels, {starts} start pairs, {batches}, {slips} slips, {corners} lists of corners"
    ))
}

fn run_both(seed: u64) -> Result<String, String> {
    let (repacks, repacks_two) = (count("REPACKED", 4_000)?, count("REPACKED2", 1_000)?);
    let one = repack::library(&ONE, seed, repacks)?;
    let two = repack::library(&TWO, seed ^ 1 << 63, repacks_two)?;
    let alike = timed("ALIKE", 4_000, |n| both_versions(seed ^ 1 << 62, n))?;
    Ok(format!("version 1, {one}; version 2, {two}; {alike} of either version, repacked and reordered in version 2"))
}

fn run_program(path: &str, version: &str) -> Result<(), String> {
    let books = program(&Layout::of_version(version)?, path, seed()?)?;
    println!("search: all right: {books} books through the program of version {version}");
    Ok(())
}

fn run_panel(path: &str, version: &str) -> Result<(), String> {
    let books = panel::program(&Layout::of_version(version)?, path, seed()?)?;
    println!("search: all right: {books} books through the panel program of version {version}");
    Ok(())
}

fn run_repacker(path: &str, version: &str) -> Result<(), String> {
    let books = repack::program(&Layout::of_version(version)?, path, seed()?)?;
    println!("search: all right: {books} by the program that repacks version {version}");
    Ok(())
}

/// Two books joined. The twin has no such function.
#[cfg(not(feature = "standin"))]
fn joined(seed: u64) -> Result<(), String> {
    let pairs = search::joint::library(seed, count("JOINT", 4_000)?, count("JOINT_LONG", 100)?, count("JOINT_LONGEST", 4)?)?;
    println!("search: joined all right: {pairs}");
    Ok(())
}

#[cfg(not(feature = "standin"))]
fn run_joint(path: &str) -> Result<(), String> {
    println!("search: all right: {} pairs of books through the joint program", search::joint::program(path, seed()?)?);
    Ok(())
}

#[cfg(feature = "standin")]
fn joined(_seed: u64) -> Result<(), String> {
    Ok(())
}

#[cfg(feature = "standin")]
fn run_joint(_path: &str) -> Result<(), String> {
    Err("the twin has no joint program".into())
}

fn run_session(path: &str) -> Result<(), String> {
    let steps = search::session::program(path, seed()?, count("SCRIPTS", 40)?, 300)?;
    println!("search: all right: {steps} steps through the session program");
    Ok(())
}

fn run_corners(path: &str) -> Result<(), String> {
    let books = search::corners::program(path, seed()?)?;
    println!("search: all right: {books} books through the corner program");
    Ok(())
}

#[cfg(not(feature = "standin"))]
fn run_batch(path: &str) -> Result<(), String> {
    let runs = search::batch::program(path, seed()?)?;
    println!("search: all right: {runs} batches through the batch program");
    Ok(())
}

#[cfg(feature = "standin")]
fn run_batch(_path: &str) -> Result<(), String> {
    Err("the twin has no batch program".into())
}

#[cfg(not(feature = "standin"))]
fn run_check(path: &str) -> Result<(), String> {
    let texts = search::slip_lines::program(path, seed()?)?;
    println!("search: all right: {texts} texts through the check program");
    Ok(())
}

#[cfg(feature = "standin")]
fn run_check(_path: &str) -> Result<(), String> {
    Err("the twin has no check program".into())
}

fn run_repack(path: &str, seed: u64) -> Result<(), String> {
    println!(
        "search: all right: {} through the reader and the repacker",
        repack::repacks(path, seed, count("REPACKS", 20_000)?)?
    );
    Ok(())
}

/// The start pair after every prefix. The twin has no such view.
#[cfg(not(feature = "standin"))]
use search::starts::starts;
#[cfg(feature = "standin")]
fn starts(_planner: &search::planner::Planner, _seed: u64, _books: u64) -> Result<u64, String> {
    Ok(0)
}

/// Batches of objectives. The twin has none.
#[cfg(not(feature = "standin"))]
use search::batch::batches;
#[cfg(feature = "standin")]
fn batches(_seed: u64, _books: u64) -> Result<&'static str, String> {
    Ok("no batches")
}

/// Slips, whole and damaged. The twin writes none.
#[cfg(not(feature = "standin"))]
use search::slips::slips;
#[cfg(feature = "standin")]
fn slips(_seed: u64, _books: u64) -> Result<u64, String> {
    Ok(0)
}

/// Lists of corners. The twin writes none.
#[cfg(not(feature = "standin"))]
use search::corner_bytes::corner_bytes;
#[cfg(feature = "standin")]
fn corner_bytes(_seed: u64, _books: u64) -> Result<u64, String> {
    Ok(0)
}

/// A number from the environment.
fn setting(name: &str, otherwise: u64) -> Result<u64, String> {
    match std::env::var(name) {
        Ok(text) => text.parse().map_err(|_| format!("{name} is no number: {text}")),
        Err(_) => Ok(otherwise),
    }
}

/// A number of books from the environment. A run that tests nothing must not pass, so that 0 is refused.
fn count(name: &str, otherwise: u64) -> Result<u64, String> {
    match setting(name, otherwise)? {
        0 => Err(format!("{name} is 0: a run without such books would test nothing")),
        n => Ok(n),
    }
}

/// Runs a part with its number of books from the environment, and says how many there were and how long it took.
fn timed(name: &str, otherwise: u64, part: impl FnOnce(u64) -> Result<u64, String>) -> Result<String, String> {
    let start = Instant::now();
    Ok(format!("{} ({:.1} s)", part(count(name, otherwise)?)?, start.elapsed().as_secs_f64()))
}

fn look(version: &str) -> Result<(), String> {
    let planner = if Layout::of_version(version)? == TWO.layout { &TWO } else { &ONE };
    for row in std::io::stdin().lines() {
        let row = row.map_err(|e| e.to_string())?;
        let book = from_hex(row.trim_matches('-')).ok_or("not hexadecimal")?;
        let right = expected_as(&planner.layout, &book, Way::OnePass);
        let line = planner.line(&book)?;
        let verdict = right.judge(&line).map_or_else(|why| why, |()| "right".into());
        println!("{}\t{}\t{verdict}", right.shown(), String::from_utf8_lossy(&line).trim_end());
    }
    Ok(())
}
