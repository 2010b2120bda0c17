//! The programs' own path: a book on standard input, in pieces, and what is printed on standard output; the plan program's lines judged.

use crate::families::{hundred_books, longest_books};
use crate::layout::{Layout, ONE, TWO};
use crate::prefixes::Way;
use crate::random::Random;
use crate::runs::try_line_as;
use crate::{stored, stored_two};
use std::ffi::OsStr;
use std::io::Write;
use std::path::PathBuf;
use std::process::{Command, Stdio};

/// What every program of a version is run on: the stored books, inputs that are too long, some random books, and some of the longest.
pub fn inputs(layout: &Layout, random: &mut Random) -> Vec<(&'static str, Vec<u8>)> {
    let mut books = stored_books(layout);
    let longest = stored::source(0, 0, &vec![(2, 1, 1, 2); layout.most_rules()]).packed_as(layout);
    let longer = |more| ("the longest book or longer", [&longest[..], &vec![0; more]].concat());
    books.extend([0, 1, layout.width(), longest.len(), 70_000, 1_000_000].map(longer));
    books.extend(hundred_books(layout, random));
    books.extend(longest_books(layout, random));
    books
}

/// The stored books, those of version 1 as this version writes them.
pub fn stored_books(layout: &Layout) -> Vec<(&'static str, Vec<u8>)> {
    [stored_books_of_one(layout), own_books(layout)].concat()
}

/// The stored books of version 1 as another version writes them.
pub fn stored_books_of_one(layout: &Layout) -> Vec<(&'static str, Vec<u8>)> {
    stored::books().into_iter().map(|s| (s.name, in_version(layout, &s.book))).collect()
}

/// Those of them with up to 300 rules.
pub fn short_stored_books(layout: &Layout) -> Vec<(&'static str, Vec<u8>)> {
    stored_books(layout).into_iter().filter(|(_, book)| book.len() <= 301 * layout.width()).collect()
}

/// The stored books that only one version has.
fn own_books(layout: &Layout) -> Vec<(&'static str, Vec<u8>)> {
    let books = if *layout == TWO { stored_two::books() } else { Vec::new() };
    books.into_iter().map(|s| (s.name, s.book)).collect()
}

/// A book of version 1 with every record as another version writes it, and with that version's number where it had its own. Bytes after
/// the last whole record stay as they are.
fn in_version(layout: &Layout, book: &[u8]) -> Vec<u8> {
    let records = book.chunks_exact(ONE.width()).enumerate();
    let zeros = |n: usize| vec![0; n];
    let rewritten = records.flat_map(|(i, r)| {
        let kind = if i == 0 && r[1] == ONE.version { layout.version } else { r[1] };
        [&r[..1], &zeros(layout.link_bytes - 1), &[kind], &zeros(layout.pad_bytes), &r[2..]].concat()
    });
    rewritten.chain(book.chunks_exact(ONE.width()).remainder().iter().copied()).collect()
}

/// Runs a version's plan program on all inputs.
pub fn program(layout: &Layout, path: &str, seed: u64) -> Result<u64, String> {
    let mut random = Random::new(seed);
    let books = inputs(layout, &mut random);
    for (name, book) in &books {
        let printed = printed(path, book, random.below(book.len() + 1));
        try_line_as(layout, name, book, Way::OnePass, printed)?;
    }
    Ok(books.len() as u64)
}

/// What the program prints for a book that arrives in two pieces. It must end normally and print no error.
pub fn printed(path: &str, book: &[u8], first: usize) -> Result<Vec<u8>, String> {
    let (out, error) = streams(path, book, first)?;
    if !error.is_empty() {
        return Err(String::from_utf8_lossy(&error).into());
    }
    Ok(out)
}

/// What the program writes to standard output and to standard error. It must end normally.
pub fn streams(path: &str, book: &[u8], first: usize) -> Result<(Vec<u8>, Vec<u8>), String> {
    streams_with(path, &[], book, first)
}

/// The same with words after the program's name.
pub fn streams_with(path: &str, words: &[&OsStr], book: &[u8], first: usize) -> Result<(Vec<u8>, Vec<u8>), String> {
    let mut command = Command::new(path);
    command.args(words).stdin(Stdio::piped()).stdout(Stdio::piped()).stderr(Stdio::piped());
    let mut child = command.spawn().map_err(|e| format!("{path}: {e}"))?;
    let mut input = child.stdin.take().ok_or("no standard input")?;
    for piece in [&book[..first], &book[first..]] {
        // A program may stop reading an input that is too long.
        if input.write_all(piece).and_then(|()| input.flush()).is_err() {
            break;
        }
        std::thread::yield_now();
    }
    drop(input);
    let output = child.wait_with_output().map_err(|e| e.to_string())?;
    if !output.status.success() {
        return Err(format!("{}, {}", output.status, String::from_utf8_lossy(&output.stderr)));
    }
    Ok((output.stdout, output.stderr))
}

/// A file for the book, which is gone again when this is.
struct File(PathBuf);

impl File {
    fn new(book: &[u8]) -> Result<File, String> {
        let name = std::env::temp_dir().join(format!("{}.book", std::process::id()));
        std::fs::write(&name, book).map_err(|e| e.to_string())?;
        Ok(File(name))
    }
}

impl Drop for File {
    fn drop(&mut self) {
        // A file that is gone already is as good.
        let _ = std::fs::remove_file(&self.0);
    }
}

/// What a program prints for a book in a file, which its argument names, and an input that arrives in two pieces. It must print nothing to
/// standard error.
pub fn printed_of(path: &str, book: &[u8], input: &[u8], first: usize) -> Result<String, String> {
    let file = File::new(book)?;
    let (out, error) = streams_with(path, &[file.0.as_os_str()], input, first)?;
    if !error.is_empty() {
        return Err(String::from_utf8_lossy(&error).into());
    }
    Ok(String::from_utf8_lossy(&out).into())
}
