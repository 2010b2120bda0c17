//! The time of a check of the planner's own slip, beside that of reading the book, which is a check of no slip at all, and that of a plan.

use bench::chains::{Chains, SORTS};
use bench::measure::{least, measure, median};
use bench::title;
use search::layout::TWO;
use search::planner::{plan_line2, LINE};
use search::random::Random;
use search::slips::{slip, told};

/// The bytes of a slip's 14 numbers, which stand before the book.
const SLIP: usize = 14 * 8;

fn main() {
    title();
    println!("\n| chain | rules | check | reading | plan | check to reading, median | shortest rounds | check to plan |\n|---|---|---|---|---|---|---|---|");
    for (name, chains) in SORTS {
        for n in [16, 255, 4_095] {
            println!("| {name} | {n} | {}", row(chains, n));
        }
    }
}

/// The times of chains of one sort and length.
fn row(chains: Chains, n: usize) -> String {
    let mut random = Random::new(n as u64);
    let books: Vec<Vec<u8>> = chains(&mut random, n).iter().map(|chain| with_slip(chain.packed_as(&TWO))).collect();
    let rounds = measure([checked, read, planned], &books, LINE);
    let shortest = least(&rounds[0]) / least(&rounds[1]);
    let [checks, readings, plans] = rounds.map(median);
    let (to_reading, to_plan) = (checks / readings, checks / plans);
    format!("{checks:.2} | {readings:.2} | {plans:.2} | {to_reading:.2} | {shortest:.2} | {to_plan:.2} |")
}

/// A book behind its slip, which the checker must say yes to.
fn with_slip(book: Vec<u8>) -> Vec<u8> {
    let numbers = slip(&book).expect("the slip stays in its run").expect("the book is accepted");
    assert_eq!(told(&book, &numbers), 1, "the planner's slip gets a yes");
    numbers.iter().flat_map(|z| z.to_le_bytes()).chain(book).collect()
}

fn checked(both: &[u8], _out: &mut [u8]) -> usize {
    let (slip, book) = both.split_at(SLIP);
    let mut numbers = [0; 14];
    for (number, bytes) in numbers.iter_mut().zip(slip.chunks_exact(8)) {
        *number = i64::from_le_bytes(bytes.try_into().expect("eight bytes"));
    }
    told(book, &numbers)
}

/// No slip is out of range for every book, which is seen after the book was read.
fn read(both: &[u8], _out: &mut [u8]) -> usize {
    told(&both[SLIP..], &[])
}

fn planned(both: &[u8], out: &mut [u8]) -> usize {
    plan_line2(&both[SLIP..], out)
}
