//! The time of a batch of 32 objectives, beside that of 32 plans of the same book, each with one of the objectives in its header.

use bench::chains::SORTS;
use bench::regions::REGIONS;
use bench::{beside, title};
use search::batch::batch;
use search::book::Source;
use search::layout::TWO;
use search::planner::{plan_line2, LINE};
use search::random::Random;

const OBJECTIVES: usize = 32;
/// Room for all answers, and for a plan's line.
const ROOM: usize = 32 * OBJECTIVES + LINE;

const LENGTHS: [usize; 2] = [255, 4_095];

fn main() {
    title();
    println!("\n| chain | rules | batch of 32 | 32 plans | to 32 plans, median | shortest rounds |\n|---|---|---|---|---|---|");
    for (name, chains) in SORTS {
        LENGTHS.into_iter().for_each(|n| row(name, n, |random| chains(random, n)));
    }
    let others = REGIONS.into_iter().filter(|(name, _)| SORTS.iter().all(|(sort, _)| sort != name));
    for (name, region) in others {
        LENGTHS.into_iter().for_each(|n| row(name, n, |random| vec![region(random, n)]));
    }
}

/// Measures chains of one sort and length and prints their row.
fn row(name: &str, n: usize, chains: impl Fn(&mut Random) -> Vec<Source>) {
    let mut random = Random::new(n as u64);
    let chains = chains(&mut random);
    let books: Vec<Vec<u8>> = chains.iter().map(|chain| [objectives(&mut random), chain.packed_as(&TWO)].concat()).collect();
    println!("| {name} | {n} | {}", beside(batched, planned, &books, ROOM));
}

/// Any objectives, four bytes each.
fn objectives(random: &mut Random) -> Vec<u8> {
    (0..2 * OBJECTIVES).flat_map(|_| (random.between(-32_767, 32_767) as i16).to_le_bytes()).collect()
}

/// Objectives with a book behind them, as a batch.
fn batched(both: &[u8], out: &mut [u8]) -> usize {
    let (objectives, book) = both.split_at(4 * OBJECTIVES);
    batch(book, objectives, out)
}

/// The same, planned one after the other: the book is copied once, and its header then has each objective in turn.
fn planned(both: &[u8], out: &mut [u8]) -> usize {
    let (objectives, book) = both.split_at(4 * OBJECTIVES);
    let (mut book, at) = (book.to_vec(), TWO.pair_at());
    let mut plan = |objective: &[u8]| {
        book[at..at + 4].copy_from_slice(objective);
        plan_line2(&book, out)
    };
    objectives.chunks_exact(4).map(&mut plan).sum()
}
