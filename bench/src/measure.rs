//! Measures planners on the same books in one process, in turn, in many short rounds.

pub use search::planner::Fill as Planner;
use std::hint::black_box;
use std::time::Instant;

/// How often each planner is measured, and how often on chains that one round of takes long.
pub const ROUNDS: usize = 101;
pub const FEW_ROUNDS: usize = 31;
/// Books of more bytes than these have few rounds.
const LONG: usize = 20_000;
/// About how long a round of one planner takes, in seconds.
const ROUND: f64 = 0.003;

/// All must print the same lines, or their times say nothing.
pub fn same_lines(planners: &[Planner], books: &[Vec<u8>], room: usize) -> bool {
    let line = |plan: Planner, book: &[u8]| {
        let mut out = vec![0; room];
        let length = plan(book, &mut out);
        out[..length].to_vec()
    };
    books.iter().all(|book| planners.iter().all(|plan| line(*plan, book) == line(planners[0], book)))
}

/// Microseconds a book of each planner, round by round.
pub fn measure<const N: usize>(planners: [Planner; N], books: &[Vec<u8>], room: usize) -> [Vec<f64>; N] {
    let mut out = vec![0; room];
    let times = (ROUND / round(planners[0], books, 1, &mut out)).ceil() as usize;
    let planned = (times * books.len()) as f64 / 1e6;
    let mut measured = planners.map(|_| Vec::new());
    let rounds = if books[0].len() <= LONG { ROUNDS } else { FEW_ROUNDS };
    for k in turns(N, rounds) {
        measured[k].push(round(planners[k], books, times, &mut out) / planned);
    }
    measured
}

/// Whose turn it is. Each goes first about as often as the others.
fn turns(planners: usize, rounds: usize) -> impl Iterator<Item = usize> {
    (0..rounds).flat_map(move |i| (0..planners).map(move |k| (i + k) % planners))
}

/// Seconds for planning all books so many times.
fn round(plan: Planner, books: &[Vec<u8>], times: usize, out: &mut [u8]) -> f64 {
    let start = Instant::now();
    for _ in 0..times {
        books.iter().for_each(|book| {
            black_box(plan(black_box(book), out));
        });
    }
    start.elapsed().as_secs_f64()
}

pub fn median(mut list: Vec<f64>) -> f64 {
    list.sort_by(f64::total_cmp);
    list[list.len() / 2]
}

pub fn least(list: &[f64]) -> f64 {
    list.iter().copied().fold(f64::INFINITY, f64::min)
}

#[cfg(test)]
mod tests {
    use super::*;

    #[test]
    fn turns_are_shared_out() {
        let first: Vec<usize> = turns(3, ROUNDS).step_by(3).collect();
        assert_eq!(first[..4], [0, 1, 2, 0]);
        assert!((0..3).all(|k| turns(3, ROUNDS).filter(|turn| *turn == k).count() == ROUNDS));
    }

    #[test]
    fn medians_and_least_numbers() {
        assert_eq!(median(vec![9.0, 1.0, 2.0]), 2.0);
        assert_eq!(least(&[9.0, 1.0, 2.0]), 1.0);
    }

    #[test]
    fn another_line_is_noticed() {
        let silent: Planner = |_, _| 0;
        let books = [vec![0; 12]];
        assert!(same_lines(&[twin::plan_line, twin::tuned_line], &books, 256));
        assert!(!same_lines(&[twin::plan_line, twin::plan_line, silent], &books, 256));
    }
}
