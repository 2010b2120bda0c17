//! Prints the times of planners as tables, for three sorts of chains and some lengths, and the first one's as a ratio to each other one's.
//! The median of the ratios of neighbouring rounds is the verdict; the ratio of the shortest rounds is nearly free of what else the machine
//! does.

pub mod chains;
mod date;
pub mod measure;
pub mod peers;
pub mod regions;

use chains::Chains;
use measure::{least, measure, median, same_lines, Planner, FEW_ROUNDS, ROUNDS};
use search::book::Source;
use search::layout::Layout;
use search::random::Random;

/// A chain of one book, and one whose first half is a site's book and whose second half a tenant's, which stand one behind the other.
pub fn single(chain: &Source, layout: &Layout) -> Vec<u8> {
    chain.packed_as(layout)
}

pub fn halved(chain: &Source, layout: &Layout) -> Vec<u8> {
    let (site, tenant) = chain.rules.split_at(chain.rules.len() / 2);
    let book = |rules: &[search::book::Rule]| Source { rules: rules.to_vec(), ..chain.clone() }.packed_as(layout);
    [book(site), book(tenant)].concat()
}

/// What a table measures: books of a version, of these lengths, by planners with names, which write into a buffer of so many bytes.
pub struct Table<'a, const N: usize> {
    pub layout: Layout,
    /// The bytes that a chain is written as.
    pub written: fn(&Source, &Layout) -> Vec<u8>,
    pub lengths: &'a [usize],
    pub room: usize,
    pub planners: [(&'a str, Planner); N],
    /// Whether rows say by what the time grows from 255 rules to the longest.
    pub growth: bool,
}

/// The name of an earlier commit's planner. Its lines are not compared with the others', since a request after it may have changed what a
/// plan says.
pub const EARLIER: &str = "earlier";

/// When and how often it was measured.
pub fn title() {
    println!(
        "Measured on {}; {ROUNDS} rounds of each, {FEW_ROUNDS} of chains of 4,095 rules; microseconds a book.",
        date::today()
    );
}

impl<const N: usize> Table<'_, N> {
    pub fn print(&self) -> Result<(), String> {
        self.head();
        chains::SORTS.into_iter().try_for_each(|(name, chains)| self.rows(name, chains))
    }

    /// The names above the columns.
    pub fn head(&self) {
        let names = self.planners.map(|(name, _)| name);
        let ratios: String = names[1..].iter().map(|name| format!(" to {name}, median | shortest rounds |")).collect();
        println!("\n| chain | rules | {} |{ratios}", names.join(" | "));
        println!("|---|---|{}", "---|".repeat(3 * N - 2));
    }

    /// The rows of one sort of chains.
    pub fn rows(&self, name: &str, chains: Chains) -> Result<(), String> {
        let mut known = Vec::new();
        for &n in self.lengths {
            known.push((n, self.row(name, chains, n)?));
        }
        let base = known.iter().find(|(n, _)| *n == 255);
        if let (true, Some((_, base)), Some((n, last))) = (self.growth, base, known.last()) {
            let grown: Vec<String> = last.iter().zip(base).map(|(last, base)| format!("× {:.1}", last / base)).collect();
            println!("| {name} | 255 to {n} | {} |{}", grown.join(" | "), " |".repeat(2 * N - 2));
        }
        Ok(())
    }

    /// Measures chains of one sort and length and prints their row. Hands back the times of the shortest rounds.
    pub fn row(&self, name: &str, chains: Chains, n: usize) -> Result<[f64; N], String> {
        let chains = chains(&mut Random::new(n as u64), n);
        let books: Vec<Vec<u8>> = chains.iter().map(|chain| (self.written)(chain, &self.layout)).collect();
        let planners = self.planners.map(|(_, plan)| plan);
        let compared: Vec<Planner> = self.planners.iter().filter(|(name, _)| *name != EARLIER).map(|(_, plan)| *plan).collect();
        if !same_lines(&compared, &books, self.room) {
            return Err(format!("the planners print different lines for a chain of {n} rules: {name}"));
        }
        let times = measure(planners, &books, self.room);
        let ratios: String = times[1..].iter().map(|other| ratio(&times[0], other)).collect();
        let shortest = std::array::from_fn(|k| least(&times[k]));
        let medians = times.map(|list| format!("{:.2}", median(list))).join(" | ");
        println!("| {name} | {n} | {medians} |{ratios}");
        Ok(shortest)
    }
}

/// The median time a book of one function alone.
pub fn microseconds(fill: Planner, books: &[Vec<u8>], room: usize) -> f64 {
    let [times] = measure([fill], books, room);
    median(times)
}

/// The median times a book of two functions, and the first one's as a ratio to the other's. What they write is not compared.
pub fn beside(first: Planner, other: Planner, books: &[Vec<u8>], room: usize) -> String {
    let times = measure([first, other], books, room);
    let ratio = ratio(&times[0], &times[1]);
    let [first, other] = times.map(median);
    format!("{first:.2} | {other:.2} |{ratio}")
}

/// The median of the ratios of neighbouring rounds, and the ratio of the shortest rounds.
fn ratio(first: &[f64], other: &[f64]) -> String {
    let ratios = first.iter().zip(other).map(|(one, two)| one / two).collect();
    format!(" {:.2} | {:.2} |", median(ratios), least(first) / least(other))
}
