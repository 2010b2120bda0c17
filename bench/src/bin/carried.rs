//! The planner's time where passes over the entries would be quadratic, beside two twins: one with the planner's change-over to the region's
//! boundary, and one that makes passes to the end of the chain. Chains of 8,190 rules are two books of 4,095 joined. Then lrs, where it is
//! installed, on a chain of each sort.

use bench::chains::{Chains, CARRIED};
use bench::peers::{lrs, Task};
use bench::{halved, microseconds, single, title, Table};
use search::joint::joint_halves;
use search::layout::TWO;
use search::planner::{plan_line2, Fill, LINE};
use search::random::Random;

fn main() -> Result<(), String> {
    title();
    let planners =
        [("planner", plan_line2 as Fill), ("tuned twin", twin::tuned_line2), ("quadratic twin", twin::quadratic_line2)];
    let one = Table { layout: TWO, written: single, lengths: &[16, 64, 255, 1_024, 4_095], room: LINE, planners, growth: false };
    let planners =
        [("planner", joint_halves as Fill), ("tuned twin", twin::joint_halves), ("quadratic twin", twin::quadratic_halves)];
    let joined = Table { layout: TWO, written: halved, lengths: &[8_190], room: LINE, planners, growth: false };
    one.head();
    CARRIED.into_iter().try_for_each(|(name, chains)| rows(&one, &joined, name, chains))?;
    println!("\n| chain | rules | planner | lrs | to lrs |\n|---|---|---|---|---|");
    CARRIED.into_iter().try_for_each(|(name, chains)| peer(name, chains))
}

/// The row of one chain of 4,095 rules of a sort beside lrs, which is asked for the greatest gain alone.
fn peer(name: &str, chains: Chains) -> Result<(), String> {
    let n = 4_095;
    let book = chains(&mut Random::new(n as u64), n)[0].packed_as(&TWO);
    let time = microseconds(plan_line2, &[book.clone()], LINE);
    match lrs(&book, Task::Plan)? {
        Some(other) => println!("| {name} | {n} | {time:.2} | {other:.0} | {:.4} |", time / other),
        None => println!("| {name} | {n} | {time:.2} | not installed | |"),
    }
    Ok(())
}

/// The rows of one sort of chains, and by what the time of the shortest rounds grows from 1,024 to 8,190 rules.
fn rows(one: &Table<3>, joined: &Table<3>, name: &str, chains: Chains) -> Result<(), String> {
    let mut middle = [f64::NAN; 3];
    for &n in one.lengths {
        let times = one.row(name, chains, n)?;
        if n == 1_024 {
            middle = times;
        }
    }
    let last = joined.row(name, chains, joined.lengths[0])?;
    let grown: Vec<String> = last.iter().zip(middle).map(|(last, middle)| format!("× {:.1}", last / middle)).collect();
    println!("| {name} | 1024 to 8190 | {} | | | | |", grown.join(" | "));
    Ok(())
}
