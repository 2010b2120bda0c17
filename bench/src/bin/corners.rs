//! The time of listing a region's corners, beside that of lrs (Debian's lrslib) on the same rules, where it is installed.

use bench::peers::{lrs, Task};
use bench::regions::{Region, REGIONS};
use bench::{microseconds, title};
use search::corner_bytes::{corners, CORNERS};
use search::layout::TWO;
use search::random::Random;

const LENGTHS: [usize; 4] = [16, 255, 1_024, 4_095];

fn main() -> Result<(), String> {
    title();
    println!("\n| region | rules | corners | planner | lrs | to lrs |\n|---|---|---|---|---|---|");
    REGIONS.into_iter().try_for_each(|(name, region)| rows(name, region))
}

/// The rows of one sort of regions, and by what the time grows from 1,024 to 4,095 rules.
fn rows(name: &str, region: Region) -> Result<(), String> {
    let mut times = Vec::new();
    for n in LENGTHS {
        let book = region(&mut Random::new(n as u64), n).packed_as(&TWO);
        let count = corners(&book, &mut [0; CORNERS]);
        let time = microseconds(corners, &[book.clone()], CORNERS);
        let (other, ratio) = match lrs(&book, Task::Corners)? {
            Some(other) => (format!("{other:.0}"), format!("{:.4}", time / other)),
            None => ("not installed".to_string(), String::new()),
        };
        println!("| {name} | {n} | {count} | {time:.2} | {other} | {ratio} |");
        times.push(time);
    }
    println!("| {name} | 1024 to 4095 | | × {:.1} | | |", times[3] / times[2]);
    Ok(())
}
