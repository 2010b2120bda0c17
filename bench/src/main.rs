//! The planner's time as a ratio to the twin's: of version 1 to the plain twin and to that with the planner's own shortcuts, of version 2
//! to the latter.

use bench::{halved, single, title, Table};
#[cfg(not(feature = "standin"))]
use search::joint::joint_halves;
use search::layout::{ONE, TWO};
use search::planner::{panel_lines2, plan_line, plan_line2, Fill, LINE, PANEL2};
#[cfg(feature = "standin")]
use twin::joint_halves;

fn main() -> Result<(), String> {
    title();
    let planners = [("planner", plan_line as Fill), ("twin", twin::plan_line), ("tuned twin", twin::tuned_line)];
    Table { layout: ONE, written: single, lengths: &[16, 64, 255], room: LINE, planners, growth: false }.print()?;
    println!("\nVersion 2, plans:");
    let planners = [("planner", plan_line2 as Fill), ("tuned twin", twin::tuned_line2)];
    Table { layout: TWO, written: single, lengths: &[16, 64, 255, 1_000, 4_095], room: LINE, planners, growth: true }.print()?;
    println!("\nVersion 2, panels:");
    let planners = [("planner", panel_lines2 as Fill), ("tuned twin", twin::tuned_panel2)];
    Table { layout: TWO, written: single, lengths: &[255, 4_095], room: PANEL2, planners, growth: true }.print()?;
    println!("\nTwo books of version 2 joined, rules of both:");
    let planners = [("planner", joint_halves as Fill), ("tuned twin", twin::joint_halves)];
    Table { layout: TWO, written: halved, lengths: &[32, 510, 8_190], room: LINE, planners, growth: false }.print()
}
