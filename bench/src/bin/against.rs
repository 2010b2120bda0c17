//! The time of the planner of version 1 as a ratio to an earlier commit's, which `bench/against` builds and links under a name of its own.

use bench::{title, Table, EARLIER};
use search::layout::ONE;
use search::planner::{plan_line, Fill, LINE};

extern "C" {
    fn earlier_plan_line(book: *const u8, book_len: usize, out: *mut u8, out_len: usize) -> usize;
}

fn earlier(book: &[u8], out: &mut [u8]) -> usize {
    // SAFETY: both slices are live for the call, and `out` is lent for writing to this call alone.
    unsafe { earlier_plan_line(book.as_ptr(), book.len(), out.as_mut_ptr(), out.len()) }
}

fn main() -> Result<(), String> {
    title();
    let planners = [("now", plan_line as Fill), (EARLIER, earlier), ("twin", twin::plan_line)];
    Table { layout: ONE, written: bench::single, lengths: &[16, 64, 255], room: LINE, planners, growth: false }.print()
}
