//! lrs (Debian's lrslib), a peer, on the rules of a book of version 2, where it is installed. Its time is that of its whole program, since it
//! is nothing else.

use search::layout::TWO;
use search::read::{read_as, Accepted};
use std::process::{Command, Stdio};
use std::time::Instant;

/// What lrs is asked: all vertices of the region, or the greatest gain alone.
#[derive(Clone, Copy)]
pub enum Task {
    Corners,
    Plan,
}

/// The rules and floors of a book as lrs reads them: c - a·x - b·y is not below 0.
fn written(book: &Accepted, task: Task) -> String {
    let lines = book.terms.floors.iter().chain(book.rules.iter().map(|r| &r.line));
    let rows: String = lines.map(|r| format!("{} {} {}\n", r.c, -r.a, -r.b)).collect();
    let asked = match task {
        Task::Corners => String::new(),
        Task::Plan => format!("maximize 0 {} {}\nlponly\n", book.terms.p, book.terms.q),
    };
    format!("H-representation\nbegin\n{} 3 integer\n{rows}end\n{asked}", book.rules.len() + 2)
}

/// The microseconds of lrs, if there is one.
pub fn lrs(book: &[u8], task: Task) -> Result<Option<f64>, String> {
    let accepted = read_as(&TWO, book).map_err(|r| format!("refused {} {}", r.number, r.record))?;
    let file = std::env::temp_dir().join(format!("vishalneq-{}.ine", std::process::id()));
    std::fs::write(&file, written(&accepted, task)).map_err(|e| e.to_string())?;
    let start = Instant::now();
    let ran = Command::new("lrs").arg(&file).stdout(Stdio::null()).stderr(Stdio::null()).status();
    let time = start.elapsed().as_secs_f64() * 1e6;
    std::fs::remove_file(&file).map_err(|e| e.to_string())?;
    Ok(ran.is_ok_and(|status| status.success()).then_some(time))
}
