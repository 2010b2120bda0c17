//! A program's own path: bytes on its standard input, in pieces, and what it prints on its standard output.

use std::io::Write;
use std::process::{ChildStdin, Command, Stdio};
use std::thread;
use std::time::Duration;

/// Long enough for a program that waits to take what has arrived so far.
const PAUSE: Duration = Duration::from_millis(10);

/// What the program prints. It must end normally and print no error.
pub fn printed(path: &str, pieces: &[&[u8]]) -> Result<Vec<u8>, String> {
    let mut command = Command::new(path);
    command.stdin(Stdio::piped()).stdout(Stdio::piped()).stderr(Stdio::piped());
    let mut child = command.spawn().map_err(|e| format!("{path}: {e}"))?;
    let input = child.stdin.take().ok_or("no standard input")?;
    // A program may print before it has read everything, so its output is taken meanwhile.
    let output = thread::scope(|scope| {
        scope.spawn(|| feed(input, pieces));
        child.wait_with_output()
    });
    let output = output.map_err(|e| format!("{path}: {e}"))?;
    if !output.status.success() || !output.stderr.is_empty() {
        return Err(format!("{path}: {}, {}", output.status, String::from_utf8_lossy(&output.stderr)));
    }
    Ok(output.stdout)
}

fn feed(mut input: ChildStdin, pieces: &[&[u8]]) {
    for (i, piece) in pieces.iter().enumerate() {
        if i > 0 {
            thread::sleep(PAUSE);
        }
        // A program may stop reading an input that is too long.
        if input.write_all(piece).is_err() {
            break;
        }
    }
}
