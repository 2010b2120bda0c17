//! The planner under test: the static library's functions for each version, or the twin in their place.

use crate::exact::Pair;
use crate::layout::{self, Layout};
use crate::read::Refused;

/// Long enough for every line, and for the lines of every panel of a version.
pub const LINE: usize = 256;
const PANEL: usize = 16_384;
pub const PANEL2: usize = 262_144;

/// What stands for a refusal is this many times its number, plus its record; a count is less.
const REFUSED: usize = 65_536;

/// What stands in a buffer before a call.
const BEFORE: u8 = 0xA5;
const BEFORE_A_VIEW: i64 = 0x5A5A;

/// A function that reads a book and fills the start of a buffer.
pub type Fill = fn(&[u8], &mut [u8]) -> usize;

/// A function that reads a book and writes its start pair after so many rules.
pub type View = fn(&[u8], usize, &mut [i64]) -> usize;

#[cfg(not(feature = "standin"))]
mod linked {
    type Filling = unsafe extern "C" fn(*const u8, usize, *mut u8, usize) -> usize;
    type Viewing = unsafe extern "C" fn(*const u8, usize, usize, *mut i64, usize) -> usize;

    extern "C" {
        fn vishalneq_plan_line(book: *const u8, book_len: usize, out: *mut u8, out_len: usize) -> usize;
        fn vishalneq_plan_line2(book: *const u8, book_len: usize, out: *mut u8, out_len: usize) -> usize;
        fn vishalneq_panel_lines(book: *const u8, book_len: usize, out: *mut u8, out_len: usize) -> usize;
        fn vishalneq_panel_lines2(book: *const u8, book_len: usize, out: *mut u8, out_len: usize) -> usize;
        fn vishalneq_repack(book: *const u8, book_len: usize, out: *mut u8, out_len: usize) -> usize;
        fn vishalneq_repack2(book: *const u8, book_len: usize, out: *mut u8, out_len: usize) -> usize;
        fn vishalneq_start_after(book: *const u8, book_len: usize, prefix: usize, out: *mut i64, out_len: usize) -> usize;
        fn vishalneq_start_after2(book: *const u8, book_len: usize, prefix: usize, out: *mut i64, out_len: usize) -> usize;
    }

    fn fill(function: Filling, book: &[u8], out: &mut [u8]) -> usize {
        // SAFETY: both slices are live for the call, and `out` is lent for writing to this call alone.
        unsafe { function(book.as_ptr(), book.len(), out.as_mut_ptr(), out.len()) }
    }

    fn view(function: Viewing, book: &[u8], prefix: usize, out: &mut [i64]) -> usize {
        // SAFETY: as above.
        unsafe { function(book.as_ptr(), book.len(), prefix, out.as_mut_ptr(), out.len()) }
    }

    pub fn plan_line(book: &[u8], out: &mut [u8]) -> usize {
        fill(vishalneq_plan_line, book, out)
    }

    pub fn plan_line2(book: &[u8], out: &mut [u8]) -> usize {
        fill(vishalneq_plan_line2, book, out)
    }

    pub fn panel_lines(book: &[u8], out: &mut [u8]) -> usize {
        fill(vishalneq_panel_lines, book, out)
    }

    pub fn panel_lines2(book: &[u8], out: &mut [u8]) -> usize {
        fill(vishalneq_panel_lines2, book, out)
    }

    pub fn repack(book: &[u8], out: &mut [u8]) -> usize {
        fill(vishalneq_repack, book, out)
    }

    pub fn repack2(book: &[u8], out: &mut [u8]) -> usize {
        fill(vishalneq_repack2, book, out)
    }

    pub fn start_after(book: &[u8], prefix: usize, out: &mut [i64]) -> usize {
        view(vishalneq_start_after, book, prefix, out)
    }

    pub fn start_after2(book: &[u8], prefix: usize, out: &mut [i64]) -> usize {
        view(vishalneq_start_after2, book, prefix, out)
    }
}

/// The twin in the library's place. It has no repacker and no view: what the search finds right is repacked, and no view is asked for.
#[cfg(feature = "standin")]
mod linked {
    use crate::layout::{Layout, ONE, TWO};
    use crate::read::Refused;
    pub use twin::{plan_line, tuned_line2 as plan_line2, tuned_panel as panel_lines, tuned_panel2 as panel_lines2};

    pub fn repack(book: &[u8], out: &mut [u8]) -> usize {
        right(&ONE, book, out)
    }

    pub fn repack2(book: &[u8], out: &mut [u8]) -> usize {
        right(&TWO, book, out)
    }

    fn right(layout: &Layout, book: &[u8], out: &mut [u8]) -> usize {
        match crate::repack::repack(layout, book, out.len()) {
            Ok(packed) => {
                out[..packed.len()].copy_from_slice(&packed);
                packed.len()
            }
            Err(Refused { number, record }) => super::REFUSED * number as usize + record,
        }
    }

    pub fn start_after(_book: &[u8], _prefix: usize, _out: &mut [i64]) -> usize {
        unreachable!("the twin has no view")
    }

    pub use start_after as start_after2;
}

pub use linked::{panel_lines2, plan_line, plan_line2};

/// What is seen of the start pair: of a refused book its refusal; else the pair after the prefix or none, and how many rules broke it.
#[derive(Debug, PartialEq)]
pub enum Seen {
    Refused(Refused),
    After { start: Option<Pair>, count: usize },
}

/// A planner of books of one version.
pub struct Planner {
    pub layout: Layout,
    plan: Fill,
    panel: Fill,
    panel_room: usize,
    repack: Fill,
    view: View,
}

pub const ONE: Planner = Planner {
    layout: layout::ONE,
    plan: linked::plan_line,
    panel: linked::panel_lines,
    panel_room: PANEL,
    repack: linked::repack,
    view: linked::start_after,
};

pub const TWO: Planner = Planner {
    layout: layout::TWO,
    plan: linked::plan_line2,
    panel: linked::panel_lines2,
    panel_room: PANEL2,
    repack: linked::repack2,
    view: linked::start_after2,
};

impl Planner {
    /// A book's line.
    pub fn line(&self, book: &[u8]) -> Result<Vec<u8>, String> {
        written(LINE, |out| (self.plan)(book, out))
    }

    /// A buffer that is a byte too short for every line or panel must stay as it is, and 0 be handed back.
    pub fn short_buffers(&self, book: &[u8]) -> Result<(), String> {
        let line = written(LINE - 1, |out| (self.plan)(book, out))?;
        let panel = written(self.panel_room - 1, |out| (self.panel)(book, out))?;
        if line.is_empty() && panel.is_empty() {
            Ok(())
        } else {
            Err("a short buffer was filled".into())
        }
    }

    /// The lines of a book's panel.
    pub fn panel(&self, book: &[u8]) -> Result<Vec<u8>, String> {
        written(self.panel_room, |out| (self.panel)(book, out))
    }

    /// The repacked form of a book in an output of so many bytes, or why there is none; the output of such a book must stay as it was.
    pub fn repack(&self, book: &[u8], room: usize) -> Result<Result<Vec<u8>, Refused>, String> {
        let mut told = 0;
        let filled = written(room, |out| {
            told = (self.repack)(book, out);
            if told < REFUSED {
                told
            } else {
                0
            }
        })?;
        Ok(refusal(told).map_or(Ok(filled), Err))
    }

    /// The planner's view. The fourth number must stay as it was, and a buffer of two numbers too.
    pub fn start_after(&self, book: &[u8], prefix: usize) -> Result<Seen, String> {
        let (mut out, mut short) = ([BEFORE_A_VIEW; 4], [BEFORE_A_VIEW; 2]);
        let told = (self.view)(book, prefix, &mut out);
        let [x, y, d, rest] = out;
        if rest != BEFORE_A_VIEW {
            return Err("a number after the pair was changed".into());
        }
        if (self.view)(book, prefix, &mut short) != told || short != [BEFORE_A_VIEW; 2] {
            return Err("a short buffer was changed, or had another count".into());
        }
        match refusal(told) {
            Some(_) if [x, y, d] != [BEFORE_A_VIEW; 3] => Err("the buffer of a refused book was changed".into()),
            Some(refused) => Ok(Seen::Refused(refused)),
            None => pair([x, y, d]).map(|start| Seen::After { start, count: told }),
        }
    }
}

/// The refusal that was handed back, if it was one.
fn refusal(told: usize) -> Option<Refused> {
    (told >= REFUSED).then_some(Refused { number: (told / REFUSED) as u32, record: told % REFUSED })
}

fn pair(out: [i64; 3]) -> Result<Option<Pair>, String> {
    let [x, y, d] = out.map(i128::from);
    match d {
        0 if (x, y) == (0, 0) => Ok(None),
        0 => Err("a pair without a denominator".into()),
        _ => Ok(Some(Pair { x, y, d })),
    }
}

/// What a call writes into a buffer. Bytes of the buffer after it must stay as they were.
pub fn written(size: usize, write: impl FnOnce(&mut [u8]) -> usize) -> Result<Vec<u8>, String> {
    let mut out = vec![BEFORE; size];
    let length = write(&mut out);
    match out.get(length..) {
        None => Err(format!("{length} bytes in a buffer of {size}")),
        Some(rest) if rest.iter().any(|b| *b != BEFORE) => Err("bytes after what was written were changed".into()),
        Some(_) => Ok(out[..length].to_vec()),
    }
}
