//! Tests of the planner from outside. Books are made at random or from a table (`book`, `families`, `damage`, `stored`), read again by an
//! independent reader (`read`), searched exhaustively (`exact`, `prefixes`) or, where they are long, by cutting lines (`clip`), and the
//! planner's line is judged (`judge`, `spare`), as are the lines of the panel (`panel`), batches of objectives (`batch`), two books joined
//! (`joint`), slips and their lines (`slips`, `slip_lines`), sessions (`session`) and corners (`corners`, `corner_bytes`).
//! Nothing here shares a step with the planner: no walk, no pair carried from one prefix to the next, 128-bit integers
//! throughout.

#[cfg(not(feature = "standin"))]
pub mod batch;
pub mod book;
pub mod clip;
#[cfg(not(feature = "standin"))]
pub mod corner_bytes;
pub mod corners;
pub mod damage;
pub mod exact;
pub mod families;
#[cfg(not(feature = "standin"))]
pub mod joint;
pub mod judge;
pub mod layout;
pub mod long;
pub mod panel;
pub mod planner;
pub mod prefixes;
pub mod program;
pub mod random;
pub mod read;
pub mod repack;
pub mod runs;
pub mod session;
#[cfg(not(feature = "standin"))]
pub mod slip_lines;
#[cfg(not(feature = "standin"))]
pub mod slips;
pub mod spare;
#[cfg(not(feature = "standin"))]
pub mod starts;
pub mod stored;
pub mod stored_two;
