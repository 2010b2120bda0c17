//! Slips: the planner's slip of a book, and what the checker says of slips, each field damaged in turn, against a checker that goes by the
//! request's words with 128-bit integers. A slip is 14 numbers: outcome, count, X, Y, D, dx, dy, scale, then three times code and weight;
//! code 0 is floor x, 1 floor y and r + 1 the rule in record r.

use crate::book::{to_hex, Rule, Source};
use crate::damage::damage;
use crate::exact::Line;
use crate::families::source;
use crate::layout::{Layout, TWO};
use crate::planner::TWO as PLANNER;
use crate::program::short_stored_books;
use crate::random::Random;
use crate::read::{read_as, Accepted, Refused};
use crate::spare::has_spare;

const WEIGHT: i128 = 2_147_352_578;
const REACH: i128 = 65_534_000_000_000;

/// What stands for a refusal is this many times its number, plus its record.
const REFUSED: usize = 65_536;

extern "C" {
    fn vishalneq_slip(book: *const u8, book_len: usize, out: *mut i64, out_len: usize) -> usize;
    fn vishalneq_check(book: *const u8, book_len: usize, slip: *const i64, slip_len: usize) -> usize;
}

fn refusal(told: usize) -> Option<Refused> {
    (told >= REFUSED).then_some(Refused { number: (told / REFUSED) as u32, record: told % REFUSED })
}

/// The planner's slip. The number after it must stay as it was, as a run that is too short must, and one for a refused book.
pub fn slip(book: &[u8]) -> Result<Result<[i64; 14], Refused>, String> {
    let (mut out, mut short) = ([0x5A5A; 15], [0x5A5A; 13]);
    // SAFETY: all slices are live for the calls, and the runs are lent for writing to them alone.
    let (told, none) = unsafe {
        (
            vishalneq_slip(book.as_ptr(), book.len(), out.as_mut_ptr(), 15),
            vishalneq_slip(book.as_ptr(), book.len(), short.as_mut_ptr(), 13),
        )
    };
    let refused = refusal(told);
    let untouched =
        if refused.is_some() { out == [0x5A5A; 15] && none == told } else { out[14] == 0x5A5A && told == 14 && none == 0 };
    if !untouched || short != [0x5A5A; 13] {
        return Err("a run was changed beyond the slip, or another count handed back".into());
    }
    let [numbers @ .., _] = out;
    Ok(refused.map_or(Ok(numbers), Err))
}

/// What the library's checker hands back.
pub fn told(book: &[u8], numbers: &[i64]) -> usize {
    // SAFETY: both slices are live for the call.
    unsafe { vishalneq_check(book.as_ptr(), book.len(), numbers.as_ptr(), numbers.len()) }
}

fn check(book: &[u8], numbers: &[i64]) -> Result<Said, String> {
    let told = told(book, numbers);
    match (refusal(told), told) {
        (Some(refused), _) => Ok(Said::Refused(refused)),
        (None, 0 | 1) => Ok(Said::Answered(told == 1)),
        _ => Err(format!("{told} is no answer")),
    }
}

/// What the checker must say: a refusal, or whether it is a yes.
#[derive(Debug, PartialEq)]
pub enum Said {
    Refused(Refused),
    Answered(bool),
}

/// The rule or floor that a code names.
fn named(book: &Accepted, code: i128) -> Option<Line> {
    match code {
        0 | 1 => Some(book.terms.floors[code as usize]),
        _ => book.rules.iter().find(|r| r.record as i128 + 1 == code).map(|r| r.line),
    }
}

fn left(r: &Line, n: &[i128]) -> i128 {
    r.c * n[4] - r.a * n[2] - r.b * n[3]
}

/// The entries of a slip with their weights, if all are in range: so many of them, each a floor or a rule of the chain, none twice.
fn entries(book: &Accepted, n: &[i128], least: i128, most: i128) -> Option<Vec<(Line, i128)>> {
    if !(least..=most).contains(&n[1]) {
        return None;
    }
    let used: Vec<(i128, i128)> = (0..n[1] as usize).map(|i| (n[8 + 2 * i], n[9 + 2 * i])).collect();
    if used.iter().enumerate().any(|(i, e)| used[..i].iter().any(|f| f.0 == e.0)) {
        return None;
    }
    used.iter().map(|&(code, w)| named(book, code).filter(|_| (1..=WEIGHT).contains(&w)).map(|r| (r, w))).collect()
}

fn allowed(book: &Accepted, n: &[i128]) -> bool {
    book.terms.floors.iter().chain(book.rules.iter().map(|r| &r.line)).all(|r| left(r, n) >= 0)
}

fn pair_in_range(n: &[i128]) -> bool {
    n[2].abs() <= REACH && n[3].abs() <= REACH && (1..=WEIGHT).contains(&n[4])
}

fn sum(used: &[(Line, i128)], part: fn(&Line) -> i128) -> i128 {
    used.iter().map(|(r, w)| w * part(r)).sum()
}

/// Whether a slip's facts hold; none where a field is out of range.
fn facts(book: &Accepted, n: &[i128]) -> Option<bool> {
    let (p, q) = (book.terms.p, book.terms.q);
    match n[0] {
        1 => {
            let used = entries(book, n, 0, 2).filter(|_| pair_in_range(n) && (1..=WEIGHT).contains(&n[7]))?;
            let tight = used.iter().all(|(r, _)| left(r, n) == 0);
            Some(allowed(book, n) && tight && sum(&used, |r| r.a) == n[7] * p && sum(&used, |r| r.b) == n[7] * q)
        }
        2 => {
            let range = 0..=32_767;
            if !pair_in_range(n) || !range.contains(&n[5]) || !range.contains(&n[6]) {
                return None;
            }
            let stays = book.rules.iter().all(|r| r.line.a * n[5] + r.line.b * n[6] <= 0);
            Some(allowed(book, n) && stays && p * n[5] + q * n[6] > 0)
        }
        3 => {
            let used = entries(book, n, 1, 3)?;
            Some(sum(&used, |r| r.a) == 0 && sum(&used, |r| r.b) == 0 && sum(&used, |r| r.c) < 0)
        }
        _ => None,
    }
}

pub fn right(layout: &Layout, book: &[u8], numbers: &[i64]) -> Said {
    let n: Vec<i128> = numbers.iter().map(|&z| i128::from(z)).collect();
    match read_as(layout, book) {
        Err(refused) => Said::Refused(refused),
        Ok(accepted) => match if n.len() == 14 { facts(&accepted, &n) } else { None } {
            None => Said::Refused(Refused { number: 17, record: 0 }),
            Some(yes) => Said::Answered(yes),
        },
    }
}

fn compare(name: &str, book: &[u8], numbers: &[i64]) -> Result<bool, String> {
    let (right, said) = (right(&TWO, book, numbers), check(book, numbers)?);
    if said != right {
        return Err(format!(
            "mismatch: {name}\nbook    {}\nslip    {numbers:?}\nright   {right:?}\nsaid    {said:?}",
            to_hex(book)
        ));
    }
    Ok(said == Said::Answered(true))
}

/// Whether something is spare among the entries of an impossible slip.
fn entry_to_spare(book: &[u8], numbers: &[i64]) -> bool {
    let n: Vec<i128> = numbers.iter().map(|&z| i128::from(z)).collect();
    let used = read_as(&TWO, book).ok().and_then(|accepted| entries(&accepted, &n, 1, 3)).unwrap_or_default();
    has_spare(&used.iter().map(|(line, _)| *line).collect::<Vec<_>>())
}

/// A slip with one field, or another length, damaged: ends of ranges on both sides, neighbours, and numbers of any size.
pub fn damaged(numbers: &[i64; 14], random: &mut Random) -> Vec<i64> {
    let mut slip = numbers.to_vec();
    if random.one_in(40) {
        slip.resize(random.pick(&[0, 1, 13, 15]), 0);
        return slip;
    }
    let (at, any) = (random.below(14), random.word() as i64);
    let ends = [0, 1, 2, 3, 4, 32_767, 32_768, WEIGHT as i64, WEIGHT as i64 + 1, REACH as i64, REACH as i64 + 1, i64::MAX];
    slip[at] = match random.below(6) {
        0 => random.pick(&ends),
        1 => -random.pick(&ends),
        2 => slip[at].wrapping_add(1),
        3 => slip[at].wrapping_sub(1),
        4 => slip[random.below(14)],
        _ => random.pick(&[i64::MIN, any, 2 * (slip[at] % 1_000_000)]),
    };
    slip
}

/// The planner's slip has its plan's pair and direction, gets a yes and has nothing spare; then it is damaged in many ways.
fn try_book(name: &str, book: &[u8], ways: u64, random: &mut Random) -> Result<u64, String> {
    let written = slip(book)?;
    let line = PLANNER.line(book)?;
    let line = String::from_utf8_lossy(&line).trim_end().to_string();
    let complain =
        |why: &str| Err(format!("mismatch: {name}: {why}\nbook    {}\nline    {line}\nslip    {written:?}", to_hex(book)));
    let numbers = match written {
        Err(refused) if line == format!("refused {} {}", refused.number, refused.record) => {
            compare(name, book, &[0; 14])?;
            return Ok(1);
        }
        Err(_) => return complain("another refusal than the plan's"),
        Ok(numbers) => numbers,
    };
    let n = &numbers;
    let start = match n[0] {
        1 => format!("best {} {} {} ", n[2], n[3], n[4]),
        2 => format!("unlimited {} {} {} {} {} ", n[2], n[3], n[4], n[5], n[6]),
        _ => "impossible ".to_string(),
    };
    if !line.starts_with(&start) {
        return complain("not the plan's outcome, pair and direction");
    }
    if !compare(name, book, n)? {
        return complain("the planner's slip got no yes");
    }
    if n[0] == 3 && entry_to_spare(book, n) {
        return complain("an entry is spare: the others clash without it");
    }
    for _ in 0..ways {
        compare(name, book, &damaged(n, random))?;
    }
    Ok(1 + ways)
}

/// A slip of a book that is told what it must get.
type Stored = (&'static str, Vec<u8>, Vec<i64>, Said);

fn at_most(a: i16, b: i16, c: i32, label: u16) -> Rule {
    Rule { kind: 1, a, b, c, label }
}

fn book_of(p: i16, q: i16, rules: Vec<Rule>) -> Vec<u8> {
    Source { p, q, lx: 0, ly: 0, rules }.packed_as(&TWO)
}

/// A best slip: its pair, its scale, and its entries.
fn best(pair: [i64; 3], scale: i64, entries: &[[i64; 2]]) -> Vec<i64> {
    padded([1, entries.len() as i64, pair[0], pair[1], pair[2], 0, 0, scale], entries)
}

fn impossible(entries: &[[i64; 2]]) -> Vec<i64> {
    padded([3, entries.len() as i64, 0, 0, 0, 0, 0, 0], entries)
}

fn padded(first: [i64; 8], entries: &[[i64; 2]]) -> Vec<i64> {
    let used = entries.iter().flatten().copied();
    first.into_iter().chain(used).chain(std::iter::repeat(0)).take(14).collect()
}

/// The cases that the request names.
fn stored() -> Vec<Stored> {
    let (yes, no) = (|| Said::Answered(true), || Said::Answered(false));
    let out_of_range = || Said::Refused(Refused { number: 17, record: 0 });
    let two = || book_of(1, 1, vec![at_most(1, 2, 8, 1), at_most(3, 1, 9, 2)]);
    let level = || book_of(1, 1, vec![at_most(1, 1, 4, 1), at_most(0, 0, 0, 2)]);
    let clash = || book_of(0, 0, vec![at_most(1, 1, 3, 1), Rule { kind: 2, a: 1, b: 1, c: 4, label: 2 }, at_most(0, 0, -1, 3)]);
    let along = |dx, dy| vec![2, 0, 0, 0, 1, dx, dy, 0, 0, 0, 0, 0, 0, 0];
    let mut spare = two();
    spare[14] = 0;
    let mut foreign = two();
    foreign[2] = 1;
    let open = || book_of(1, 0, vec![at_most(1, -1, 2, 1)]);
    vec![
        ("two entries", two(), best([2, 3, 1], 5, &[[2, 2], [3, 1]]), yes()),
        ("entries in another order", two(), best([2, 3, 1], 5, &[[3, 1], [2, 2]]), yes()),
        ("a pair that is not reduced", two(), best([4, 6, 2], 10, &[[2, 4], [3, 2]]), yes()),
        ("another scale", two(), best([2, 3, 1], 4, &[[2, 2], [3, 1]]), no()),
        ("a pair that is not allowed", two(), best([3, 3, 1], 5, &[[2, 2], [3, 1]]), no()),
        ("an entry that is not tight", two(), best([0, 0, 1], 5, &[[2, 2], [3, 1]]), no()),
        ("an entry twice", level(), best([4, 0, 1], 2, &[[2, 1], [2, 1]]), out_of_range()),
        ("one entry", level(), best([4, 0, 1], 1, &[[2, 1]]), yes()),
        ("0 at most 0 in a best slip", level(), best([4, 0, 1], 1, &[[2, 1], [3, 7]]), yes()),
        ("a weight of 0", level(), best([4, 0, 1], 1, &[[2, 1], [3, 0]]), out_of_range()),
        ("three entries of a best slip", level(), best([4, 0, 1], 1, &[[2, 1], [3, 7], [1, 1]]), out_of_range()),
        ("a spare record", spare, best([2, 3, 1], 5, &[[2, 2], [3, 1]]), out_of_range()),
        ("a record that is not there", two(), best([2, 3, 1], 5, &[[2, 2], [4, 1]]), out_of_range()),
        ("a book of another version", foreign, best([2, 3, 1], 0, &[]), Said::Refused(Refused { number: 2, record: 0 })),
        ("no direction", open(), along(0, 0), no()),
        ("a direction", open(), along(1, 1), yes()),
        ("a direction that leaves a rule", open(), along(1, 0), no()),
        ("a direction below 0", open(), along(-1, 1), out_of_range()),
        ("a direction that gains nothing", open(), along(0, 1), no()),
        ("a conflict", clash(), impossible(&[[2, 1], [3, 1]]), yes()),
        ("a conflict with a spare entry", clash(), impossible(&[[2, 1], [3, 1], [4, 5]]), yes()),
        ("a sum of c of 0", level(), impossible(&[[3, 1]]), no()),
        ("a conflict without entries", clash(), impossible(&[]), out_of_range()),
        ("a fourth outcome", two(), padded([4, 0, 0, 0, 1, 0, 0, 0], &[]), out_of_range()),
        ("thirteen numbers", two(), vec![1; 13], out_of_range()),
    ]
}

fn try_stored() -> Result<u64, String> {
    let cases = stored();
    for (name, book, numbers, right) in &cases {
        compare(name, book, numbers)?;
        let said = check(book, numbers)?;
        if said != *right {
            return Err(format!(
                "mismatch: {name}\nbook    {}\nslip    {numbers:?}\nright   {right:?}\nsaid    {said:?}",
                to_hex(book)
            ));
        }
    }
    Ok(cases.len() as u64)
}

/// Stored books and random ones, one in eight damaged and one in fifty long.
pub fn slips(seed: u64, books: u64) -> Result<u64, String> {
    let mut random = Random::new(seed);
    let mut tried = try_stored()?;
    for (name, book) in short_stored_books(&TWO) {
        tried += try_book(name, &book, 200, &mut random)?;
    }
    for _ in 0..books {
        let most = if random.one_in(50) { 255 } else { 12 };
        let n = random.below(most + 1);
        let (name, source) = source(&TWO, &mut random, n);
        let mut book = source.scattered_as(&TWO, 3, &mut random);
        if random.one_in(8) {
            damage(&TWO, &mut random, &mut book);
        }
        tried += try_book(name, &book, 30, &mut random)?;
    }
    Ok(tried)
}
