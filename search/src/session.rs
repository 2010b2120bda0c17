//! Sessions: random scripts of steps through the session program, each answer judged. The state is kept here as a list of rules, and what
//! the answer must be is searched anew after every step.

use crate::book::Rule;
use crate::exact::{floors, Line, Terms};
use crate::families::source;
use crate::judge::{expected_of, turned_back, Expected, Named};
use crate::layout::TWO;
use crate::prefixes::Way;
use crate::program::streams;
use crate::random::Random;

const MOST: usize = 64;

/// Lines that are no step: another word, a number too few or too many, one beyond its range, and a space too many.
const NO_STEPS: [&str; 9] = [
    "backwards",
    "start 1 1 0",
    "start 1 1 0 0 0",
    "start 1 1 32768 0",
    "start 1 -32769 0 0",
    "rule 256 1 1 1 7",
    "rule 1 1 1 2147483648 7",
    "rule 1 1 1  1 7",
    "add 65536 x <= 1",
];

/// A step, as a line of the program says it.
#[derive(Clone, Copy, Debug)]
enum Step {
    Start(i16, i16, i16, i16),
    Add(Rule),
    Typed(Rule),
    Back,
    Other(&'static str),
}

impl Step {
    fn line(&self) -> String {
        match *self {
            Step::Start(p, q, lx, ly) => format!("start {p} {q} {lx} {ly}\n"),
            Step::Add(r) => format!("rule {} {} {} {} {}\n", r.kind, r.a, r.b, r.c, r.label),
            Step::Typed(r) => {
                format!("add {} {}*x + {}*y {} {}\n", r.label, r.a, r.b, if r.kind == 1 { "<=" } else { ">=" }, r.c)
            }
            Step::Back => "back\n".into(),
            Step::Other(line) => format!("{line}\n"),
        }
    }
}

/// What a session holds.
struct State {
    objective: (i16, i16),
    floors: (i16, i16),
    rules: Vec<Rule>,
}

const EMPTY: State = State { objective: (0, 0), floors: (0, 0), rules: Vec::new() };

impl State {
    /// Takes a step and says what its line must be.
    fn step(&mut self, step: Step) -> Expected {
        let refused = |number, record| turned_back(format!("refused {number} {record}"));
        match step {
            Step::Start(p, q, _, _) if p == i16::MIN || q == i16::MIN => {
                *self = EMPTY;
                return refused(4, 0);
            }
            Step::Start(p, q, lx, ly) => *self = State { objective: (p, q), floors: (lx, ly), rules: Vec::new() },
            Step::Add(_) | Step::Typed(_) if self.rules.len() == MOST => return refused(18, 0),
            Step::Add(r) | Step::Typed(r) => match self.cause(&r) {
                Some(number) => return refused(number, self.rules.len() + 1),
                None => self.rules.push(r),
            },
            Step::Back if self.rules.is_empty() => return refused(19, 0),
            Step::Back => drop(self.rules.pop()),
            Step::Other(_) => return turned_back("no step: start P Q LX LY, add LABEL RULE, rule KIND A B C LABEL, or back".into()),
        }
        self.answer()
    }

    fn cause(&self, r: &Rule) -> Option<u32> {
        match r {
            _ if ![1, 2].contains(&r.kind) => Some(8),
            _ if r.a == i16::MIN || r.b == i16::MIN => Some(9),
            _ if !(-1_000_000_000..=1_000_000_000).contains(&r.c) => Some(10),
            _ if self.rules.iter().any(|held| held.label == r.label) => Some(12),
            _ => None,
        }
    }

    fn answer(&self) -> Expected {
        let (p, q) = self.objective;
        let (lx, ly) = self.floors;
        let terms = Terms { p: p.into(), q: q.into(), floors: floors(lx.into(), ly.into()) };
        let named = |(i, r): (usize, &Rule)| {
            let (a, b, c) = (i128::from(r.a), i128::from(r.b), i128::from(r.c));
            let line = if r.kind == 1 { Line { a, b, c } } else { Line { a: -a, b: -b, c: -c } };
            Named { name: (i + 1).to_string(), rank: i + 2, line }
        };
        expected_of(&terms, self.rules.iter().enumerate().map(named).collect(), Way::OnePass)
    }
}

/// A random rule, now and then one that is turned back.
fn rule(random: &mut Random, pool: &[Rule]) -> Rule {
    let mut r = random.pick(pool);
    r.label = random.below(90) as u16;
    match random.below(30) {
        0 => r.kind = random.pick(&[0, 3, 255]),
        1 => r.a = i16::MIN,
        2 => r.b = i16::MIN,
        3 => r.c = random.pick(&[1_000_000_001, -1_000_000_001, i32::MAX, i32::MIN]),
        _ => (),
    }
    r
}

/// So many random steps: to 64 rules and beyond, down to none and beyond, and up again.
fn script(random: &mut Random, steps: usize) -> Vec<Step> {
    let (_, start) = source(&TWO, random, 12);
    let pool = if start.rules.is_empty() { vec![Rule { kind: 1, a: 1, b: 1, c: 9, label: 0 }] } else { start.rules.clone() };
    let mut up = true;
    let mut step = |i: usize| match random.below(40) {
        _ if i == 0 => Step::Start(start.p, start.q, start.lx, start.ly),
        0 if random.one_in(8) => Step::Start(random.pick(&[1, i16::MIN]), 1, random.between(-9, 9) as i16, 0),
        1 => Step::Other(random.pick(&NO_STEPS)),
        2 => {
            up = !up;
            Step::Back
        }
        3..=7 if up => Step::Back,
        n if up || n < 9 => {
            let r = rule(random, &pool);
            let lawful = [1, 2].contains(&r.kind) && r.a != i16::MIN && r.b != i16::MIN && r.c.unsigned_abs() <= 1_000_000_000;
            if lawful && random.one_in(3) {
                Step::Typed(r)
            } else {
                Step::Add(r)
            }
        }
        _ => Step::Back,
    };
    (0..steps).map(&mut step).collect()
}

/// Filled to 64 rules and one more, emptied and one more, and filled again.
fn filled() -> Vec<Step> {
    let add = |i: u16| Step::Add(Rule { kind: 1 + (i % 2) as u8, a: 1, b: i as i16, c: 40 * i as i32, label: i });
    let fill = || (0..=MOST as u16).map(add);
    fill().chain((0..=MOST).map(|_| Step::Back)).chain(fill()).collect()
}

/// Random scripts through the program: a line for every step, each judged. Hands back how many steps there were.
pub fn program(path: &str, seed: u64, scripts: u64, steps: usize) -> Result<u64, String> {
    let mut random = Random::new(seed);
    let mut tried = 0;
    for i in 0..=scripts {
        let script = if i == 0 { filled() } else { script(&mut random, steps) };
        tried += script.len() as u64;
        let input: String = script.iter().map(Step::line).collect();
        let (out, error) = streams(path, input.as_bytes(), random.below(input.len() + 1))?;
        let lines: Vec<&[u8]> = out.split_inclusive(|b| *b == b'\n').collect();
        if !error.is_empty() || lines.len() != script.len() {
            return Err(format!("{} lines for {} steps, {}", lines.len(), script.len(), String::from_utf8_lossy(&error)));
        }
        let mut state = EMPTY;
        for (i, (step, line)) in script.iter().zip(lines).enumerate() {
            let right = state.step(*step);
            right.judge(line).map_err(|e| {
                let before: String = script[..=i].iter().map(Step::line).collect();
                format!("{e}: {}; right is {}\n{before}", String::from_utf8_lossy(line).trim_end(), right.shown())
            })?;
        }
    }
    Ok(tried)
}
