//! Writes the printed line.

use crate::book::Chain;
use crate::plane::{gcd, Point};
use crate::walk::{Answer, Outcome, Witness};

struct Line<'a> {
    out: &'a mut [u8],
    length: usize,
}

pub fn refused(number: u8, record: u16, out: &mut [u8]) -> usize {
    let mut line = Line { out, length: 0 };
    line.text(b"refused").number(number.into()).number(record.into());
    line.end()
}

pub fn answer(answer: &Answer, chain: &Chain, out: &mut [u8]) -> usize {
    let mut line = Line { out, length: 0 };
    match &answer.outcome {
        Outcome::Best(v) => line.text(b"best").pair(*v),
        Outcome::Unlimited { start, ray } => line.text(b"unlimited").pair(*start).number(ray.dx).number(ray.dy),
        Outcome::Impossible { place, .. } => line.text(b"impossible").number(*place as i64),
    };
    line.number(answer.moves as i64).number(answer.open as i64);
    if let Outcome::Impossible { witness, .. } = &answer.outcome {
        line.witness(witness, chain);
    }
    line.end()
}

/// For a best pair a line a rule, its label and how far the pair is from it, in lowest terms; nothing for any other outcome.
pub fn panel(answer: &Answer, chain: &Chain, label: impl Fn(usize) -> usize, out: &mut [u8]) -> usize {
    let mut line = Line { out, length: 0 };
    let Outcome::Best(v) = &answer.outcome else {
        return 0;
    };
    for (rule, record) in chain.entries[2..chain.count].iter().zip(&chain.records[2..]) {
        let left = rule.slack(*v);
        let g = gcd(left as u64, v.d as u64) as i64;
        let label = label(usize::from(*record)) as i64;
        line.digits(label).text(b" ").digits(left / g).text(b" ").digits(v.d / g).text(b"\n");
    }
    line.length
}

impl Line<'_> {
    fn text(&mut self, text: &[u8]) -> &mut Self {
        self.out[self.length..self.length + text.len()].copy_from_slice(text);
        self.length += text.len();
        self
    }

    /// x and y, which floors below zero let be negative, and d.
    fn pair(&mut self, v: Point) -> &mut Self {
        self.number(v.x).number(v.y).number(v.d)
    }

    /// A space and a number.
    fn number(&mut self, n: i64) -> &mut Self {
        let mut digits = [b'0'; 20];
        let mut at = 20;
        let mut rest = n.unsigned_abs();
        while rest > 0 || at == 20 {
            at -= 1;
            digits[at] = b'0' + (rest % 10) as u8;
            rest /= 10;
        }
        self.text(if n < 0 { b" -" } else { b" " }).text(&digits[at..])
    }

    /// A number that is not negative, two digits at a time as the planner writes them: a panel is mostly numbers.
    fn digits(&mut self, n: i64) -> &mut Self {
        let mut digits = [b'0'; 20];
        let mut at = 20;
        let mut rest = n as u64;
        while rest >= 10 {
            let two = (rest % 100) as u8;
            rest /= 100;
            at -= 2;
            digits[at] = b'0' + two / 10;
            digits[at + 1] = b'0' + two % 10;
        }
        if rest > 0 || at == 20 {
            at -= 1;
            digits[at] = b'0' + rest as u8;
        }
        self.text(&digits[at..])
    }

    /// Floors first, then records rising.
    fn witness(&mut self, w: &Witness, chain: &Chain) {
        let mut order = [0, 1, 2];
        order.sort_unstable_by_key(|&i| (chain.records[w.entries[i]], w.entries[i]));
        self.number(w.weights.iter().filter(|&&w| w > 0).count() as i64);
        for i in order.into_iter().filter(|&i| w.weights[i] > 0) {
            match w.entries[i] {
                0 => self.text(b" X"),
                1 => self.text(b" Y"),
                k => self.number(chain.records[k].into()),
            };
            self.number(w.weights[i]);
        }
    }

    fn end(&mut self) -> usize {
        self.text(b"\n");
        self.length
    }
}
