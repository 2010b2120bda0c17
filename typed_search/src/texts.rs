//! Random texts: two sides by the grammar, with numbers at the edges of their ranges, and in half of them one byte put, changed or taken away.

use crate::random::Random;

/// What numbers are chosen from.
const NUMBERS: [u64; 12] = [0, 1, 2, 3, 7, 100, 31_623, 32_767, 32_768, 999_999_999, 1_000_000_000, 1_000_000_001];
/// What a damaged byte is mostly chosen from.
const BYTES: &[u8] = b"xy0123456789()+-*<>= \0a";
/// Texts beyond 120 bytes are refused before anything else is looked at; far longer ones would only cost time.
const MOST_BYTES: usize = 400;

/// One text. It has no line feed.
pub fn text(random: &mut Random) -> Vec<u8> {
    let mut text = lawful(random);
    if random.one_in(2) {
        damage(random, &mut text);
    }
    text
}

/// A text of the grammar, but for its length, its depth and the length of its numbers. One in 16 nests about as deep as it may, and one in 16 is about as
/// long.
fn lawful(random: &mut Random) -> Vec<u8> {
    match random.below(16) {
        0 => deep(random),
        1 => long(random),
        _ => short(random, MOST_BYTES),
    }
}

/// One side in 6 to 10 parentheses.
fn deep(random: &mut Random) -> Vec<u8> {
    let depth = 6 + random.below(5);
    let depths = random.pick(&[[depth, 0], [0, depth]]);
    rule(random, 0, depths)
}

/// As far as 118 to 122 bytes with spaces and terms after the right side.
fn long(random: &mut Random) -> Vec<u8> {
    let bytes = 118 + random.below(5);
    let mut text = short(random, bytes);
    while text.len() < bytes {
        let kinds = if text.len() + 1 == bytes { 1 } else { 3 };
        text.extend([&b" "[..], b"+x", b"-3"][random.below(kinds)]);
    }
    text
}

/// At most so many bytes.
fn short(random: &mut Random, most: usize) -> Vec<u8> {
    loop {
        let fuel = random.below(12);
        let text = rule(random, fuel, [0, 0]);
        if text.len() <= most {
            return text;
        }
    }
}

/// Two sides, each in so many parentheses.
fn rule(random: &mut Random, fuel: usize, depths: [usize; 2]) -> Vec<u8> {
    let mut out = Vec::new();
    group(random, fuel, depths[0], &mut out);
    spaces(random, &mut out);
    out.extend(random.pick(&[b"<=", b">="]));
    group(random, fuel, depths[1], &mut out);
    spaces(random, &mut out);
    out
}

/// A side in so many parentheses.
fn group(random: &mut Random, fuel: usize, depth: usize, out: &mut Vec<u8>) {
    if depth == 0 {
        return side(random, fuel, out);
    }
    spaces(random, out);
    out.push(b'(');
    group(random, fuel, depth - 1, out);
    spaces(random, out);
    out.push(b')');
}

fn side(random: &mut Random, fuel: usize, out: &mut Vec<u8>) {
    factor(random, fuel, out);
    while random.below(5) < 2 {
        spaces(random, out);
        out.push(random.pick(b"+-*"));
        factor(random, fuel, out);
    }
}

/// Without fuel a factor holds no other.
fn factor(random: &mut Random, fuel: usize, out: &mut Vec<u8>) {
    spaces(random, out);
    match random.below(if fuel == 0 { 8 } else { 12 }) {
        0..=1 => out.push(b'x'),
        2..=3 => out.push(b'y'),
        4..=7 => number(random, out),
        8..=9 => {
            out.push(b'-');
            factor(random, fuel - 1, out);
        }
        _ => group(random, fuel - 1, 1, out),
    }
}

/// Leading zeros now and then, and eleven digits in few.
fn number(random: &mut Random, out: &mut Vec<u8>) {
    let width = match random.below(64) {
        0 => 11,
        1..=2 => 10,
        3..=12 => 3,
        _ => 1,
    };
    out.extend(format!("{:0width$}", random.pick(&NUMBERS)).bytes());
}

fn spaces(random: &mut Random, out: &mut Vec<u8>) {
    while random.one_in(6) {
        out.push(b' ');
    }
}

/// One byte changed, put before a byte or after the last, or taken away.
fn damage(random: &mut Random, text: &mut Vec<u8>) {
    let (at, byte) = (random.below(text.len()), byte(random));
    match random.below(3) {
        0 if text[at] != byte => text[at] = byte,
        0..=1 => text.insert(random.below(text.len() + 1), byte),
        _ => {
            text.remove(at);
        }
    }
}

/// In one damage of four any byte but the line feed, which would end the text.
fn byte(random: &mut Random) -> u8 {
    if random.one_in(4) {
        // from 11 on, past 255 from 0 to 9
        return (11 + random.below(255)) as u8;
    }
    random.pick(BYTES)
}

#[cfg(test)]
mod tests {
    use super::*;
    use crate::reading::line;

    const LIMITS: [usize; 3] = [8, 10, 120];

    /// How deep a text nests, the digits of its longest number, and its bytes.
    fn measures(text: &[u8]) -> [usize; 3] {
        let (mut depth, mut deepest) = (0, 0);
        for byte in text {
            depth += usize::from(*byte == b'(');
            deepest = deepest.max(depth);
            depth -= usize::from(*byte == b')');
        }
        let digits = text.split(|byte| !byte.is_ascii_digit()).map(<[u8]>::len).max();
        [deepest, digits.unwrap_or(0), text.len()]
    }

    fn within(measures: [usize; 3], limits: [usize; 3]) -> bool {
        (0..3).all(|i| measures[i] <= limits[i])
    }

    fn some_thousands() -> Vec<Vec<u8>> {
        let mut random = Random::new(1);
        (0..4_000).map(|_| lawful(&mut random)).collect()
    }

    #[test]
    fn an_undamaged_text_is_refused_13_for_its_limits_alone() {
        for text in some_thousands() {
            assert_eq!(line(&text) != "refused 13 0", within(measures(&text), LIMITS), "{}", text.escape_ascii());
        }
    }

    #[test]
    fn texts_stand_at_each_limit_and_beyond_it_alone() {
        let all: Vec<_> = some_thousands().iter().map(|text| measures(text)).collect();
        for i in 0..3 {
            let mut beyond = LIMITS;
            beyond[i] += 1;
            let count = |measure, limits| all.iter().filter(|m| m[i] == measure && within(**m, limits)).count();
            assert!(count(LIMITS[i], LIMITS) >= 10, "limit {i}");
            assert!(count(beyond[i], beyond) >= 10, "beyond limit {i}");
        }
    }

    #[test]
    fn damage_is_of_one_byte_anywhere_and_of_any_kind() {
        let mut random = Random::new(1);
        let mut seen = [false; 256];
        for _ in 0..200_000 {
            let mut text = b"x<=y".to_vec();
            damage(&mut random, &mut text);
            assert!(text != b"x<=y" && text.len().abs_diff(4) <= 1);
            if let [b'x', b'<', b'=', b'y', last] = text[..] {
                seen[usize::from(last)] = true;
            }
        }
        assert!((0..=255).all(|byte| seen[usize::from(byte)] == (byte != b'\n')));
    }
}
