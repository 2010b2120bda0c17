//! The right line of a text: its rule, or the number that refuses it.

use crate::items::{items, Item};
use crate::table::side;
use crate::value::{difference, Sum};

const MOST_BYTES: usize = 120;
const MOST_DEPTH: usize = 8;

/// The line that a program must print for a text, without its line feed.
pub fn line(text: &[u8]) -> String {
    match read(text) {
        Ok((kind, [a, b, c])) => format!("rule {kind} {a} {b} {c}"),
        Err(number) => format!("refused {number} 0"),
    }
}

/// Kind, a, b and c.
fn read(text: &[u8]) -> Result<(u8, Sum), u32> {
    if text.len() > MOST_BYTES {
        return Err(13);
    }
    let items = items(text).ok_or(13u32)?;
    let (left, kind, right) = sides(&items).ok_or(13u32)?;
    let (left, right) = (side(left).ok_or(13u32)?, side(right).ok_or(13u32)?);
    if left.depth.max(right.depth) > MOST_DEPTH {
        return Err(13);
    }
    Ok((kind, difference(left.value, right.value)?))
}

/// What stands before and after the first relation. A second one is in no side.
fn sides(items: &[Item]) -> Option<(&[Item], u8, &[Item])> {
    let at = items.iter().position(|item| matches!(item, Item::Relation(_)))?;
    let Item::Relation(kind) = items[at] else { return None };
    Some((&items[..at], kind, &items[at + 1..]))
}

#[cfg(test)]
mod tests {
    use super::*;

    #[test]
    fn a_typed_rule_is_read() {
        assert_eq!(line(b"2*(x + 3*y) - y <= 40 + x"), "rule 1 1 5 40");
        assert_eq!(line(b"x>=-1"), "rule 2 1 0 -1");
    }

    #[test]
    fn equals_go_from_the_left_and_a_minus_binds_tightest() {
        assert_eq!(line(b"1-2-3<=x"), "rule 1 -1 0 4");
        assert_eq!(line(b"-2*x-3*-y<=1"), "rule 1 -2 3 1");
        assert_eq!(line(b"1+2*3<=x"), "rule 1 -1 0 -7");
    }

    #[test]
    fn fourteen_looks_at_values() {
        assert_eq!(line(b"(x-x)*y<=1"), "rule 1 0 0 1");
        assert_eq!(line(b"x*y*0<=1"), "refused 14 0");
        assert_eq!(line(b"1000000001<=x*y"), "refused 15 0");
        assert_eq!(line(b"x*y<=1000000001"), "refused 14 0");
    }

    #[test]
    fn ranges_hold_at_every_number_and_operation() {
        assert_eq!(line(b"0*1000000001<=1"), "refused 15 0");
        assert_eq!(line(b"1000000000+1-1<=x"), "refused 15 0");
        assert_eq!(line(b"1000000000*x-999967233*x<=1"), "rule 1 32767 0 1");
        assert_eq!(line(b"1000000000*x-999967232*x<=1"), "refused 15 0");
        assert_eq!(line(b"x-1000000000<=1"), "refused 15 0");
    }

    #[test]
    fn products_keep_their_range_with_the_constant_on_either_side() {
        assert_eq!(line(b"500000000*(2*x)-1000000000*x<=0"), "rule 1 0 0 0");
        assert_eq!(line(b"142857143*(7*x)-1000000000*x<=0"), "refused 15 0");
        assert_eq!(line(b"(2*y)*500000000-1000000000*y<=0"), "rule 1 0 0 0");
        assert_eq!(line(b"(7*y)*142857143-1000000000*y<=0"), "refused 15 0");
        assert_eq!(line(b"(x+2)*500000000-(500000000*x+1000000000)<=0"), "rule 1 0 0 0");
        assert_eq!(line(b"(x+2)*500000001-(500000001*x+1000000000)<=0"), "refused 15 0");
    }

    #[test]
    fn eight_deep_is_read_and_nine_deep_is_not() {
        assert_eq!(line(b"((((((((x))))))))<=1"), "rule 1 1 0 1");
        assert_eq!(line(b"(((((((((x)))))))))<=1"), "refused 13 0");
        assert_eq!(line(b"1<=(((((((((x)))))))))"), "refused 13 0");
    }

    #[test]
    fn what_is_not_in_the_language_is_13() {
        let texts = ["", "x", "<=", "x<=", "x<=1<=2", "2x<=1", "+x<=1", "()<=1", "x)<=1", "x<=1\n", "1 2<=x"];
        assert!(texts.iter().all(|text| line(text.as_bytes()) == "refused 13 0"));
    }

    #[test]
    fn a_text_has_120_bytes_at_most() {
        assert_eq!(line(format!("{:120}", "x<=1").as_bytes()), "rule 1 1 0 1");
        assert_eq!(line(format!("{:121}", "x<=1").as_bytes()), "refused 13 0");
    }
}
