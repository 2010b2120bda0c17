//! A text cut into items. Spaces stand between items and are none themselves.

#[derive(Clone, Copy, Debug, PartialEq)]
pub enum Item {
    Number(i128),
    /// A letter, a parenthesis or an operator.
    Byte(u8),
    /// `<=` is kind 1, `>=` kind 2.
    Relation(u8),
}

const MOST_DIGITS: usize = 10;

/// The items of a text, or none where some byte belongs to no item.
pub fn items(text: &[u8]) -> Option<Vec<Item>> {
    let mut found = Vec::new();
    let mut rest = text;
    while !rest.is_empty() {
        let (item, length) = first(rest)?;
        found.extend(item);
        rest = &rest[length..];
    }
    Some(found)
}

/// What the text begins with, and how many bytes that takes.
fn first(text: &[u8]) -> Option<(Option<Item>, usize)> {
    match *text {
        [b' ', ..] => Some((None, 1)),
        [b'<', b'=', ..] => Some((Some(Item::Relation(1)), 2)),
        [b'>', b'=', ..] => Some((Some(Item::Relation(2)), 2)),
        [b'0'..=b'9', ..] => number(text),
        [byte @ (b'x' | b'y' | b'(' | b')' | b'+' | b'-' | b'*'), ..] => Some((Some(Item::Byte(byte)), 1)),
        _ => None,
    }
}

/// All digits that follow each other are one number.
fn number(text: &[u8]) -> Option<(Option<Item>, usize)> {
    let digits = text.iter().take_while(|byte| byte.is_ascii_digit());
    let length = digits.clone().count();
    let value = digits.take(MOST_DIGITS).fold(0, |n, digit| 10 * n + i128::from(digit - b'0'));
    (length <= MOST_DIGITS).then_some((Some(Item::Number(value)), length))
}

#[cfg(test)]
mod tests {
    use super::*;

    #[test]
    fn spaces_part_numbers_and_nothing_else() {
        assert_eq!(items(b" 1 02x"), Some(vec![Item::Number(1), Item::Number(2), Item::Byte(b'x')]));
        assert_eq!(items(b"x< =1"), None);
        assert_eq!(items(b"x\t"), None);
    }

    #[test]
    fn ten_digits_are_a_number_and_eleven_none() {
        assert_eq!(items(b"9999999999"), Some(vec![Item::Number(9_999_999_999)]));
        assert_eq!(items(b"00000000001"), None);
    }
}
