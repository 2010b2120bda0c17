//! What an expression is worth: coefficients of x and y and a constant in 128 bits, or the number of its refusal, by the order that request 103 gives.

/// The coefficients of x and y, and the constant.
pub type Sum = [i128; 3];

/// 14 or 15 where there is no value.
pub type Value = Result<Sum, u32>;

const MOST: i128 = 1_000_000_000;
const MOST_COEFFICIENT: i128 = 32_767;

/// 15 where a coefficient or the constant is out of range.
pub fn checked(sum: Sum) -> Value {
    if sum.iter().any(|n| n.abs() > MOST) {
        Err(15)
    } else {
        Ok(sum)
    }
}

/// The range is the same both ways, so that a minus needs no test.
pub fn negated(value: Value) -> Value {
    value.map(|sum| sum.map(|n| -n))
}

/// The left operand's refusal comes first, then the right one's, then the operation's own.
pub fn joined(left: Value, operator: u8, right: Value) -> Value {
    let (left, right) = (left?, right?);
    match operator {
        b'+' => checked([0, 1, 2].map(|i| left[i] + right[i])),
        b'-' => checked([0, 1, 2].map(|i| left[i] - right[i])),
        _ => product(left, right),
    }
}

fn product(left: Sum, right: Sum) -> Value {
    let constant = |sum: Sum| sum[0] == 0 && sum[1] == 0;
    if constant(left) {
        checked(right.map(|n| left[2] * n))
    } else if constant(right) {
        checked(left.map(|n| right[2] * n))
    } else {
        Err(14)
    }
}

/// a and b of a rule are the left coefficients less the right, c the right constant less the left.
pub fn difference(left: Value, right: Value) -> Value {
    let (left, right) = (left?, right?);
    let rule = [left[0] - right[0], left[1] - right[1], right[2] - left[2]];
    if rule[0].abs() > MOST_COEFFICIENT || rule[1].abs() > MOST_COEFFICIENT {
        return Err(15);
    }
    checked(rule)
}
