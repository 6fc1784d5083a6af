//! Reduced fractions of 128 bits with checked steps, as one writes them without proofs.

#[derive(Clone, Copy)]
pub struct Frac {
    pub num: i128,
    pub den: i128,
}

fn gcd(mut left: u128, mut right: u128) -> u128 {
    while right != 0 {
        (left, right) = (right, left % right);
    }
    left
}

pub fn new(num: i128, den: i128) -> Option<Frac> {
    if den == 0 {
        return None;
    }
    let common = gcd(num.unsigned_abs(), den.unsigned_abs());
    let top = i128::try_from(num.unsigned_abs() / common).ok()?;
    let bottom = i128::try_from(den.unsigned_abs() / common).ok()?;
    let num = if (num < 0) == (den < 0) { top } else { -top };
    Some(Frac { num, den: bottom })
}

pub fn plus(left: Frac, right: Frac) -> Option<Frac> {
    let common = gcd(left.den as u128, right.den as u128) as i128;
    let first = left.num.checked_mul(right.den / common)?;
    let second = right.num.checked_mul(left.den / common)?;
    let den = left.den.checked_mul(right.den / common)?;
    new(first.checked_add(second)?, den)
}

pub fn minus(left: Frac, right: Frac) -> Option<Frac> {
    plus(left, Frac { num: -right.num, ..right })
}

pub fn times(left: Frac, right: Frac) -> Option<Frac> {
    let first = gcd(left.num.unsigned_abs(), right.den as u128) as i128;
    let second = gcd(right.num.unsigned_abs(), left.den as u128) as i128;
    let num = (left.num / first).checked_mul(right.num / second)?;
    let den = (left.den / second).checked_mul(right.den / first)?;
    (num != i128::MIN).then_some(Frac { num, den })
}

/// The quotient; one by 0 counts as its dividend.
pub fn over(left: Frac, right: Frac) -> Option<Frac> {
    match right.num {
        0 => Some(left),
        num if num < 0 => times(left, Frac { num: -right.den, den: -num }),
        num => times(left, Frac { num: right.den, den: num }),
    }
}
