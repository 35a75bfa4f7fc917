//! Exact fractions, always in lowest terms with a positive denominator.

#![forbid(unsafe_code)]

use std::cmp::Ordering;
use std::ops::{Add, Div, Mul, Sub};

#[derive(Clone, Copy, Debug, PartialEq, Eq)]
pub(crate) struct Fraction {
    top: i128,
    bottom: i128,
}

impl Fraction {
    pub(crate) const ZERO: Fraction = Fraction { top: 0, bottom: 1 };
    pub(crate) const ONE: Fraction = Fraction { top: 1, bottom: 1 };

    pub(crate) fn new(top: i128, bottom: i128) -> Fraction {
        assert!(bottom != 0, "a fraction over nothing");
        let shared = common(top.unsigned_abs(), bottom.unsigned_abs()) as i128;
        let sign = if bottom < 0 { -1 } else { 1 };
        if shared == 1 {
            return Fraction {
                top: sign * top,
                bottom: sign * bottom,
            };
        }
        Fraction {
            top: sign * quotient(top, shared),
            bottom: sign * quotient(bottom, shared),
        }
    }

    pub(crate) fn whole(number: i128) -> Fraction {
        Fraction {
            top: number,
            bottom: 1,
        }
    }

    /// A decimal such as `0.3` or `15`.
    pub(crate) fn decimal(text: &str) -> Fraction {
        let (whole, part) = text.split_once('.').unwrap_or((text, ""));
        let digits: i128 = format!("{whole}{part}").parse().expect("a decimal");
        Fraction::new(digits, 10_i128.pow(part.len() as u32))
    }

    /// The largest whole number not above the fraction.
    pub(crate) fn floor(self) -> i128 {
        self.top.div_euclid(self.bottom)
    }

    /// The fraction as a whole number; it must be one.
    pub(crate) fn exactly(self) -> i128 {
        assert!(
            self.bottom == 1,
            "{}/{} is not whole",
            self.top,
            self.bottom
        );
        self.top
    }
}

/// Division that stays with machine words where it can.
fn quotient(number: i128, by: i128) -> i128 {
    match (i64::try_from(number), i64::try_from(by)) {
        (Ok(n), Ok(d)) if n != i64::MIN => i128::from(n / d),
        _ => number / by,
    }
}

/// The greatest common divisor, at least 1 as long as one of both is not 0.
fn common(mut one: u128, mut two: u128) -> u128 {
    while one > u128::from(u64::MAX) || two > u128::from(u64::MAX) {
        if two == 0 {
            return one;
        }
        (one, two) = (two, one % two);
    }
    u128::from(common_short(one as u64, two as u64))
}

fn common_short(mut one: u64, mut two: u64) -> u64 {
    if one == 0 || two == 0 {
        return one | two;
    }
    let twos = (one | two).trailing_zeros();
    one >>= one.trailing_zeros();
    while two != 0 {
        two >>= two.trailing_zeros();
        if one > two {
            (one, two) = (two, one);
        }
        two -= one;
    }
    one << twos
}

impl Add for Fraction {
    type Output = Fraction;
    fn add(self, other: Fraction) -> Fraction {
        Fraction::new(
            self.top * other.bottom + other.top * self.bottom,
            self.bottom * other.bottom,
        )
    }
}

impl Sub for Fraction {
    type Output = Fraction;
    fn sub(self, other: Fraction) -> Fraction {
        Fraction::new(
            self.top * other.bottom - other.top * self.bottom,
            self.bottom * other.bottom,
        )
    }
}

impl Mul for Fraction {
    type Output = Fraction;
    fn mul(self, other: Fraction) -> Fraction {
        Fraction::new(self.top * other.top, self.bottom * other.bottom)
    }
}

impl Div for Fraction {
    type Output = Fraction;
    fn div(self, other: Fraction) -> Fraction {
        Fraction::new(self.top * other.bottom, self.bottom * other.top)
    }
}

impl PartialOrd for Fraction {
    fn partial_cmp(&self, other: &Fraction) -> Option<Ordering> {
        Some(self.cmp(other))
    }
}

impl Ord for Fraction {
    fn cmp(&self, other: &Fraction) -> Ordering {
        (self.top * other.bottom).cmp(&(other.top * self.bottom))
    }
}

#[cfg(test)]
mod tests {
    use super::Fraction;

    #[test]
    fn sums_and_quotients() {
        let third = Fraction::new(1, 3);
        let half = Fraction::new(-2, -4);
        assert_eq!(third + half, Fraction::new(5, 6));
        assert_eq!(third - half, Fraction::new(-1, 6));
        assert_eq!(third * half, Fraction::new(1, 6));
        assert_eq!(third / half, Fraction::new(2, 3));
        assert!(third < half);
        assert_eq!(Fraction::new(-1, 6).floor(), -1);
        assert_eq!(Fraction::new(13, 6).floor(), 2);
        assert_eq!(Fraction::new(12, 6).exactly(), 2);
        assert_eq!(Fraction::decimal("0.3"), Fraction::new(3, 10));
        assert_eq!(Fraction::decimal("15"), Fraction::whole(15));
        assert_eq!(Fraction::new(0, 7), Fraction::ZERO);
    }

    #[test]
    fn long_ones() {
        let long = Fraction::new(1 << 100, 3 << 90);
        assert_eq!(long, Fraction::new(1024, 3));
        assert_eq!(Fraction::new(0, 1 << 100), Fraction::ZERO);
        assert_eq!(
            Fraction::new(i128::from(i64::MIN), i128::from(i64::MIN)),
            Fraction::ONE
        );
    }
}
