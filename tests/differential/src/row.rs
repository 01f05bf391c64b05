//! One row for a window from the bottom up.

use crate::big::Big;

/// All windows: the odd numbers from 1 to 31.
pub fn windows() -> impl Iterator<Item = u8> + Clone {
    (1..=31).step_by(2)
}

/// The scalar's row for window m, place 0 first, by the same rule for either sign.
pub fn recode(scalar: Big, m: u8) -> Vec<i8> {
    let width = width(m);
    let mut digits = Vec::new();
    let mut c = scalar;
    while !c.is_zero() {
        let digit = if c.is_odd() { odd_digit(c, m, width) } else { 0 };
        digits.push(digit);
        c = c.after(digit);
    }
    digits
}

/// W: the smallest number with m < 2^(W−1).
pub fn width(m: u8) -> u32 {
    (1..).find(|w| u32::from(m) < 1 << (w - 1)).expect("a width for every window")
}

fn odd_digit(c: Big, m: u8, width: u32) -> i8 {
    let m = i64::from(m);
    let wide = residue(c, width);
    let r = if wide.abs() > m { residue(c, width - 1) } else { wide };
    r as i8
}

/// The odd r with −2^(w−1) < r < 2^(w−1) and c − r divisible by 2^w.
fn residue(c: Big, w: u32) -> i64 {
    let remainder = c.remainder(w);
    if remainder < 1 << (w - 1) {
        remainder
    } else {
        remainder - (1 << w)
    }
}

/// The number of non-zero digits.
pub fn weight(digits: &[i8]) -> usize {
    digits.iter().filter(|&&digit| digit != 0).count()
}

/// The sum of digit × 2^place.
pub fn value(digits: &[i8]) -> Big {
    let add_below = |high: Big, &digit: &i8| high.doubled().plus(i64::from(digit));
    digits.iter().rev().fold(Big::ZERO, add_below)
}

#[cfg(test)]
mod tests {
    use super::*;
    use crate::limits::Limits;
    use crate::random::Random;
    use crate::scalars;

    fn is_digit(digit: i8, m: u8) -> bool {
        digit == 0 || (digit % 2 != 0 && digit.unsigned_abs() <= m)
    }

    #[test]
    fn rows_have_the_value_the_digits_and_the_length() {
        let mut random = Random::new(1);
        for _ in 0..300 {
            let scalar = scalars::random(&mut random, Limits::Gateway).value();
            for m in windows() {
                let digits = recode(scalar, m);
                assert_eq!(value(&digits), scalar);
                assert!(digits.iter().all(|&digit| is_digit(digit, m)));
                assert!(digits.len() <= scalar.bit_length() + 1);
                assert_ne!(digits.last(), Some(&0));
            }
        }
    }

    #[test]
    fn the_row_of_a_negated_number_is_the_row_negated() {
        let mut random = Random::new(4);
        let small = (0..2000).map(Big::from);
        let long: Vec<Big> =
            (0..100).map(|_| scalars::random(&mut random, Limits::Gateway).value()).collect();
        for number in small.chain(long) {
            for m in windows() {
                let negated: Vec<i8> = recode(number, m).iter().map(|digit| -digit).collect();
                assert_eq!(recode(number.negated(), m), negated);
            }
        }
    }

    #[test]
    fn window_one_is_non_adjacent() {
        let mut random = Random::new(2);
        for _ in 0..300 {
            let digits = recode(scalars::random(&mut random, Limits::Gateway).value(), 1);
            assert!(digits.windows(2).all(|two| two[0] == 0 || two[1] == 0));
        }
    }

    #[test]
    fn full_windows_have_one_digit_in_width_places() {
        let mut random = Random::new(3);
        for _ in 0..300 {
            let scalar = scalars::random(&mut random, Limits::Gateway).value();
            for w in 2..=6 {
                let digits = recode(scalar, ((1u32 << (w - 1)) - 1) as u8);
                assert!(digits.windows(w).all(|places| weight(places) <= 1));
            }
        }
    }
}
