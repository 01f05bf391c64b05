//! One row for a window from the top down: algorithm 13 of source document 000, line by line, on the
//! scalar's size.

use crate::big::Big;
use crate::row::width;

/// The scalar's row for window m, place 0 first; with a minus each digit is negated.
pub fn recode(scalar: Big, m: u8) -> Vec<i8> {
    let digits = printed(Bits(scalar.size()), m);
    let with_sign = |digit: i64| if scalar.is_negative() { -digit } else { digit };
    digits.into_iter().map(|digit| with_sign(digit) as i8).collect()
}

/// The printed lines. Lines 2 and 20 to 22 keep l, the highest place that is set; here the zeros
/// above it are taken off at the end, which leaves no digit for zero.
fn printed(u: Bits, m: u8) -> Vec<i64> {
    let mut b = vec![0; u.0.bit_length() + 2];
    let mut i = u.0.bit_length() as i64 + 1;
    while i >= 0 {
        if u.at(i) == u.at(i - 1) {
            i -= 1;
        } else {
            let mut w = i64::from(width(m));
            let mut d = u.window(i, w);
            if d % 2 != 0 && d.abs() > i64::from(m) {
                w -= 1;
                d = u.window(i, w);
            }
            let next_i = i - w;
            i = next_i + 1;
            while d % 2 == 0 {
                i += 1;
                d /= 2;
            }
            b[i as usize] = d;
            i = next_i;
        }
    }
    while b.last() == Some(&0) {
        b.pop();
    }
    b
}

/// The bits of a number that is not below zero.
struct Bits(Big);

impl Bits {
    /// The bit at a place, 0 below place 0.
    fn at(&self, i: i64) -> i64 {
        usize::try_from(i).map_or(0, |place| i64::from(self.0.bit(place)))
    }

    /// Lines 8 and 11: the w bits from place i down, the top one with a minus, as a number, and the
    /// bit below them.
    fn window(&self, i: i64, w: i64) -> i64 {
        let below_top = (i - w + 1..i).rev().fold(0, |high, place| 2 * high + self.at(place));
        below_top - (self.at(i) << (w - 1)) + self.at(i - w)
    }
}

#[cfg(test)]
mod tests {
    use super::*;
    use crate::limits::Limits;
    use crate::random::Random;
    use crate::row::{self, value, weight, windows};
    use crate::scalars;

    /// The value, the digits, the top and the length of a row, and the weight of the row from the
    /// bottom up; and that of the negated number.
    fn is_a_row(number: Big, m: u8) {
        let digits = recode(number, m);
        let is_digit = |digit: &i8| *digit == 0 || digit % 2 != 0 && digit.unsigned_abs() <= m;
        assert_eq!(value(&digits), number);
        assert!(digits.iter().all(is_digit));
        assert_ne!(digits.last(), Some(&0));
        assert!(digits.len() <= number.bit_length() + 1);
        assert_eq!(weight(&digits), weight(&row::recode(number, m)));
        let negated: Vec<i8> = digits.iter().map(|digit| -digit).collect();
        assert_eq!(recode(number.negated(), m), negated);
    }

    #[test]
    fn the_printed_example() {
        let digits = [1, 0, 0, 0, 0, -5, 0, 0, 0, 0, 0, 1, 5];
        assert_eq!(recode(Big::from(22_369), 5), digits);
    }

    #[test]
    fn eleven_differs_from_its_row_from_the_bottom_up() {
        assert_eq!(recode(Big::from(11), 1), [-1, 0, 1, 1]);
        assert_eq!(row::recode(Big::from(11), 1), [-1, 0, -1, 0, 1]);
    }

    #[test]
    fn zero_has_the_empty_row() {
        assert!(windows().all(|m| recode(Big::ZERO, m).is_empty()));
    }

    #[test]
    fn all_small_numbers() {
        for number in 0..4096 {
            windows().for_each(|m| is_a_row(Big::from(number), m));
        }
    }

    #[test]
    fn long_numbers() {
        let mut random = Random::new(21);
        let mut numbers = scalars::longest(Limits::Gateway);
        numbers.extend((0..300).map(|_| scalars::random(&mut random, Limits::Gateway).bytes));
        for number in numbers {
            windows().for_each(|m| is_a_row(Big::from_bytes(&number), m));
        }
    }
}
