//! Signed whole numbers of 1,152 bits in two's complement: room for every scalar (1,024 bits), every
//! remainder of a recoding, and every accumulator that 1,024 doublings can reach.

use std::cmp::Ordering;
use std::fmt;

const WORDS: usize = 18;

/// A number; the least significant word is first.
#[derive(Clone, Copy, PartialEq, Eq)]
pub struct Big([u64; WORDS]);

impl Big {
    pub const ZERO: Big = Big([0; WORDS]);

    /// The number in unsigned bytes, most significant first.
    pub fn from_bytes(bytes: &[u8]) -> Big {
        let mut words = [0; WORDS];
        for (place, &byte) in bytes.iter().rev().enumerate() {
            words[place / 8] |= u64::from(byte) << (place % 8 * 8);
        }
        Big(words)
    }

    /// The number in hexadecimal figures, which the caller has found well spelled.
    pub fn from_hex(figures: &[u8]) -> Big {
        let mut words = [0; WORDS];
        for (place, &figure) in figures.iter().rev().enumerate() {
            let value = char::from(figure).to_digit(16).expect("a hexadecimal figure");
            words[place / 16] |= u64::from(value) << (place % 16 * 4);
        }
        Big(words)
    }

    /// A number not below zero in so many bytes, most significant first.
    pub fn to_bytes(self, count: usize) -> Vec<u8> {
        let byte = |place: usize| (self.0[place / 8] >> (place % 8 * 8)) as u8;
        (0..count).rev().map(byte).collect()
    }

    /// Lower-case hexadecimal figures with no leading zero, behind a minus if the number is below
    /// zero.
    pub fn to_hex(self) -> String {
        let all: String = self.size().0.iter().rev().map(|word| format!("{word:016x}")).collect();
        let figures = match all.trim_start_matches('0') {
            "" => "0",
            figures => figures,
        };
        let minus = if self.is_negative() { "-" } else { "" };
        format!("{minus}{figures}")
    }

    pub fn is_zero(self) -> bool {
        self == Big::ZERO
    }

    pub fn is_negative(self) -> bool {
        self.0[WORDS - 1] >> 63 == 1
    }

    /// The number without its sign.
    #[must_use]
    pub fn size(self) -> Big {
        if self.is_negative() {
            self.negated()
        } else {
            self
        }
    }

    pub fn is_odd(self) -> bool {
        self.0[0] & 1 == 1
    }

    /// The remainder by 2^count, count below 63.
    pub fn remainder(self, count: u32) -> i64 {
        (self.0[0] & ((1 << count) - 1)) as i64
    }

    /// The bit at a place.
    pub fn bit(self, place: usize) -> bool {
        self.0[place / 64] >> (place % 64) & 1 == 1
    }

    /// The place of the size's top one bit plus 1, and 0 for zero.
    pub fn bit_length(self) -> usize {
        let Big(words) = self.size();
        let top = words.iter().rposition(|&word| word != 0);
        top.map_or(0, |i| 64 * i + 64 - words[i].leading_zeros() as usize)
    }

    /// The number itself where it lies within −bound to bound.
    pub fn within(self, bound: i64) -> Option<i64> {
        let low = self.0[0] as i64;
        (Big::from(low) == self && -bound <= low && low <= bound).then_some(low)
    }

    #[must_use]
    pub fn plus(self, small: i64) -> Big {
        self.plus_at(small, 0)
    }

    /// This number and small × 2^(64 × at). Above its word a negative one is all ones, which with a
    /// carry change nothing, and without one take 1 off.
    #[must_use]
    pub fn plus_at(self, small: i64, at: usize) -> Big {
        let Big(mut words) = self;
        let negative = small < 0;
        let (sum, mut carry) = words[at].overflowing_add(small as u64);
        words[at] = sum;
        for word in &mut words[at + 1..] {
            if carry == negative {
                break;
            }
            let (sum, over) =
                if negative { word.overflowing_sub(1) } else { word.overflowing_add(1) };
            (*word, carry) = (sum, over != negative);
        }
        Big(words)
    }

    #[must_use]
    pub fn sum(self, other: Big) -> Big {
        let mut words = self.0;
        let mut carry = false;
        for (word, other) in words.iter_mut().zip(other.0) {
            let (sum, first) = word.overflowing_add(other);
            let (sum, second) = sum.overflowing_add(u64::from(carry));
            *word = sum;
            carry = first || second;
        }
        Big(words)
    }

    #[must_use]
    pub fn negated(self) -> Big {
        Big(self.0.map(|word| !word)).plus(1)
    }

    #[must_use]
    pub fn doubled(self) -> Big {
        let mut words = self.0;
        for i in (1..WORDS).rev() {
            words[i] = words[i] << 1 | words[i - 1] >> 63;
        }
        words[0] <<= 1;
        Big(words)
    }

    /// Half of an even number.
    #[must_use]
    pub fn halved(self) -> Big {
        debug_assert!(!self.is_odd());
        let mut words = self.0;
        for i in 0..WORDS - 1 {
            words[i] = words[i] >> 1 | words[i + 1] << 63;
        }
        words[WORDS - 1] = (words[WORDS - 1] as i64 >> 1) as u64;
        Big(words)
    }

    /// What a recoding keeps of this remainder once its lowest place has taken the digit.
    #[must_use]
    pub fn after(self, digit: i8) -> Big {
        self.plus(-i64::from(digit)).halved()
    }
}

impl From<i64> for Big {
    fn from(small: i64) -> Big {
        let mut words = [(small >> 63) as u64; WORDS];
        words[0] = small as u64;
        Big(words)
    }
}

/// The top words as signed numbers, then the others from the top down.
impl Ord for Big {
    fn cmp(&self, other: &Big) -> Ordering {
        let top = |number: &Big| number.0[WORDS - 1] as i64;
        top(self).cmp(&top(other)).then_with(|| self.0.iter().rev().cmp(other.0.iter().rev()))
    }
}

impl PartialOrd for Big {
    fn partial_cmp(&self, other: &Big) -> Option<Ordering> {
        Some(self.cmp(other))
    }
}

/// As on a sheet.
impl fmt::Debug for Big {
    fn fmt(&self, out: &mut fmt::Formatter) -> fmt::Result {
        out.write_str(&self.to_hex())
    }
}

#[cfg(test)]
mod tests {
    use super::*;

    #[test]
    fn bytes_and_figures_agree() {
        let bytes = [0, 0x12, 0x34, 0x56, 0x78, 0x9a, 0xbc, 0xde, 0xf0, 0x0f];
        assert_eq!(Big::from_bytes(&bytes).to_hex(), "123456789abcdef00f");
        assert_eq!(Big::from_hex(b"123456789abcdef00f"), Big::from_bytes(&bytes));
        assert_eq!(Big::ZERO.to_hex(), "0");
        assert_eq!(Big::from_bytes(&[255; 66]).to_hex(), "f".repeat(132));
        assert_eq!(Big::from_bytes(&[255; 128]).to_hex(), "f".repeat(256));
    }

    #[test]
    fn bytes_come_back_with_zeros_in_front() {
        let bytes = [0x12, 0x34, 0x56, 0x78, 0x9a, 0xbc, 0xde, 0xf0, 0x0f];
        assert_eq!(Big::from_bytes(&bytes).to_bytes(9), bytes);
        assert_eq!(Big::from_bytes(&bytes).to_bytes(66), [&[0; 57][..], &bytes].concat());
        assert_eq!(Big::ZERO.to_bytes(2), [0, 0]);
    }

    #[test]
    fn numbers_in_order() {
        let top = Big::from_bytes(&[255; 128]);
        let small = [-65, -1, 0, 1, 64].map(Big::from);
        let mut numbers = vec![top.plus(1).negated(), top.negated()];
        numbers.extend(small);
        numbers.extend([Big::ZERO.plus_at(1, 3), Big::ZERO.plus_at(1, 3).plus(1), top]);
        for (at, number) in numbers.iter().enumerate() {
            for (other_at, other) in numbers.iter().enumerate() {
                assert_eq!(number.cmp(other), at.cmp(&other_at));
            }
        }
    }

    #[test]
    fn figures_of_a_negative_number_stand_behind_a_minus() {
        assert_eq!(Big::from(-1).to_hex(), "-1");
        assert_eq!(Big::from(-0x10a).to_hex(), "-10a");
        assert_eq!(Big::ZERO.negated().to_hex(), "0");
        let longest = Big::from_bytes(&[255; 128]).negated();
        assert_eq!(longest.to_hex(), format!("-{}", "f".repeat(256)));
    }

    #[test]
    fn a_number_and_its_negative_have_one_size() {
        let top = Big::from_bytes(&[255; 128]);
        for number in [Big::ZERO, Big::from(1), Big::from(64), top, top.plus(1)] {
            assert_eq!(number.size(), number);
            assert_eq!(number.negated().size(), number);
            assert_eq!(number.negated().bit_length(), number.bit_length());
            assert_eq!(number.negated().is_negative(), !number.is_zero());
            assert!(!number.is_negative());
        }
    }

    #[test]
    fn sums() {
        let top = Big::from_bytes(&[255; 128]);
        assert_eq!(top.sum(top), top.doubled());
        assert_eq!(top.sum(top.negated()), Big::ZERO);
        assert_eq!(Big::from(3).sum(Big::from(-5)), Big::from(-2));
    }

    #[test]
    fn small_sums_carry_and_borrow() {
        let top = Big::from_bytes(&[255; 128]);
        assert_eq!(top.plus(1).bit_length(), 1025);
        assert_eq!(top.plus(1).plus(-1), top);
        assert_eq!(Big::ZERO.plus(-5).plus(3), Big::from(-2));
        assert_eq!(top.plus_at(1 << 16, 8).plus_at(-(1 << 16), 8), top);
        assert_eq!(Big::ZERO.plus_at(1, 16), top.plus(1));
        // What 1,024 doublings make of the largest digit, and all smaller ones below it.
        let most = top.plus_at(31, 16).doubled().plus(31);
        assert!(!most.is_negative());
        assert_eq!(most.bit_length(), 1031);
        assert_eq!(most.negated().sum(most), Big::ZERO);
    }

    #[test]
    fn negation_changes_the_sign() {
        let top = Big::from_bytes(&[255; 128]);
        assert_eq!(Big::from(5).negated(), Big::from(-5));
        assert_eq!(Big::ZERO.negated(), Big::ZERO);
        assert_eq!(top.negated().negated(), top);
    }

    #[test]
    fn doubling_undoes_halving() {
        for small in [-62, -2, 0, 2, 4096] {
            assert_eq!(Big::from(small).halved(), Big::from(small / 2));
            assert_eq!(Big::from(small).halved().doubled(), Big::from(small));
        }
    }

    #[test]
    fn bit_lengths() {
        assert_eq!(Big::ZERO.bit_length(), 0);
        assert_eq!(Big::from(1).bit_length(), 1);
        assert_eq!(Big::from_bytes(&[1, 0, 0, 0, 0, 0, 0, 0, 0]).bit_length(), 65);
    }

    #[test]
    fn bits() {
        let number = Big::from_bytes(&[5, 0, 0, 0, 0, 0, 0, 0, 2]);
        let ones = (0..1_152).filter(|&place| number.bit(place));
        assert_eq!(ones.collect::<Vec<_>>(), [1, 64, 66]);
    }

    #[test]
    fn only_small_numbers_are_within() {
        assert_eq!(Big::from(-31).within(31), Some(-31));
        assert_eq!(Big::from(32).within(31), None);
        assert_eq!(Big::from_bytes(&[1, 0, 0, 0, 0, 0, 0, 0, 5]).within(31), None);
    }
}
