//! Arithmetic modulo an odd number of up to 576 bits, after Montgomery: a residue x is kept as
//! x × R, R = 2^(64 × words).

const WORDS: usize = 9;

/// A number not below zero; the least significant word is first.
#[derive(Clone, Copy, PartialEq, Eq, Debug)]
pub struct Number([u64; WORDS]);

impl Number {
    pub const ZERO: Number = Number([0; WORDS]);
    const ONE: Number = Number([1, 0, 0, 0, 0, 0, 0, 0, 0]);

    /// The number in hexadecimal figures, if they are such and no more than there is room for.
    pub fn from_hex(figures: &str) -> Option<Number> {
        let mut words = [0; WORDS];
        for (place, figure) in figures.chars().rev().enumerate() {
            *words.get_mut(place / 16)? |= u64::from(figure.to_digit(16)?) << (place % 16 * 4);
        }
        Some(Number(words))
    }

    /// The number in bytes, most significant first, which are no more than there is room for.
    pub fn from_bytes(bytes: &[u8]) -> Number {
        let mut words = [0; WORDS];
        for (place, &byte) in bytes.iter().rev().enumerate() {
            words[place / 8] |= u64::from(byte) << (place % 8 * 8);
        }
        Number(words)
    }

    /// The number in so many bytes, most significant first.
    pub fn to_bytes(self, count: usize) -> Vec<u8> {
        let byte = |place: usize| (self.0[place / 8] >> (place % 8 * 8)) as u8;
        (0..count).rev().map(byte).collect()
    }

    pub fn bit_length(self) -> usize {
        let top = self.0.iter().rposition(|&word| word != 0);
        top.map_or(0, |i| 64 * i + 64 - self.0[i].leading_zeros() as usize)
    }

    pub fn has_bit(self, place: usize) -> bool {
        self.0[place / 64] >> (place % 64) & 1 == 1
    }

    /// The number with the bit at a place changed.
    #[must_use]
    pub fn with_bit_changed(mut self, place: usize) -> Number {
        self.0[place / 64] ^= 1 << (place % 64);
        self
    }

    pub fn is_below(self, other: Number) -> bool {
        self.0.iter().rev().lt(other.0.iter().rev())
    }

    fn is_even(self) -> bool {
        self.0[0] & 1 == 0
    }

    /// The sum of the lowest words, and the carry out of them.
    fn plus(mut self, other: Number, words: usize) -> (Number, bool) {
        let mut carry = false;
        for (word, add) in self.0[..words].iter_mut().zip(other.0) {
            let (sum, first) = word.overflowing_add(add);
            let (sum, second) = sum.overflowing_add(u64::from(carry));
            (*word, carry) = (sum, first | second);
        }
        (self, carry)
    }

    /// The difference of the lowest words, and the borrow out of them.
    fn minus(mut self, other: Number, words: usize) -> (Number, bool) {
        let mut borrow = false;
        for (word, take) in self.0[..words].iter_mut().zip(other.0) {
            let (rest, first) = word.overflowing_sub(take);
            let (rest, second) = rest.overflowing_sub(u64::from(borrow));
            (*word, borrow) = (rest, first | second);
        }
        (self, borrow)
    }

    /// Half of the number with this bit above its lowest words.
    fn halved(mut self, above: bool, words: usize) -> Number {
        let mut carry = u64::from(above);
        for word in self.0[..words].iter_mut().rev() {
            (*word, carry) = (*word >> 1 | carry << 63, *word & 1);
        }
        self
    }
}

/// A number below the modulus, times R.
#[derive(Clone, Copy, PartialEq, Eq, Debug)]
pub struct Residue(Number);

impl Residue {
    pub const ZERO: Residue = Residue(Number::ZERO);
}

pub struct Modulus {
    modulus: Number,
    words: usize,
    /// −1 ÷ modulus, modulo 2^64.
    negative_inverse: u64,
    /// R² and R³ modulo the modulus.
    square: Number,
    cube: Number,
}

impl Modulus {
    /// The modulus, which is odd and above 1.
    pub fn new(modulus: Number) -> Modulus {
        assert!(!modulus.is_even() && modulus != Number::ONE, "an odd modulus above 1");
        let words = modulus.bit_length().div_ceil(64);
        // Each turn doubles the number of right bits, beginning with three.
        let mut inverse = modulus.0[0];
        for _ in 0..5 {
            inverse = inverse.wrapping_mul(2u64.wrapping_sub(modulus.0[0].wrapping_mul(inverse)));
        }
        let negative_inverse = inverse.wrapping_neg();
        let (square, cube) = (Number::ZERO, Number::ZERO);
        let mut new = Modulus { modulus, words, negative_inverse, square, cube };
        let r = new.doubled_times(Number::ONE, 64 * words);
        new.square = new.doubled_times(r, 64 * words);
        new.cube = new.doubled_times(new.square, 64 * words);
        new
    }

    pub fn modulus(&self) -> Number {
        self.modulus
    }

    fn doubled_times(&self, number: Number, times: usize) -> Number {
        (0..times).fold(number, |number, _| self.sum(number, number))
    }

    /// The residue of a number of no more words than the modulus.
    pub fn residue(&self, number: Number) -> Residue {
        Residue(self.product(number, self.square))
    }

    /// The number below the modulus.
    pub fn number(&self, residue: Residue) -> Number {
        self.product(residue.0, Number::ONE)
    }

    pub fn plus(&self, a: Residue, b: Residue) -> Residue {
        Residue(self.sum(a.0, b.0))
    }

    pub fn minus(&self, a: Residue, b: Residue) -> Residue {
        Residue(self.difference(a.0, b.0))
    }

    pub fn times(&self, a: Residue, b: Residue) -> Residue {
        Residue(self.product(a.0, b.0))
    }

    /// a ÷ b, where b has an inverse.
    pub fn over(&self, a: Residue, b: Residue) -> Residue {
        self.times(a, Residue(self.product(self.inverse(b.0), self.cube)))
    }

    /// The sum of two numbers below the modulus.
    fn sum(&self, a: Number, b: Number) -> Number {
        let (sum, carry) = a.plus(b, self.words);
        self.below_modulus(sum, carry)
    }

    fn difference(&self, a: Number, b: Number) -> Number {
        let (difference, borrow) = a.minus(b, self.words);
        if borrow {
            difference.plus(self.modulus, self.words).0
        } else {
            difference
        }
    }

    /// The number, with this bit above its words, less the modulus unless it is below it.
    fn below_modulus(&self, number: Number, above: bool) -> Number {
        let (less, borrow) = number.minus(self.modulus, self.words);
        if borrow && !above {
            number
        } else {
            less
        }
    }

    /// a × b ÷ R, of which one is below the modulus.
    fn product(&self, a: Number, b: Number) -> Number {
        let words = self.words;
        let (mut sum, mut above) = (Number::ZERO, 0);
        for i in 0..words {
            let carry = add_multiple(&mut sum.0[..words], &b.0[..words], a.0[i]);
            let (top, over) = carry.overflowing_add(above);
            let q = sum.0[0].wrapping_mul(self.negative_inverse);
            let carry = add_multiple(&mut sum.0[..words], &self.modulus.0[..words], q);
            let (top, more) = top.overflowing_add(carry);
            sum.0.copy_within(1..words, 0);
            sum.0[words - 1] = top;
            above = u64::from(over) + u64::from(more);
        }
        self.below_modulus(sum, above == 1)
    }

    /// The inverse of a number below the modulus that has one: modulo the modulus a is x × u and b
    /// is x × v throughout, and a comes to 0 with b at 1.
    fn inverse(&self, x: Number) -> Number {
        let words = self.words;
        let (mut a, mut u, mut b, mut v) = (x, Number::ONE, self.modulus, Number::ZERO);
        while a != Number::ZERO {
            while a.is_even() {
                a = a.halved(false, words);
                u = self.half(u);
            }
            if a.is_below(b) {
                (a, u, b, v) = (b, v, a, u);
            }
            a = a.minus(b, words).0;
            u = self.difference(u, v);
        }
        assert_eq!(b, Number::ONE, "a number with an inverse");
        v
    }

    /// Half of a number modulo the modulus.
    fn half(&self, number: Number) -> Number {
        if number.is_even() {
            number.halved(false, self.words)
        } else {
            let (sum, carry) = number.plus(self.modulus, self.words);
            sum.halved(carry, self.words)
        }
    }
}

/// Adds a multiple to the sum; returns the word above it.
fn add_multiple(sum: &mut [u64], number: &[u64], factor: u64) -> u64 {
    let mut carry = 0;
    for (word, &other) in sum.iter_mut().zip(number) {
        let wide = u128::from(factor) * u128::from(other) + u128::from(*word) + u128::from(carry);
        (*word, carry) = (wide as u64, (wide >> 64) as u64);
    }
    carry
}

#[cfg(test)]
mod tests {
    use super::*;
    use crate::random::Random;

    fn hex(figures: &str) -> Number {
        Number::from_hex(figures).expect("hexadecimal figures")
    }

    /// Moduli of one word, of four full words, and of nine words.
    fn moduli() -> Vec<Modulus> {
        let nine_words = format!("1ff{}", "f".repeat(128));
        let moduli = ["7", "ffffffffffffffc5", &("f".repeat(55) + "efffffc2f"), &nine_words];
        moduli.iter().map(|&figures| Modulus::new(hex(figures))).collect()
    }

    fn random_residue(modulus: &Modulus, random: &mut Random) -> Residue {
        let mut words = [0; WORDS];
        words[..modulus.words].fill_with(|| random.number());
        modulus.residue(Number(words))
    }

    #[test]
    fn small_numbers() {
        let seven = &moduli()[0];
        let residue = |n: u64| seven.residue(hex(&format!("{n:x}")));
        for a in 0..20 {
            assert_eq!(seven.number(residue(a)), hex(&format!("{:x}", a % 7)));
            for b in 0..20 {
                assert_eq!(seven.plus(residue(a), residue(b)), residue(a + b));
                assert_eq!(seven.minus(residue(a + b), residue(b)), residue(a));
                assert_eq!(seven.times(residue(a), residue(b)), residue(a * b));
            }
        }
    }

    #[test]
    fn a_product_divided_gives_the_factor() {
        let random = &mut Random::new(11);
        for modulus in moduli() {
            for _ in 0..200 {
                let a = random_residue(&modulus, random);
                let b = random_residue(&modulus, random);
                if b != Residue::ZERO {
                    assert_eq!(modulus.over(modulus.times(a, b), b), a);
                }
                assert!(modulus.number(a).is_below(modulus.modulus()));
            }
        }
    }

    #[test]
    fn products_are_repeated_sums() {
        let random = &mut Random::new(12);
        for modulus in moduli() {
            let a = random_residue(&modulus, random);
            let mut sum = Residue::ZERO;
            for n in 0..100_u64 {
                assert_eq!(modulus.times(a, modulus.residue(hex(&format!("{n:x}")))), sum);
                sum = modulus.plus(sum, a);
            }
        }
    }

    #[test]
    fn bytes_and_bits() {
        let number = hex("123456789abcdef01");
        assert_eq!(number.to_bytes(10), [0, 1, 0x23, 0x45, 0x67, 0x89, 0xab, 0xcd, 0xef, 1]);
        assert_eq!(Number::from_bytes(&number.to_bytes(10)), number);
        assert_eq!(number.bit_length(), 65);
        assert_eq!(number.with_bit_changed(64), hex("23456789abcdef01"));
        assert_eq!(Number::from_hex(&"f".repeat(145)), None);
        assert_eq!(Number::from_hex("g"), None);
    }
}
