//! A wrong recoder such as has been delivered: it adds in words of 32 bits, and a carry into a word
//! of ones stops there.

/// The row for window 1, place 0 first: the digit at a place is the bit of 3k above it less that
/// of k.
pub fn recode(scalar: &[u8]) -> Vec<i8> {
    let k = words(scalar);
    let triple = sum(&k, &doubled(&k));
    (1..32 * k.len()).map(|place| bit(&triple, place) - bit(&k, place)).collect()
}

/// The words of a scalar, the lowest first, and one of zeros above them.
fn words(scalar: &[u8]) -> Vec<u32> {
    let word = |bytes: &[u8]| bytes.iter().fold(0, |high, &byte| high << 8 | u32::from(byte));
    scalar.rchunks(4).map(word).chain([0]).collect()
}

fn doubled(number: &[u32]) -> Vec<u32> {
    let mut carry = 0;
    let double = |&word: &u32| {
        let doubled = word << 1 | carry;
        carry = word >> 31;
        doubled
    };
    number.iter().map(double).collect()
}

/// The sum of two numbers. The mistake: where the carry alone makes a word overflow, the carry out
/// of it is lost.
fn sum(one: &[u32], other: &[u32]) -> Vec<u32> {
    let mut carry = 0;
    let add = |(&a, &b): (&u32, &u32)| {
        let sum = a.wrapping_add(carry).wrapping_add(b);
        carry = u32::from(sum < b);
        sum
    };
    one.iter().zip(other).map(add).collect()
}

fn bit(number: &[u32], place: usize) -> i8 {
    (number[place / 32] >> (place % 32) & 1) as i8
}

#[cfg(test)]
mod tests {
    use super::*;
    use crate::big::Big;
    use crate::limits::Limits;
    use crate::random::Random;
    use crate::{row, scalars};

    #[test]
    fn right_on_scalars_without_a_word_of_ones() {
        let random = &mut Random::new(13);
        for _ in 0..2000 {
            let scalar = scalars::random(random, Limits::Gateway).bytes;
            if !words(&scalar).contains(&u32::MAX) {
                let mut digits = row::recode(Big::from_bytes(&scalar), 1);
                digits.resize(recode(&scalar).len(), 0);
                assert_eq!(recode(&scalar), digits);
            }
        }
    }

    #[test]
    fn wrong_where_a_carry_comes_to_a_word_of_ones() {
        let is_right = |scalar: u128| {
            let scalar = scalar.to_be_bytes();
            row::value(&recode(&scalar)) == Big::from_bytes(&scalar)
        };
        assert!(is_right(0xffff_ffff));
        assert!(is_right(0xffff_ffff_0000_0000));
        assert!(is_right(0xffff_ffff_5555_5555));
        assert!(!is_right(0xffff_ffff_5555_5556));
        assert!(!is_right(0xffff_ffff_ffff_ffff));
        assert!(!is_right(0x1234_ffff_ffff_c000_0000));
    }
}
