//! The code of each digit of a joint form, from the remainders at its place.

use crate::big::Big;
use crate::joint::Pair;

/// The codes of both rows of the columns for k and l.
pub fn of_columns(k: Big, l: Big, columns: &[Pair]) -> (Vec<u8>, Vec<u8>) {
    let codes = remainders(k, l, columns).into_iter().map(|(k, l)| (code(k, l), code(l, k)));
    codes.unzip()
}

/// What is left of k and of l at each place: the number less its digits below, divided by 2^place.
fn remainders(k: Big, l: Big, columns: &[Pair]) -> Vec<(Big, Big)> {
    let take = |left: &mut (Big, Big), &(a, b): &Pair| {
        let (k, l) = *left;
        *left = (k.after(a), l.after(b));
        Some((k, l))
    };
    columns.iter().scan((k, l), take).collect()
}

/// 0 for an even remainder; 2 where it is 3 or 5 by eight beside one that is 2 by four; else 1.
fn code(remainder: Big, other: Big) -> u8 {
    match (remainder.remainder(3), other.remainder(2)) {
        (0 | 2 | 4 | 6, _) => 0,
        (3 | 5, 2) => 2,
        _ => 1,
    }
}

#[cfg(test)]
mod tests {
    use super::*;
    use crate::limits::Limits;
    use crate::random::Random;
    use crate::{joint, scalars};

    /// The value of the digits, and 2^place × the remainder at the place above them.
    fn made_up(digits: &[i8], remainder: Big) -> Big {
        let upper = |number: Big, &digit: &i8| number.doubled().plus(i64::from(digit));
        digits.iter().rev().fold(remainder, upper)
    }

    #[test]
    fn a_remainder_makes_up_the_number_with_the_digits_below() {
        let mut random = Random::new(6);
        for _ in 0..100 {
            let (k, l) = scalars::random_pair(&mut random, Limits::Gateway);
            let (k, l) = (k.value(), l.value());
            let columns = joint::recode(k, l);
            let (k_row, l_row) = joint::rows(&columns);
            for (place, (k_left, l_left)) in remainders(k, l, &columns).into_iter().enumerate() {
                assert_eq!(made_up(&k_row[..place], k_left), k);
                assert_eq!(made_up(&l_row[..place], l_left), l);
            }
        }
    }

    #[test]
    fn each_digit_follows_from_its_code() {
        let by_four = |left: Big| if left.remainder(2) == 1 { 1 } else { -1 };
        let digit = |code, left| match code {
            0 => 0,
            1 => by_four(left),
            _ => -by_four(left),
        };
        let mut random = Random::new(7);
        for _ in 0..500 {
            let (k, l) = scalars::random_pair(&mut random, Limits::Gateway);
            let (k, l) = (k.value(), l.value());
            let columns = joint::recode(k, l);
            let (k_codes, l_codes) = of_columns(k, l, &columns);
            for (place, (k_left, l_left)) in remainders(k, l, &columns).into_iter().enumerate() {
                let follows = (digit(k_codes[place], k_left), digit(l_codes[place], l_left));
                assert_eq!(follows, columns[place]);
            }
        }
    }

    fn codes(k: Big, l: Big) -> (Vec<u8>, Vec<u8>) {
        of_columns(k, l, &joint::recode(k, l))
    }

    #[test]
    fn codes_do_not_change_with_the_signs() {
        let mut random = Random::new(8);
        let small = (0..64 * 64).map(|pair| (Big::from(pair / 64), Big::from(pair % 64)));
        let long: Vec<_> =
            (0..200).map(|_| scalars::random_pair(&mut random, Limits::Gateway)).collect();
        for (k, l) in small.chain(long.iter().map(|(k, l)| (k.value(), l.value()))) {
            assert_eq!(codes(k.negated(), l), codes(k, l));
            assert_eq!(codes(k, l.negated()), codes(k, l));
            assert_eq!(codes(k.negated(), l.negated()), codes(k, l));
        }
    }
}
