//! The joint sparse form, found by a search that knows only the rules (a) to (c).

use crate::big::Big;

/// The digits of P and of Q: at one place, in one step, or in one line of the table.
pub type Pair = (i8, i8);

/// The columns for k and l, place 0 first.
pub fn recode(k: Big, l: Big) -> Vec<Pair> {
    let mut columns = Vec::new();
    let found = extend(k, l, &mut columns);
    assert!(found, "every pair has a joint sparse form");
    columns
}

/// Extends columns that keep the rules until nothing is left of k and l. A column that leads
/// nowhere is taken back: within three places some rule fails.
fn extend(k: Big, l: Big, columns: &mut Vec<Pair>) -> bool {
    if k.is_zero() && l.is_zero() {
        return true;
    }
    for &a in choices(k) {
        for &b in choices(l) {
            columns.push((a, b));
            if top_keeps_rules(columns) && extend(k.after(a), l.after(b), columns) {
                return true;
            }
            columns.pop();
        }
    }
    false
}

/// The digits with the parity of the remainder.
fn choices(remainder: Big) -> &'static [i8] {
    if remainder.is_odd() {
        &[1, -1]
    } else {
        &[0]
    }
}

/// Are the digits −1, 0 or 1, and do rules (a) to (c) hold at all places?
pub fn keeps_rules(columns: &[Pair]) -> bool {
    let digits_fit = columns.iter().all(|&(a, b)| a.abs() <= 1 && b.abs() <= 1);
    digits_fit && (1..=columns.len()).all(|length| top_keeps_rules(&columns[..length]))
}

/// Do the rules hold among the top column and the two below it?
fn top_keeps_rules(columns: &[Pair]) -> bool {
    let a_holds = match columns {
        [.., low, middle, top] => [low, middle, top].iter().any(|&&column| column == (0, 0)),
        _ => true,
    };
    let b_and_c_hold = match columns {
        [.., low, high] => {
            neighbours_keep_rules((low.0, high.0), (low.1, high.1))
                && neighbours_keep_rules((low.1, high.1), (low.0, high.0))
        }
        _ => true,
    };
    a_holds && b_and_c_hold
}

/// Rules (b) and (c) for two neighbouring digits of a row, lower first, beside the other row's.
fn neighbours_keep_rules((low, high): (i8, i8), (other_low, other_high): (i8, i8)) -> bool {
    let b_holds = low * high != -1;
    let c_holds = low * high == 0 || (other_high != 0 && other_low == 0);
    b_holds && c_holds
}

/// The number of columns that are not zero.
pub fn weight(columns: &[Pair]) -> usize {
    columns.iter().filter(|&&column| column != (0, 0)).count()
}

/// The two rows of the columns.
pub fn rows(columns: &[Pair]) -> (Vec<i8>, Vec<i8>) {
    columns.iter().copied().unzip()
}

#[cfg(test)]
mod tests {
    use super::*;
    use crate::limits::Limits;
    use crate::random::Random;
    use crate::{row, scalars};

    /// The number of column lists for k and l that keep the rules.
    fn count_forms(k: Big, l: Big, columns: &mut Vec<Pair>) -> usize {
        if k.is_zero() && l.is_zero() {
            return 1;
        }
        let mut count = 0;
        for &a in choices(k) {
            for &b in choices(l) {
                columns.push((a, b));
                if top_keeps_rules(columns) {
                    count += count_forms(k.after(a), l.after(b), columns);
                }
                columns.pop();
            }
        }
        count
    }

    #[test]
    fn columns_have_the_values_the_rules_and_the_length() {
        let mut random = Random::new(4);
        for _ in 0..500 {
            let (k, l) = scalars::random_pair(&mut random, Limits::Gateway);
            let (k, l) = (k.value(), l.value());
            let columns = recode(k, l);
            let (k_row, l_row) = rows(&columns);
            assert_eq!((row::value(&k_row), row::value(&l_row)), (k, l));
            assert!(keeps_rules(&columns));
            assert!(columns.len() <= k.bit_length().max(l.bit_length()) + 1);
            assert_ne!(columns.last(), Some(&(0, 0)));
        }
    }

    fn form(k: Big, l: Big) -> (Vec<i8>, Vec<i8>) {
        rows(&recode(k, l))
    }

    #[test]
    fn rows_negate_singly_each_with_its_number() {
        let negated = |row: &[i8]| row.iter().map(|digit| -digit).collect::<Vec<i8>>();
        let mut random = Random::new(14);
        let small = (0..64 * 64).map(|pair| (Big::from(pair / 64), Big::from(pair % 64)));
        let long: Vec<_> =
            (0..200).map(|_| scalars::random_pair(&mut random, Limits::Gateway)).collect();
        for (k, l) in small.chain(long.iter().map(|(k, l)| (k.value(), l.value()))) {
            let (k_row, l_row) = form(k, l);
            assert_eq!(form(k.negated(), l), (negated(&k_row), l_row.clone()));
            assert_eq!(form(k, l.negated()), (k_row.clone(), negated(&l_row)));
            assert_eq!(form(k.negated(), l.negated()), (negated(&k_row), negated(&l_row)));
        }
    }

    #[test]
    fn the_rules_leave_one_form() {
        for k in -64..128 {
            for l in -64..128 {
                assert_eq!(count_forms(Big::from(k), Big::from(l), &mut Vec::new()), 1);
            }
        }
    }

    #[test]
    fn the_form_is_one_for_long_scalars_too() {
        let mut random = Random::new(5);
        for _ in 0..100 {
            let (k, l) = scalars::random_pair(&mut random, Limits::Gateway);
            let (k, l) = (k.value(), l.value());
            assert_eq!(count_forms(k, l, &mut Vec::new()), 1);
        }
    }

    #[test]
    fn each_rule_refuses() {
        assert!(keeps_rules(&[]));
        assert!(keeps_rules(&[(1, 0), (1, 1)]));
        assert!(!keeps_rules(&[(2, 0)]));
        assert!(!keeps_rules(&[(1, 0), (0, 1), (1, 0)]));
        assert!(!keeps_rules(&[(-1, 0), (1, 1)]));
        assert!(!keeps_rules(&[(1, 0), (1, 0)]));
        assert!(!keeps_rules(&[(1, 1), (1, 1)]));
    }
}
