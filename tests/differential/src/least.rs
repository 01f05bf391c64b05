//! The least weights, by an exhaustive search over digit lists of any length, for small values.

use crate::joint::Pair;
use std::collections::VecDeque;

/// The least weights of lists of pairs of digits, by the pair of their values.
///
/// A list with a value within −bound to bound, its digits being no larger than the bound, has a
/// high part (the list without its place 0) with a value within the same bounds. So the search
/// that appends lower places to values within the bounds misses no list.
pub struct Least {
    bound: i32,
    weights: Vec<Option<usize>>,
}

impl Least {
    /// For the columns of digits −1, 0 and 1.
    pub fn of_columns(bound: i32) -> Least {
        let digits = -1..=1;
        let columns = digits.clone().flat_map(|a| digits.clone().map(move |b| (a, b)));
        Least::search(bound, &columns.collect::<Vec<_>>())
    }

    /// For the rows of window m. The second value of each pair is 0.
    pub fn of_rows(bound: i32, m: u8) -> Least {
        let m = m as i8;
        let digits = (-m..=m).filter(|digit| *digit == 0 || digit % 2 != 0);
        Least::search(bound, &digits.map(|digit| (digit, 0)).collect::<Vec<_>>())
    }

    /// The least weight of the lists with this pair of values.
    pub fn weight(&self, a: i32, b: i32) -> usize {
        self.weights[self.index(a, b)].expect("some list has these values")
    }

    /// Spreads from the empty list: a zero pair costs nothing and is taken first.
    fn search(bound: i32, digits: &[Pair]) -> Least {
        let side = (2 * bound + 1) as usize;
        let mut least = Least { bound, weights: vec![None; side * side] };
        let mut waiting = VecDeque::from([(0, 0, 0)]);
        while let Some((a, b, weight)) = waiting.pop_front() {
            let index = least.index(a, b);
            if least.weights[index].is_some() {
                continue;
            }
            least.weights[index] = Some(weight);
            for &pair in digits {
                let (a, b) = (2 * a + i32::from(pair.0), 2 * b + i32::from(pair.1));
                if a.abs() > bound || b.abs() > bound {
                    continue;
                }
                if pair == (0, 0) {
                    waiting.push_front((a, b, weight));
                } else {
                    waiting.push_back((a, b, weight + 1));
                }
            }
        }
        least
    }

    fn index(&self, a: i32, b: i32) -> usize {
        ((a + self.bound) * (2 * self.bound + 1) + b + self.bound) as usize
    }
}

#[cfg(test)]
mod tests {
    use super::*;
    use crate::big::Big;
    use crate::{joint, row};

    #[test]
    fn rows_have_the_least_weight() {
        for m in row::windows() {
            let least = Least::of_rows(300, m);
            for value in -300..=300 {
                let digits = row::recode(Big::from(value), m);
                assert_eq!(row::weight(&digits), least.weight(value as i32, 0));
            }
        }
    }

    #[test]
    fn joint_forms_have_the_least_weight() {
        let least = Least::of_columns(160);
        for k in -160..=160 {
            for l in -160..=160 {
                let columns = joint::recode(Big::from(k), Big::from(l));
                assert_eq!(joint::weight(&columns), least.weight(k as i32, l as i32));
            }
        }
    }
}
