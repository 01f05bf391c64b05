//! Sheets whose digits another recoder chose: the values are right, the weights need not be small.

use crate::big::Big;
use crate::limits::Limits;
use crate::plan::Plan;
use crate::random::Random;
use crate::sheet::{columns, Sheet};

/// A sheet of the plan for k and l with freely chosen digits.
pub fn sheet(random: &mut Random, plan: Plan, k: Big, l: Big) -> Sheet {
    let (m1, m2) = plan.windows();
    let (k_row, l_row) = (row(random, k, m1), row(random, l, m2));
    Sheet::from_columns(plan, k, l, &columns(&k_row, &l_row))
}

/// A sheet of the plan with so many places, unless k and l need more of them or are both zero.
pub fn stretched_sheet(random: &mut Random, plan: Plan, k: Big, l: Big, places: usize) -> Sheet {
    let (m1, m2) = plan.windows();
    let (k_row, l_row) = if k.is_zero() || random.once_in(2) {
        (row(random, k, m1), wasteful_row(random, l, m2, places))
    } else {
        (wasteful_row(random, k, m1, places), row(random, l, m2))
    };
    Sheet::from_columns(plan, k, l, &columns(&k_row, &l_row))
}

/// A sheet that ends elsewhere than its header says: at values that a narrow accumulator, or one
/// without a sign, would take for k and l.
pub fn false_sheet(random: &mut Random, plan: Plan, k: Big, l: Big, limits: Limits) -> Sheet {
    let (m1, m2) = plan.windows();
    let (mut p, mut q) = (k, l);
    if random.once_in(2) {
        p = lookalike(random, k, m1, limits);
    } else {
        q = lookalike(random, l, m2, limits);
    }
    let (p_row, q_row) = (wasteful_row(random, p, m1, 0), wasteful_row(random, q, m2, 0));
    Sheet::from_columns(plan, k, l, &columns(&p_row, &q_row))
}

/// The number negated, or off by a multiple of a power of two that the most places of the window
/// reach.
fn lookalike(random: &mut Random, number: Big, m: u8, limits: Limits) -> Big {
    let (word, bit) = (limits.doubles() / 64, limits.doubles() % 64);
    match random.below(3) {
        0 => number.negated(),
        1 => number.plus_at(random.pick(&[1, -1]), random.between(1, word)),
        _ => number.plus_at(i64::from(random_digit(random, m)) << bit, word),
    }
}

fn row(random: &mut Random, scalar: Big, m: u8) -> Vec<i8> {
    match random.below(3) {
        0 => binary_row(scalar),
        1 => wasteful_row(random, scalar, m, 0),
        _ => {
            let more = random.below(40);
            wasteful_row(random, scalar, m, scalar.bit_length() + more)
        }
    }
}

/// Plain bits for digits, negated if the scalar is negative.
fn binary_row(scalar: Big) -> Vec<i8> {
    let sign = if scalar.is_negative() { -1 } else { 1 };
    let mut digits = Vec::new();
    let mut rest = scalar;
    while !rest.is_zero() {
        let digit = if rest.is_odd() { sign } else { 0 };
        digits.push(digit);
        rest = rest.after(digit);
    }
    digits
}

/// Random digits of the window. Where the rest is itself a digit it ends the row, but not before
/// the row has so many places: until then another digit leaves a rest that is not zero.
fn wasteful_row(random: &mut Random, scalar: Big, m: u8, places: usize) -> Vec<i8> {
    let mut digits = Vec::new();
    let mut rest = scalar;
    while !rest.is_zero() {
        let last = rest.within(m.into()).map(|digit| digit as i8);
        let digit = if !rest.is_odd() {
            0
        } else if digits.len() + 1 < places {
            other_digit(random, m, last)
        } else {
            last.unwrap_or_else(|| random_digit(random, m))
        };
        digits.push(digit);
        rest = rest.after(digit);
    }
    digits
}

/// A random odd digit of the window, but not the one to avoid.
fn other_digit(random: &mut Random, m: u8, avoided: Option<i8>) -> i8 {
    loop {
        let digit = random_digit(random, m);
        if Some(digit) != avoided {
            return digit;
        }
    }
}

fn random_digit(random: &mut Random, m: u8) -> i8 {
    let size = 2 * random.below(usize::from(m).div_ceil(2)) as i8 + 1;
    random.pick(&[size, -size])
}

#[cfg(test)]
mod tests {
    use super::*;
    use crate::reader::{self, Refusal};
    use crate::row::value;
    use crate::scalars;

    #[test]
    fn rows_have_the_value_and_the_length() {
        let mut random = Random::new(8);
        for _ in 0..500 {
            let scalar = scalars::random(&mut random, Limits::Gateway).value();
            let m = random.window();
            assert_eq!(value(&binary_row(scalar)), scalar);
            assert_eq!(value(&wasteful_row(&mut random, scalar, m, 0)), scalar);
            let long = wasteful_row(&mut random, scalar, m, 1_100);
            assert_eq!(value(&long), scalar);
            assert!(scalar.is_zero() || long.len() >= 1_100);
        }
    }

    #[test]
    fn sheets_are_accepted() {
        let mut random = Random::new(9);
        for plan in Plan::all() {
            let k = scalars::random_of_length(&mut random, 20).value();
            let l = scalars::random_of_length(&mut random, 50).value();
            let sheet = sheet(&mut random, plan, k, l);
            assert_eq!(reader::read(&sheet.to_bytes(), Limits::Gateway), Ok(()));
        }
    }

    #[test]
    fn false_sheets_come_as_far_as_their_result() {
        let mut random = Random::new(12);
        let plan = Plan::Interleaved { m1: 31, m2: 31 };
        let (k, l) = (Big::from(5), Big::from(-9));
        for limits in Limits::BOTH {
            let mut read = || {
                let sheet = false_sheet(&mut random, plan, k, l, limits);
                reader::read(&sheet.to_bytes(), limits)
            };
            let missed_result = Err(Refusal { number: 11, line: 1 });
            assert!((0..100).filter(|_| read() == missed_result).count() > 80);
        }
    }

    #[test]
    fn sheets_of_the_most_places_are_accepted_and_longer_ones_not() {
        let mut random = Random::new(10);
        let plan = Plan::Interleaved { m1: 1, m2: 1 };
        let (k, l) = (Big::from(5), Big::from(-9));
        for limits in Limits::BOTH {
            let longest = stretched_sheet(&mut random, plan, k, l, limits.places());
            assert_eq!(reader::read(&longest.to_bytes(), limits), Ok(()));
            let longer = stretched_sheet(&mut random, plan, k, l, limits.places() + 1);
            let refusal = reader::read(&longer.to_bytes(), limits).expect_err("a double too many");
            assert!(matches!(refusal, Refusal { number: 9, .. }));
        }
    }
}
