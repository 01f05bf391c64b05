//! Small scalars, where an exhaustive search over digit lists confirms that nothing is lighter.

use super::joint_forms::packed_form;
use crate::judge::Judge;
use crate::outcome::{Claim, Outcome};
use reference::calls::Call;
use reference::cheapest::additions;
use reference::direction::Direction;
use reference::least::Least;
use reference::plan::{Plan, MOST_SLOTS};
use reference::row;
use reference::scalars::{Scalar, SIGNS};

/// All scalars lie between this and its negative.
const BOUND: u8 = 64;

/// The limits at which sheets for all four pairs of signs are compared.
const SIGNED_LIMITS: [u32; 4] = [0, 2, 3, MOST_SLOTS];

pub fn run(judge: &mut Judge) {
    let bound = i32::from(BOUND);
    let rows: Vec<Least> = row::windows().map(|m| Least::of_rows(bound, m)).collect();
    let columns = Least::of_columns(bound);
    for direction in Direction::BOTH {
        compare_rows(judge, direction, &rows);
    }
    compare_joint_forms(judge, &columns);
    compare_cheapest(judge, &rows, &columns);
}

/// Every scalar with every sign.
fn compare_rows(judge: &mut Judge, direction: Direction, rows: &[Least]) {
    for (m, least) in row::windows().zip(rows) {
        for (size, sign) in (0..BOUND).flat_map(|size| SIGNS.map(|sign| (size, sign))) {
            let scalar = Scalar::new([size], sign);
            let call = Call::Row { direction, scalar, m: m.into(), places: 9 };
            let expected = least.weight(value(size, sign), 0);
            judge.compare_claiming(&call, &|outcome| {
                let counted = outcome.buffers[0].iter().filter(|&&digit| digit != 0).count();
                Claim { what: "weight", expected, counted, answered: outcome.weight() }
            });
        }
    }
}

/// Every two scalars with every pair of signs.
fn compare_joint_forms(judge: &mut Judge, columns: &Least) {
    for (k, l) in pairs() {
        for (ks, ls) in pairs_of_signs(k, l) {
            let expected = columns.weight(value(k, ks), value(l, ls));
            let claim = |outcome: &Outcome| {
                let pairs = outcome.buffers[0].iter().zip(&outcome.buffers[1]);
                let counted = pairs.filter(|&pair| pair != (&0, &0)).count();
                Claim { what: "weight", expected, counted, answered: outcome.weight() }
            };
            let (k, l) = (Scalar::new([k], ks), Scalar::new([l], ls));
            let coded = Call::JointCodes { k: k.clone(), l: l.clone(), rooms: [9; 4] };
            let joint = Call::Joint { k, l, k_places: 9, l_places: 9 };
            let joint = judge.compare_claiming(&joint, &claim);
            judge.compare_claiming(&coded, &claim);
            packed_form(judge, &joint, [0, 1, 2]);
        }
    }
}

/// The fewest additions of each plan for one pair of scalars, by exhaustive search.
fn plan_additions(rows: &[Least], columns: &Least, k: i32, l: i32) -> Vec<(Plan, usize)> {
    let row_weight = |m: u8, scalar| rows[usize::from(m / 2)].weight(scalar, 0);
    let weight = |plan| match plan {
        Plan::Joint => columns.weight(k, l),
        Plan::Interleaved { m1, m2 } => row_weight(m1, k) + row_weight(m2, l),
    };
    Plan::all().map(|plan| (plan, additions(plan, weight(plan)))).collect()
}

/// Every two scalars at every limit, and with every pair of signs at some.
fn compare_cheapest(judge: &mut Judge, rows: &[Least], columns: &Least) {
    for (k, l) in pairs() {
        for (ks, ls) in pairs_of_signs(k, l) {
            let plans = plan_additions(rows, columns, value(k, ks), value(l, ls));
            let plus = ks == 0 && ls == 0;
            for limit in (0..=MOST_SLOTS).filter(|limit| plus || SIGNED_LIMITS.contains(limit)) {
                let (k, l) = (Scalar::new([k], ks), Scalar::new([l], ls));
                let call = Call::Cheapest { k, l, limit, room: judge.limits().sheet() };
                let allowed = plans.iter().filter(|(plan, _)| plan.slots() <= limit as usize);
                let fewest = allowed.map(|&(_, additions)| additions).min();
                let expected = fewest.expect("windows 1, 1 need no slot");
                judge.compare_claiming(&call, &|outcome| {
                    let (counted, answered) = (counted_additions(outcome), outcome.additions());
                    Claim { what: "additions", expected, counted, answered }
                });
            }
        }
    }
}

fn pairs() -> impl Iterator<Item = (u8, u8)> {
    (0..BOUND).flat_map(|k| (0..BOUND).map(move |l| (k, l)))
}

/// The four pairs of signs; which number stands for minus changes with the scalars.
pub fn pairs_of_signs(k: u8, l: u8) -> [(u32, u32); 4] {
    let minus = |at: u8| SIGNS[1 + usize::from(at) % (SIGNS.len() - 1)];
    let (ks, ls) = (minus(k / 2 + l), minus(l / 2));
    [(0, 0), (0, ls), (ks, 0), (ks, ls)]
}

fn value(size: u8, sign: u32) -> i32 {
    if sign == 0 {
        size.into()
    } else {
        -i32::from(size)
    }
}

/// The additions counted from the lines of the sheet.
fn counted_additions(outcome: &Outcome) -> usize {
    let sheet = outcome.sheet().unwrap_or_default();
    let is_addition = |line: &&[u8]| {
        matches!(line.first(), Some(b'A' | b'T')) && *line != b"T,2,0" && *line != b"T,0,2"
    };
    sheet.split(|&byte| byte == b'\n').filter(is_addition).count()
}
