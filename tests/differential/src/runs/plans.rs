//! Sheets of named plans; those of plan I from the rows of either kind.

use super::{comes_to_its_pair, compare_and_read, refused_scalars, REFUSED_WINDOWS, ROOMS};
use crate::judge::Judge;
use reference::calls::Call;
use reference::direction::Direction;
use reference::limits::Limits;
use reference::plan::Plan;
use reference::random::Random;
use reference::scalars::{self, Scalar};

const RANDOM_PAIRS: usize = 100;

pub fn run(judge: &mut Judge, random: &mut Random) {
    for (k, l) in pairs(random, judge.limits()) {
        for plan in Plan::all() {
            sheets(judge, plan, &k, &l);
        }
    }
    patterned_pairs(judge, random);
    refused_lengths(judge, random);
    refused_windows(judge, random);
    rooms(judge, random);
}

/// The sheets of a plan come to the pair; those of plan I by the same number of additions.
fn sheets(judge: &mut Judge, plan: Plan, k: &Scalar, l: &Scalar) {
    let calls = calls(plan, k, l, judge.limits().sheet());
    let mut additions = Vec::new();
    for call in &calls {
        let outcome = compare_and_read(judge, call);
        comes_to_its_pair(judge, call, &outcome);
        additions.push(outcome.additions());
    }
    if let ([_, call], [up, down]) = (&calls[..], &additions[..]) {
        judge.hold(format_args!("the additions from the bottom up, by {call}"), up, down);
    }
}

fn pairs(random: &mut Random, limits: Limits) -> Vec<(Scalar, Scalar)> {
    let most = limits.bytes();
    let of_bytes = [
        (vec![0], vec![0]),
        (vec![1], vec![0]),
        (vec![0], vec![1]),
        (vec![255; most], vec![255; most]),
        (vec![255; most], vec![0; most]),
        (vec![255; most - 1], vec![255; 66]),
        (vec![0x80; most], vec![1]),
        (scalars::dense(limits), scalars::dense(limits)),
        scalars::dense_pair(limits),
    ];
    let plus = of_bytes.clone().map(|(k, l)| (Scalar::plus(k), Scalar::plus(l)));
    let minus = of_bytes.map(|(k, l)| (Scalar::minus(k), Scalar::minus(l)));
    let random_pairs = (0..RANDOM_PAIRS).map(|_| scalars::random_pair(random, limits));
    plus.into_iter().chain(minus).chain(random_pairs).collect()
}

/// Every two patterned scalars in some plans, with random signs.
fn patterned_pairs(judge: &mut Judge, random: &mut Random) {
    let windows = [(1, 1), (3, 1), (1, 3), (5, 7), (7, 31), (31, 1), (31, 31)];
    let interleaved = windows.map(|(m1, m2)| Plan::Interleaved { m1, m2 });
    let scalars = scalars::patterned(judge.limits());
    for k in &scalars {
        for l in &scalars {
            for plan in interleaved.into_iter().chain([Plan::Joint]) {
                let k = scalars::signed(random, k.clone());
                let l = scalars::signed(random, l.clone());
                for call in calls(plan, &k, &l, judge.limits().sheet()) {
                    compare_and_read(judge, &call);
                }
            }
        }
    }
}

/// The calls for a plan's sheets: of plan J one, of plan I one for each kind of row.
fn calls(plan: Plan, k: &Scalar, l: &Scalar, room: usize) -> Vec<Call> {
    match plan {
        Plan::Joint => vec![Call::PlanJ { k: k.clone(), l: l.clone(), room }],
        Plan::Interleaved { m1, m2 } => interleaved(k, l, m1.into(), m2.into(), room).to_vec(),
    }
}

fn interleaved(k: &Scalar, l: &Scalar, m1: u32, m2: u32, room: usize) -> [Call; 2] {
    Direction::BOTH.map(|direction| {
        let (k, l) = (k.clone(), l.clone());
        Call::PlanI { direction, k, l, m1, m2, room }
    })
}

fn compare_each(judge: &mut Judge, calls: impl IntoIterator<Item = Call>) {
    for call in calls {
        judge.compare(&call);
    }
}

fn refused_lengths(judge: &mut Judge, random: &mut Random) {
    let limits = judge.limits();
    for bad in refused_scalars(random, limits) {
        for good in [Scalar::minus([7]), Scalar::plus(vec![255; limits.bytes()])] {
            for (k, l) in [(&bad, &good), (&good, &bad), (&bad, &bad)] {
                for room in [0, limits.sheet()] {
                    compare_each(judge, calls(Plan::Joint, k, l, room));
                    compare_each(judge, interleaved(k, l, 31, 1, room));
                    compare_each(judge, interleaved(k, l, 2, 33, room));
                }
            }
        }
    }
}

fn refused_windows(judge: &mut Judge, random: &mut Random) {
    for bad in REFUSED_WINDOWS {
        for good in [1, 31] {
            for (m1, m2) in [(bad, good), (good, bad), (bad, bad)] {
                for room in [0, judge.limits().sheet()] {
                    let (k, l) = scalars::random_pair(random, judge.limits());
                    compare_each(judge, interleaved(&k, &l, m1, m2, room));
                }
            }
        }
    }
}

fn rooms(judge: &mut Judge, random: &mut Random) {
    for room in ROOMS {
        for _ in 0..8 {
            let (k, l) = scalars::random_pair(random, judge.limits());
            let plan = Plan::Interleaved { m1: random.window(), m2: random.window() };
            compare_each(judge, calls(Plan::Joint, &k, &l, room));
            compare_each(judge, calls(plan, &k, &l, room));
        }
    }
}
