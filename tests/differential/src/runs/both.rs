//! What the card takes at the gateway: the same answers and the same bytes.

use crate::judge::Judge;
use crate::outcome::Outcome;
use reference::calls::Call;
use reference::direction::Direction;
use reference::limits::Limits;
use reference::plan::MOST_SLOTS;
use reference::random::Random;
use reference::scalars::{self, Scalar};

const RANDOM_PAIRS: usize = 300;

pub fn run(judge: &mut Judge, random: &mut Random) {
    let longest = scalars::longest(Limits::Card);
    for at in 0..RANDOM_PAIRS {
        let (k, l) = scalars::random_pair(random, Limits::Card);
        calls(judge, random, &k, &l);
        let k = scalars::signed(random, longest[at % longest.len()].clone());
        calls(judge, random, &k, &l);
    }
}

/// Every call for this pair but the reader, which reads the sheets.
fn calls(judge: &mut Judge, random: &mut Random, k: &Scalar, l: &Scalar) {
    let places = 8 * k.bytes.len().max(l.bytes.len()) + 1;
    let (m1, m2) = (random.window().into(), random.window().into());
    let limit = random.below(MOST_SLOTS as usize + 1) as u32;
    let pair = || (k.clone(), l.clone());
    for direction in Direction::BOTH {
        same(judge, |_| Call::Row { direction, scalar: k.clone(), m: m1, places });
        same_sheet(judge, |room| {
            let (k, l) = pair();
            Call::PlanI { direction, k, l, m1, m2, room }
        });
    }
    same(judge, |_| {
        let (k, l) = pair();
        Call::Joint { k, l, k_places: places, l_places: places }
    });
    same(judge, |_| {
        let (k, l) = pair();
        Call::JointCodes { k, l, rooms: [places; 4] }
    });
    same_sheet(judge, |room| {
        let (k, l) = pair();
        Call::PlanJ { k, l, room }
    });
    same_sheet(judge, |room| {
        let (k, l) = pair();
        Call::Cheapest { k, l, limit, room }
    });
}

/// The outcomes of a call at the card and at the gateway, each with a sheet buffer of its own size.
fn outcomes(judge: &mut Judge, call: impl Fn(usize) -> Call) -> [Outcome; 2] {
    Limits::BOTH.map(|limits| judge.at(limits, |judge| judge.compare(&call(limits.sheet()))))
}

fn same(judge: &mut Judge, call: impl Fn(usize) -> Call) {
    let what = call(0);
    let [card, gateway] = outcomes(judge, call).map(|outcome| (outcome.code, outcome.buffers));
    judge.hold(format_args!("the card's digits at the gateway, by {what}"), card, gateway);
}

/// The sheets are the same, and each reader accepts the other's.
fn same_sheet(judge: &mut Judge, call: impl Fn(usize) -> Call) {
    let what = call(0);
    let [card, gateway] = outcomes(judge, call);
    let sheets = [&card, &gateway].map(|outcome| outcome.sheet().unwrap_or_default().to_vec());
    judge.hold(
        format_args!("the card's answer at the gateway, by {what}"),
        card.code,
        gateway.code,
    );
    judge.hold(format_args!("the card's sheet at the gateway, by {what}"), &sheets[0], &sheets[1]);
    for limits in Limits::BOTH {
        let read = Call::Read { sheet: sheets[0].clone() };
        let number = judge.at(limits, |judge| judge.compare(&read)).number();
        judge.hold(format_args!("the sheet's acceptance, by {what}"), 0, number);
    }
}
