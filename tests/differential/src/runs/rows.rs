//! Rows, from the bottom up and from the top down.

use super::{refused_scalars, REFUSED_WINDOWS};
use crate::judge::Judge;
use reference::calls::Call;
use reference::direction::Direction;
use reference::limits::Limits;
use reference::random::Random;
use reference::row;
use reference::scalars::{self, Scalar};

const RANDOM_SCALARS: usize = 5_000;

pub fn run(judge: &mut Judge, random: &mut Random) {
    for bytes in all_scalars(random, judge.limits()) {
        for m in row::windows() {
            let places = enough_places(random, bytes.len());
            let scalar = scalars::signed(random, bytes.clone());
            both_rows(judge, &scalar, m.into(), places);
        }
    }
    for direction in Direction::BOTH {
        refused_lengths(judge, random, direction);
        refused_windows(judge, random, direction);
        small_buffers(judge, random, direction);
    }
}

/// The rows of both kinds have the scalar's value, and the same weight.
fn both_rows(judge: &mut Judge, scalar: &Scalar, m: u32, places: usize) {
    let call = |direction| Call::Row { direction, scalar: scalar.clone(), m, places };
    let [up, down] = Direction::BOTH.map(|direction| {
        let outcome = judge.compare(&call(direction));
        let digits: Vec<i8> = outcome.buffers[0].iter().map(|&byte| byte as i8).collect();
        let what = format_args!("the value, by {}", call(direction));
        judge.hold(what, scalar.value(), row::value(&digits));
        outcome.weight()
    });
    let what = format_args!("the weight from the bottom up, by {}", call(Direction::Down));
    judge.hold(what, up, down);
}

/// The bytes of many scalars; each call gives them a random sign.
fn all_scalars(random: &mut Random, limits: Limits) -> Vec<Vec<u8>> {
    let mut all: Vec<Vec<u8>> = (0..=255).map(|value| vec![value]).collect();
    all.extend(scalars::of_every_length(random, limits));
    all.extend(scalars::around_powers_of_two(limits));
    all.extend(scalars::longest(limits));
    all.extend((0..RANDOM_SCALARS).map(|_| scalars::random(random, limits).bytes));
    all
}

/// The exact number of places, or more.
fn enough_places(random: &mut Random, bytes: usize) -> usize {
    let exact = 8 * bytes + 1;
    match random.below(4) {
        0 => exact + 1,
        1 => exact + random.below(600),
        _ => exact,
    }
}

/// Question 1 comes before the others.
fn refused_lengths(judge: &mut Judge, random: &mut Random, direction: Direction) {
    for scalar in refused_scalars(random, judge.limits()) {
        let exact = 8 * scalar.bytes.len() + 1;
        for m in [1, 31, 0, 33] {
            for places in [0, judge.limits().places(), exact] {
                let scalar = scalar.clone();
                judge.compare(&Call::Row { direction, scalar, m, places });
            }
        }
    }
}

/// Question 2 comes before question 3.
fn refused_windows(judge: &mut Judge, random: &mut Random, direction: Direction) {
    for m in REFUSED_WINDOWS.into_iter().chain((2..=62).step_by(2)) {
        for _ in 0..4 {
            let scalar = scalars::random(random, judge.limits());
            let exact = 8 * scalar.bytes.len() + 1;
            for places in [0, exact - 1, exact, exact + 9] {
                let scalar = scalar.clone();
                judge.compare(&Call::Row { direction, scalar, m, places });
            }
        }
    }
}

fn small_buffers(judge: &mut Judge, random: &mut Random, direction: Direction) {
    for bytes in 1..=judge.limits().bytes() {
        let exact = 8 * bytes + 1;
        for places in [0, 1, 8, bytes, exact / 2, exact - 1, exact, exact + 1, 65_537 + bytes] {
            let scalar = scalars::random_of_length(random, bytes);
            let m = random.window().into();
            judge.compare(&Call::Row { direction, scalar, m, places });
        }
    }
}
