//! Signs: what a minus changes in the library's own answers, and what it leaves.

use super::{comes_to_its_pair, compare_and_read};
use crate::judge::Judge;
use crate::outcome::Outcome;
use reference::answer::Answer;
use reference::calls::Call;
use reference::direction::Direction;
use reference::limits::Limits;
use reference::random::Random;
use reference::row;
use reference::scalars::{self, every_two_signs, Scalar, SIGNS};

const RANDOM_PAIRS: usize = 200;

/// Two scalars below this have every two signs.
const SMALL: u8 = 12;

pub fn run(judge: &mut Judge, random: &mut Random) {
    for direction in Direction::BOTH {
        rows(judge, random, direction);
    }
    for (k, l) in pairs(random, judge.limits()) {
        joint_forms(judge, &k, &l);
        for order in orders(random, judge.limits().sheet()) {
            sheets(judge, &k, &l, order);
        }
    }
    refusals(judge, random);
    headers(judge);
}

/// The bytes of two scalars: all small ones, zeros, the longest, and random ones.
fn pairs(random: &mut Random, limits: Limits) -> Vec<(Vec<u8>, Vec<u8>)> {
    let most = limits.bytes();
    let small = (0..SMALL).flat_map(|k| (0..SMALL).map(move |l| (vec![k], vec![l])));
    let mut pairs: Vec<_> = small.collect();
    for zeros in [1, 2, most / 2, most] {
        pairs.push((vec![0; zeros], vec![5]));
        pairs.push((vec![5], vec![0; zeros]));
        pairs.push((vec![0; zeros], vec![0; zeros]));
    }
    pairs.push((vec![255; most], vec![255; most]));
    pairs.push((scalars::dense(limits), scalars::dense(limits)));
    pairs.push(scalars::dense_pair(limits));
    for _ in 0..RANDOM_PAIRS {
        let (k, l) = scalars::random_pair(random, limits);
        pairs.push((k.bytes, l.bytes));
    }
    pairs
}

/// With any sign but 0 a row has each digit of the row with 0 negated, and the same length and
/// weight.
fn rows(judge: &mut Judge, random: &mut Random, direction: Direction) {
    let mut all: Vec<Vec<u8>> = (0..=255).map(|value| vec![value]).collect();
    all.extend(scalars::patterned(judge.limits()));
    all.extend((0..100).map(|_| scalars::random(random, judge.limits()).bytes));
    for bytes in all {
        for m in row::windows() {
            let row = |sign| {
                let (scalar, places) = (Scalar::new(bytes.clone(), sign), 8 * bytes.len() + 1);
                Call::Row { direction, scalar, m: m.into(), places }
            };
            let plus = judge.compare(&row(0));
            for sign in SIGNS {
                let outcome = judge.compare(&row(sign));
                let expected = (plus.code, with_sign(sign, &plus.buffers[0]));
                let got = (outcome.code, outcome.buffers[0].clone());
                judge.hold(format_args!("the row with its sign, by {}", row(sign)), expected, got);
            }
        }
    }
}

/// Each row of a joint form is negated with its own scalar alone; codes, length and weight stay.
fn joint_forms(judge: &mut Judge, k: &[u8], l: &[u8]) {
    let places = 8 * k.len().max(l.len()) + 1;
    let call = |ks, ls| {
        let (k, l) = (Scalar::new(k, ks), Scalar::new(l, ls));
        Call::JointCodes { k, l, rooms: [places; 4] }
    };
    let plus = judge.compare(&call(0, 0));
    for (ks, ls) in every_two_signs() {
        let coded = judge.compare(&call(ks, ls));
        let what = format_args!("the joint form with its signs, by {}", call(ks, ls));
        let [k_row, l_row, k_codes, l_codes] = &plus.buffers[..] else {
            unreachable!("two rows and their codes");
        };
        let (k_row, l_row) = (with_sign(ks, k_row), with_sign(ls, l_row));
        let expected = [k_row, l_row, k_codes.clone(), l_codes.clone()].to_vec();
        judge.hold(what, (plus.code, expected), (coded.code, coded.buffers.clone()));
        let (k, l) = (Scalar::new(k, ks), Scalar::new(l, ls));
        let joint = judge.compare(&Call::Joint { k, l, k_places: places, l_places: places });
        let rows = (coded.code, coded.buffers[..2].to_vec());
        judge.hold(what, rows, (joint.code, joint.buffers.clone()));
    }
}

/// A call for a sheet of two scalars.
type Order = Box<dyn Fn(Scalar, Scalar) -> Call>;

/// Plan J, a plan I from the rows of either kind, and the cheapest sheet under a limit.
fn orders(random: &mut Random, room: usize) -> [Order; 4] {
    let (m1, m2) = (random.window().into(), random.window().into());
    let limit = random.pick(&[0, 1, 2, 3, 5, 8, 15, 31]);
    let plan_i = |direction| -> Order {
        Box::new(move |k, l| Call::PlanI { direction, k, l, m1, m2, room })
    };
    [
        Box::new(move |k, l| Call::PlanJ { k, l, room }),
        plan_i(Direction::Up),
        plan_i(Direction::Down),
        Box::new(move |k, l| Call::Cheapest { k, l, limit, room }),
    ]
}

/// A sheet with signs is the one without, but for the digits of a negative scalar, which are
/// negated, and the minus before it; it is accepted, and comes to the signed pair. Any two signs
/// that are minus give the same sheet.
fn sheets(judge: &mut Judge, k: &[u8], l: &[u8], order: Order) {
    let call = |ks, ls| order(Scalar::new(k, ks), Scalar::new(l, ls));
    let plus = judge.compare(&call(0, 0));
    for (ks, ls) in [(0, 1), (1, 0), (1, 1)] {
        let call = call(ks, ls);
        let outcome = compare_and_read(judge, &call);
        comes_to_its_pair(judge, &call, &outcome);
        let expected = turned(&text(&plus), ks, ls);
        judge.hold(format_args!("the sheet with its signs, by {call}"), expected, text(&outcome));
        let additions = (plus.additions(), outcome.additions());
        judge.hold(format_args!("additions with signs, by {call}"), additions.0, additions.1);
    }
    for (ks, ls) in [(2, 256), (256, u32::MAX), (u32::MAX, 2)] {
        let (one, other) = (judge.compare(&call(1, 1)), judge.compare(&call(ks, ls)));
        let what = format_args!("two signs that are minus, by {}", call(ks, ls));
        judge.hold(what, (one.code, text(&one)), (other.code, text(&other)));
    }
}

fn text(outcome: &Outcome) -> String {
    String::from_utf8_lossy(outcome.sheet().unwrap_or_default()).into_owned()
}

/// The sheet with each step's digits negated where the sign is not 0, and the header's scalars.
fn turned(sheet: &str, ks: u32, ls: u32) -> String {
    let negated = |sign, field: &str| match (sign, field, field.strip_prefix('-')) {
        (0, _, _) | (_, "0", _) => field.to_string(),
        (_, _, Some(figures)) => figures.to_string(),
        (_, _, None) => format!("-{field}"),
    };
    let mut turned = String::new();
    for line in sheet.lines() {
        let fields: Vec<&str> = line.split(',').collect();
        match fields[..] {
            [ref first @ .., k, l] if !line.starts_with('T') && !first.is_empty() => {
                turned += &format!("{},{},{}", first.join(","), negated(ks, k), negated(ls, l));
            }
            _ => turned += line,
        }
        turned.push('\n');
    }
    turned
}

/// A refusal is the same with any sign, and writes nowhere.
fn refusals(judge: &mut Judge, random: &mut Random) {
    let limits = judge.limits();
    let (enough, room) = (limits.places() + 71, limits.sheet());
    for (ks, ls) in every_two_signs() {
        let good = Scalar::new(scalars::random(random, limits).bytes, ks);
        let exact = 8 * good.bytes.len() + 1;
        let longer = Scalar::new(random.bytes(limits.bytes() + 1), ls);
        let none = Scalar::new([], ls);
        let zero = Scalar::new([0], ls);
        let refused = |number| Answer::refused(number, 0);
        for bad in [longer, none] {
            for (k, l) in [(&good, &bad), (&bad, &good), (&bad, &bad)] {
                let (k, l, rooms) = (k.clone(), l.clone(), [enough; 4]);
                let joint =
                    Call::Joint { k: k.clone(), l: l.clone(), k_places: 0, l_places: enough };
                judge.compare_with(&joint, &refused(1));
                let coded = Call::JointCodes { k: k.clone(), l: l.clone(), rooms };
                judge.compare_with(&coded, &refused(1));
                for order in orders(random, room) {
                    judge.compare_with(&order(k.clone(), l.clone()), &refused(1));
                }
            }
            for direction in Direction::BOTH {
                let scalar = bad.clone();
                judge.compare_with(&Call::Row { direction, scalar, m: 4, places: 0 }, &refused(1));
            }
        }
        for direction in Direction::BOTH {
            let row = |m, places| Call::Row { direction, scalar: good.clone(), m, places };
            judge.compare_with(&row(32, exact), &refused(2));
            judge.compare_with(&row(31, exact - 1), &refused(3));
            let (k, l) = (good.clone(), zero.clone());
            judge.compare_with(&Call::PlanI { direction, k, l, m1: 1, m2: 0, room }, &refused(2));
        }
        let (k, l) = (good.clone(), zero.clone());
        judge
            .compare_with(&Call::Joint { k, l, k_places: exact, l_places: exact - 1 }, &refused(3));
        let (k, l) = (good.clone(), zero.clone());
        judge.compare_with(&Call::PlanJ { k, l, room: room - 1 }, &refused(3));
        let (k, l) = (good, zero);
        judge.compare_with(&Call::Cheapest { k, l, limit: 32, room: 0 }, &refused(4));
    }
}

/// The steps to every pair of small numbers under the header of every other: accepted under their
/// own alone. With `-0` in the place of a zero the header is misspelled.
fn headers(judge: &mut Judge) {
    let numbers = [-3, -2, -1, 0, 1, 2, 3];
    let pairs = || numbers.into_iter().flat_map(|k| numbers.map(|l| (k, l)));
    for (k, l) in pairs() {
        let call = Call::PlanJ { k: scalar(k), l: scalar(l), room: judge.limits().sheet() };
        let sheet = text(&judge.compare(&call));
        let own = format!(",{k},{l}\n");
        for (other_k, other_l) in pairs() {
            let answer = match (other_k, other_l) == (k, l) {
                true => Answer::Accepted,
                false => Answer::refused(11, 1),
            };
            read_as(judge, &sheet, &own, &format!(",{other_k},{other_l}\n"), &answer);
        }
        let misspelled = Answer::refused(6, 1);
        read_as(judge, &sheet, &own, &format!(",-0,{l}\n"), &misspelled);
        read_as(judge, &sheet, &own, &format!(",{k},-0\n"), &misspelled);
        read_as(judge, &sheet, &own, &format!(",--{},{l}\n", k.abs()), &misspelled);
        read_as(judge, &sheet, &own, &format!(",{k},+{}\n", l.abs()), &misspelled);
    }
}

/// Reads the sheet with another end of its header.
fn read_as(judge: &mut Judge, sheet: &str, own: &str, other: &str, answer: &Answer) {
    let sheet = sheet.replacen(own, other, 1).into_bytes();
    judge.compare_with(&Call::Read { sheet }, answer);
}

fn scalar(number: i8) -> Scalar {
    Scalar::new([number.unsigned_abs()], u32::from(number < 0))
}

/// The bytes of digits, negated where the sign is not 0.
fn with_sign(sign: u32, digits: &[u8]) -> Vec<u8> {
    digits.iter().map(|&digit| if sign == 0 { digit } else { digit.wrapping_neg() }).collect()
}
