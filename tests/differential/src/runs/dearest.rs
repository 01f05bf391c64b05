//! The dearest scalars of all sizes, and what the archive's own rows for window 1, and its sheets of
//! plan I with windows 1, 1, say of them.

use super::compare_and_read;
use super::small::pairs_of_signs;
use crate::judge::Judge;
use crate::outcome::Outcome;
use reference::answer::Answer;
use reference::big::Big;
use reference::calls::Call;
use reference::dearest::{self, call, LeastScalars, BYTES};
use reference::direction::Direction;
use reference::limits::Limits;
use reference::random::Random;
use reference::scalars::{self, every_two_signs, Scalar};

/// Each size is asked for so often, so that no byte is right by what the buffer held before.
const TIMES: usize = 4;

/// Up to this size the reference looks at the rows of all scalars.
const SEARCHED: u32 = 16;

/// Up to this size the archive makes the rows of all scalars.
const SMALL: u32 = 12;

/// Up to this size it makes the sheets of every two.
const PAIRED: u32 = 5;

/// Scalars of each random kind beside the dearest of a size.
const RANDOM_SCALARS: usize = 6;

pub fn run(judge: &mut Judge, random: &mut Random) {
    let least = LeastScalars::of_places(Limits::Card.places());
    for (bits, signs) in dearest::sizes().zip(every_two_signs().cycle()) {
        let dearest = least.dearest(bits);
        for _ in 1..TIMES {
            judge.compare_with(&call(bits, BYTES), &Answer::Dearest(dearest));
        }
        let outcome = judge.compare_with(&call(bits, BYTES), &Answer::Dearest(dearest));
        let told = Told::new(bits, &outcome);
        let others = others(random, bits, dearest.scalar);
        rows(judge, &told, &others);
        sheets(judge, &told, signs, &pairs(random, &others));
    }
    for bits in 1..=SEARCHED {
        judge.compare_with(&call(bits, BYTES), &Answer::Dearest(dearest::by_search(bits)));
    }
    for direction in Direction::BOTH {
        all_rows(judge, direction);
        all_sheets(judge, direction);
    }
    for (call, answer) in dearest::edges() {
        judge.compare_with(&call, &answer);
    }
}

/// What the archive told of a size.
struct Told {
    bits: u32,
    scalar: Scalar,
    most: usize,
}

impl Told {
    fn new(bits: u32, outcome: &Outcome) -> Told {
        Told { bits, scalar: Scalar::plus(&outcome.buffers[0][..]), most: outcome.most() }
    }
}

/// Scalars of the size: the reference's dearest and the one before it, smaller ones, some of random
/// kinds, and heavy ones.
fn others(random: &mut Random, bits: u32, dearest: Big) -> Vec<Scalar> {
    let mut others =
        [dearest, dearest.plus(-1)].map(|scalar| Scalar::plus(scalar.to_bytes(BYTES))).to_vec();
    for _ in 0..RANDOM_SCALARS {
        others.push(dearest::random_smaller(random, dearest));
        others.push(scalars::random_of_bits(random, bits as usize));
        others.push(dearest::random_heavy(random, bits));
    }
    others
}

/// The first of these scalars and any other, either way around, and any two, with random signs.
fn pairs(random: &mut Random, scalars: &[Scalar]) -> [(Scalar, Scalar); 4] {
    let first = &scalars[0];
    [0, 1, 2, 3].map(|kind| {
        let [one, other] = [(); 2].map(|()| &scalars[random.below(scalars.len())]);
        let (k, l) = match kind {
            0 => (first, other),
            1 => (other, first),
            _ => (one, other),
        };
        (scalars::signed(random, &k.bytes[..]), scalars::signed(random, &l.bytes[..]))
    })
}

/// The scalar told is of the size, and its row has as many digits that are not 0 as were told; that
/// of a smaller one has fewer, and that of any other no more.
fn rows(judge: &mut Judge, told: &Told, others: &[Scalar]) {
    let Told { bits, scalar, most } = told;
    let is_of_size = scalar.value().bit_length() <= *bits as usize;
    judge.hold(format_args!("a scalar of {bits} bits, {:?}", scalar.value()), true, is_of_size);
    for direction in Direction::BOTH {
        let call = row(direction, scalar);
        let weight = judge.compare(&call).weight();
        judge.hold(format_args!("the most digits of {bits} bits, by {call}"), *most, weight);
        for other in others {
            let call = row(direction, other);
            let weight = judge.compare(&call).weight();
            let is_smaller = other.value().size() < scalar.value();
            let allowed = if is_smaller { weight < *most } else { weight <= *most };
            let what = format_args!("{weight} digits where {most} are the most, by {call}");
            judge.hold(what, true, allowed);
        }
    }
}

/// The sheet of the scalar told with itself has an addition for each of their digits but the one
/// that is loaded, as the table is empty; that of any two others has no more.
fn sheets(judge: &mut Judge, told: &Told, (ks, ls): (u32, u32), others: &[(Scalar, Scalar)]) {
    let Told { bits, scalar, most } = told;
    for direction in Direction::BOTH {
        let call = plan_i(direction, &scalar.with_sign(ks), &scalar.with_sign(ls));
        let additions = compare_and_read(judge, &call).additions();
        let what = format_args!("the most digits of {bits} bits twice, by {call}");
        judge.hold(what, 2 * most, additions + 1);
        for (k, l) in others {
            let call = plan_i(direction, k, l);
            let additions = judge.compare(&call).additions();
            let what =
                format_args!("{additions} additions where {most} digits are the most, by {call}");
            judge.hold(what, true, additions < 2 * most);
        }
    }
}

/// Of the rows of all scalars of a size, the first with the most digits is that of the scalar told.
fn all_rows(judge: &mut Judge, direction: Direction) {
    let mut weights = Vec::new();
    for scalar in 0..1u16 << SMALL {
        let call = row(direction, &Scalar::plus(scalar.to_be_bytes()));
        weights.push(judge.compare(&call).weight());
    }
    for bits in 1..=SMALL {
        let told = Told::new(bits, &judge.compare(&call(bits, BYTES)));
        let of_size = &weights[..1 << bits];
        let most = of_size.iter().max();
        let first = of_size.iter().position(|weight| Some(weight) == most);
        let expected = (first.map(|first| Big::from(first as i64)), most.copied());
        let what = format_args!("the first row of {bits} bits with the most digits, {direction:?}");
        judge.hold(what, expected, (Some(told.scalar.value()), Some(told.most)));
    }
}

/// Of the sheets of every two scalars of a size, with all four pairs of signs, none has more
/// additions than that of the scalar told with itself.
fn all_sheets(judge: &mut Judge, direction: Direction) {
    let mut additions = Vec::new();
    for (k, l) in (0..1 << PAIRED).flat_map(|k| (0..1 << PAIRED).map(move |l| (k, l))) {
        for (ks, ls) in pairs_of_signs(k, l) {
            let call = plan_i(direction, &Scalar::new([k], ks), &Scalar::new([l], ls));
            additions.push((k.max(l), judge.compare(&call).additions()));
        }
    }
    for bits in 1..=PAIRED {
        let told = Told::new(bits, &judge.compare(&call(bits, BYTES)));
        let of_size = additions.iter().filter(|(larger, _)| larger >> bits == 0);
        let most = of_size.map(|(_, additions)| additions + 1).max();
        let what =
            format_args!("the most digits of {bits} bits twice, by all sheets, {direction:?}");
        judge.hold(what, Some(2 * told.most), most);
    }
}

fn row(direction: Direction, scalar: &Scalar) -> Call {
    let places = 8 * scalar.bytes.len() + 1;
    Call::Row { direction, scalar: scalar.clone(), m: 1, places }
}

fn plan_i(direction: Direction, k: &Scalar, l: &Scalar) -> Call {
    let (k, l, room) = (k.clone(), l.clone(), Limits::Card.sheet());
    Call::PlanI { direction, k, l, m1: 1, m2: 1, room }
}
