//! Joint sparse forms, without their codes and with them; and columns packed and unpacked.

use super::refused_scalars;
use crate::judge::Judge;
use crate::outcome::Outcome;
use reference::calls::Call;
use reference::packing;
use reference::random::Random;
use reference::scalars::{self, Scalar};

const RANDOM_PAIRS: usize = 15_000;

/// The most columns of a random list: more than a joint form has.
const MOST_COLUMNS: usize = 1_100;

/// Calls for columns, many of them refused.
const RANDOM_CALLS: usize = 30_000;

pub fn run(judge: &mut Judge, random: &mut Random) {
    for _ in 0..RANDOM_PAIRS {
        let (k, l) = scalars::random_pair(random, judge.limits());
        compare_with_room(judge, random, k, l);
    }
    every_two_lengths(judge, random);
    around_powers(judge, random);
    longest(judge, random);
    refused_lengths(judge, random);
    small_buffers(judge, random);
}

/// Lists of any columns there and back; calls for columns that may be refused, and those at the
/// edges.
pub fn run_columns(judge: &mut Judge, random: &mut Random) {
    for [k_row, l_row] in packing::short_rows() {
        packed_and_back(judge, k_row.len(), &k_row, &l_row, [0, 1, 2]);
    }
    for columns in (0..=MOST_COLUMNS).flat_map(|columns| [columns; 3]) {
        let [k_row, l_row] = packing::random_rows(random, columns);
        let past = [(); 3].map(|()| packing::random_past(random));
        packed_and_back(judge, columns, &k_row, &l_row, past);
    }
    for _ in 0..RANDOM_CALLS {
        judge.compare(&packing::random_call(random));
    }
    for (call, answer) in packing::edges() {
        judge.compare_with(&call, &answer);
    }
}

fn compare_with_room(judge: &mut Judge, random: &mut Random, k: Scalar, l: Scalar) {
    let exact = 8 * k.bytes.len().max(l.bytes.len()) + 1;
    let past = [(); 4].map(|()| random.pick(&[0, 0, 1, 300]));
    let rooms = past.map(|past| exact + past);
    let [k_places, l_places, ..] = rooms;
    let joint = judge.compare(&Call::Joint { k: k.clone(), l: l.clone(), k_places, l_places });
    judge.compare(&Call::JointCodes { k, l, rooms });
    let [k_past, l_past, past, _] = past;
    packed_form(judge, &joint, [k_past, l_past, past]);
}

fn every_two_lengths(judge: &mut Judge, random: &mut Random) {
    let most = judge.limits().bytes();
    for k_bytes in 1..=most {
        for l_bytes in 1..=most {
            let k = scalars::random_of_length(random, k_bytes);
            let l = scalars::random_of_length(random, l_bytes);
            compare_with_room(judge, random, k, l);
        }
    }
}

fn around_powers(judge: &mut Judge, random: &mut Random) {
    let powers = scalars::around_powers_of_two(judge.limits());
    for k in &powers {
        let l = &powers[random.below(powers.len())];
        let (k, l) = (scalars::signed(random, k.clone()), scalars::signed(random, l.clone()));
        compare_with_room(judge, random, k, l);
    }
}

/// Two of the longest scalars with every second bit, one bit, or long runs of ones.
fn longest(judge: &mut Judge, random: &mut Random) {
    let scalars = scalars::longest(judge.limits());
    for k in &scalars {
        for _ in 0..8 {
            let l = &scalars[random.below(scalars.len())];
            let (k, l) = (scalars::signed(random, k.clone()), scalars::signed(random, l.clone()));
            compare_with_room(judge, random, k, l);
        }
    }
}

fn refused_lengths(judge: &mut Judge, random: &mut Random) {
    let limits = judge.limits();
    let mut good = vec![Scalar::plus([7]), Scalar::minus(vec![255; limits.bytes()])];
    good.extend(refused_scalars(random, limits));
    for bad in refused_scalars(random, limits) {
        for other in &good {
            let enough = 8 * bad.bytes.len().max(other.bytes.len()) + 1;
            for places in [0, limits.places(), enough] {
                for (k, l) in [(&bad, other), (other, &bad)] {
                    let (k, l) = (k.clone(), l.clone());
                    judge.compare(&Call::JointCodes {
                        k: k.clone(),
                        l: l.clone(),
                        rooms: [places; 4],
                    });
                    judge.compare(&Call::Joint { k, l, k_places: places, l_places: places });
                }
            }
        }
    }
}

/// Any buffer may be the one that is too small for the longer scalar.
fn small_buffers(judge: &mut Judge, random: &mut Random) {
    for _ in 0..200 {
        let (k, l) = scalars::random_pair(random, judge.limits());
        let (k_bytes, l_bytes) = (k.bytes.len(), l.bytes.len());
        let exact = 8 * k_bytes.max(l_bytes) + 1;
        let by_shorter = 8 * k_bytes.min(l_bytes) + 1;
        for small in [0, by_shorter, exact - 1] {
            for (k_places, l_places) in [(small, exact), (exact, small), (small, small)] {
                judge.compare(&Call::Joint { k: k.clone(), l: l.clone(), k_places, l_places });
            }
            for short in 1..16 {
                let room = |i: usize| if short >> i & 1 == 1 { small } else { exact };
                let rooms = [room(0), room(1), room(2), room(3)];
                judge.compare(&Call::JointCodes { k: k.clone(), l: l.clone(), rooms });
            }
        }
    }
}

/// A joint form packed over its length, and over all places: above the top they pack as 4.
pub fn packed_form(judge: &mut Judge, joint: &Outcome, past: [usize; 3]) {
    let [k_row, l_row] = &joint.buffers[..] else {
        unreachable!("two rows");
    };
    let places = k_row.len().min(l_row.len());
    let length = joint.length().min(places);
    packed_and_back(judge, length, k_row, l_row, past);
    let packed = packed_and_back(judge, places, k_row, l_row, past);
    let what = format_args!("the columns above the top of a joint form of {length}");
    judge.hold(what, &vec![4; places - length][..], &packed[length..]);
}

/// Packs so many columns of two rows, unpacks them, and packs them again: the same digits and bytes.
/// The new rows and the buffer are longer by so many places and bytes.
fn packed_and_back(
    judge: &mut Judge,
    columns: usize,
    k_row: &[u8],
    l_row: &[u8],
    [k_past, l_past, past]: [usize; 3],
) -> Vec<u8> {
    let pack = |k_row: &[u8], l_row: &[u8]| {
        let (k_digits, l_digits) = (k_row.to_vec(), l_row.to_vec());
        Call::Pack { columns, k_digits, l_digits, room: columns + past }
    };
    let packed = judge.compare(&pack(k_row, l_row)).buffers.remove(0);
    let (k_places, l_places) = (columns + k_past, columns + l_past);
    let unpack = Call::Unpack { columns, packed: packed.clone(), k_places, l_places };
    let rows = judge.compare(&unpack).buffers;
    let unpacked = [&rows[0][..columns], &rows[1][..columns]];
    let what = format_args!("the rows that were packed, by {unpack}");
    judge.hold(what, [&k_row[..columns], &l_row[..columns]], unpacked);
    let again = pack(&rows[0], &rows[1]);
    let repacked = judge.compare(&again).buffers.remove(0);
    let what = format_args!("the bytes that were unpacked, by {again}");
    judge.hold(what, &packed[..columns], &repacked[..columns]);
    packed[..columns].to_vec()
}
