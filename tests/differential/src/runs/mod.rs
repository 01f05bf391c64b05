//! The runs: which calls are compared, by the limits that the judge is turned to.

pub mod both;
pub mod changed_orders;
pub mod cheapest;
pub mod dearest;
pub mod joint_forms;
pub mod licences;
pub mod next_limit;
pub mod plans;
pub mod reads;
pub mod rows;
pub mod samples;
pub mod signs;
pub mod small;

use crate::judge::Judge;
use crate::outcome::Outcome;
use reference::answer::Answer;
use reference::calls::Call;
use reference::card;
use reference::limits::Limits;
use reference::random::Random;
use reference::scalars::{self, Scalar};

/// Scalars whose lengths are refused, with random signs.
fn refused_scalars(random: &mut Random, limits: Limits) -> Vec<Scalar> {
    let most = limits.bytes();
    let lengths = [0, most + 1, most + 2, 2 * most, 255, 256, 257, 256 + most, 65_537];
    let mut bytes = lengths.map(|length| random.bytes(length)).to_vec();
    bytes.push(vec![0; most + 1]);
    bytes.into_iter().map(|bytes| scalars::signed(random, bytes)).collect()
}

/// Makes a call for a sheet, and compares it: the sheet is the reference's, and the reader accepts
/// it; one of the card's the gateway accepts too.
fn compare_and_read(judge: &mut Judge, call: &Call) -> Outcome {
    let outcome = judge.compare(call);
    if let Some(sheet) = outcome.sheet() {
        let read = Call::Read { sheet: sheet.to_vec() };
        judge.compare_with(&read, &Answer::Accepted);
        if judge.limits() == Limits::Card {
            judge.at(Limits::Gateway, |judge| judge.compare_with(&read, &Answer::Accepted));
        }
    }
    outcome
}

/// A card that works in pairs of numbers comes by the sheet to the pair that was ordered.
fn comes_to_its_pair(judge: &mut Judge, call: &Call, outcome: &Outcome) {
    let sheet = outcome.sheet().map(String::from_utf8_lossy);
    let run = sheet.and_then(|sheet| card::run_in_pairs(&sheet));
    let what = format_args!("the pair that the sheet comes to, by {call}");
    judge.hold(what, call.ordered(), run.map(|run| run.result));
}

/// Numbers that are not windows.
const REFUSED_WINDOWS: [u32; 17] = [
    0,
    2,
    4,
    16,
    30,
    32,
    33,
    35,
    255,
    256,
    257,
    65_535,
    65_537,
    1 << 31,
    (1 << 31) + 1,
    u32::MAX - 1,
    u32::MAX,
];

/// Limits of slots that are refused.
const REFUSED_LIMITS: [u32; 9] = [32, 33, 255, 256, 287, 65_536, 1 << 31, (1 << 31) + 5, u32::MAX];

/// Sizes of sheet buffers: too small, exact, and larger, at the card and at the gateway.
const ROOMS: [usize; 11] =
    [0, 1, 8_192, 16_383, 16_384, 16_385, 20_000, 32_767, 32_768, 32_769, 65_536];
