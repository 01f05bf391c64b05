//! The next limits that pay, asked for at every limit.

use super::small::pairs_of_signs;
use super::{cheapest, refused_scalars, REFUSED_LIMITS};
use crate::judge::Judge;
use crate::outcome::Outcome;
use reference::answer::Answer;
use reference::limits::Limits;
use reference::next_limit::{self, call, NextLimit};
use reference::plan::MOST_SLOTS;
use reference::random::Random;
use reference::row;
use reference::scalars::{self, Scalar};

/// Every two scalars below this are asked for.
const SMALL: u8 = 64;

/// Every two of these are asked for with every two signs: 11 and 11 have fewer additions jointly,
/// 45 and 51 with window 3.
const SIGNED: [u8; 6] = [0, 1, 3, 11, 45, 51];

/// One in so many of the other pairs stands beside its cheapest sheets.
const BESIDE_SHEETS: usize = 8;

const RANDOM_PAIRS: usize = 100;

/// How often each kind of answer was due at a limit below the highest.
#[derive(Default)]
pub struct Met {
    pub none: u64,
    /// The limit that pays is the very next one, or a further one.
    pub next: u64,
    pub further: u64,
    /// It is the highest.
    pub highest: u64,
}

impl Met {
    fn count(&mut self, limit: u32, due: Option<NextLimit>) {
        let (limit, highest) = (limit as usize, MOST_SLOTS as usize);
        let Some(next) = due else {
            self.none += u64::from(limit < highest);
            return;
        };
        self.next += u64::from(next.limit == limit + 1);
        self.further += u64::from(next.limit > limit + 1);
        self.highest += u64::from(next.limit == highest);
    }

    /// A kind that never comes up would not have been compared.
    fn hold(&self, judge: &mut Judge) {
        let Met { none, next, further, highest } = *self;
        let come_up = [none, next, further, highest].map(|count| count > 0);
        let what = format_args!("did none, the next, a further and the highest limit come up");
        judge.hold(what, [true; 4], come_up);
    }
}

pub fn run(judge: &mut Judge, random: &mut Random) -> Met {
    let mut met = Met::default();
    small_scalars(judge, &mut met);
    for (at, (k, l)) in pairs(random).iter().enumerate() {
        if at % BESIDE_SHEETS == 0 {
            beside_cheapest_sheets(judge, &mut met, k, l);
        } else {
            every_limit(judge, &mut met, k, l);
        }
    }
    for (k, l) in signed_pairs(random) {
        every_two_signs(judge, &mut met, &k, &l);
    }
    refusals(judge, random);
    for (call, answer) in next_limit::edges() {
        judge.compare_with(&call, &answer);
    }
    met.hold(judge);
    met
}

/// Each pair of scalars has one of the four pairs of signs.
fn small_scalars(judge: &mut Judge, met: &mut Met) {
    for (k, l) in (0..SMALL).flat_map(|k| (0..SMALL).map(move |l| (k, l))) {
        let (ks, ls) = pairs_of_signs(k, l)[usize::from(k + l) % 4];
        every_limit(judge, met, &Scalar::new([k], ks), &Scalar::new([l], ls));
    }
    for (k, l) in SIGNED.into_iter().flat_map(|k| SIGNED.map(|l| (k, l))) {
        beside_cheapest_sheets(judge, met, &Scalar::plus([k]), &Scalar::plus([l]));
        every_two_signs(judge, met, &[k], &[l]);
    }
}

/// Scalars of every length; runs of ones, and every second bit; one of the longest beside another;
/// scalars made for every two windows; random kinds, and random bits.
fn pairs(random: &mut Random) -> Vec<(Scalar, Scalar)> {
    let most = Limits::Card.bytes();
    let mut pairs = Vec::new();
    for bytes in 1..=most {
        for other in [bytes, most + 1 - bytes] {
            let k = scalars::random_of_length(random, bytes);
            pairs.push((k, scalars::random_of_length(random, other)));
        }
    }
    let mut of_bytes = Vec::new();
    for alike in [scalars::patterned(Limits::Card), scalars::longest(Limits::Card)] {
        for k in &alike {
            of_bytes.push((k.clone(), alike[random.below(alike.len())].clone()));
        }
    }
    for m1 in row::windows() {
        of_bytes.extend(row::windows().map(|m2| next_limit::made_for(m1, m2)));
    }
    of_bytes.extend((0..RANDOM_PAIRS).map(|_| (random.bytes(most), random.bytes(most))));
    for (k, l) in of_bytes {
        pairs.push((scalars::signed(random, k), scalars::signed(random, l)));
    }
    pairs.extend((0..RANDOM_PAIRS).map(|_| scalars::random_pair(random, Limits::Card)));
    pairs
}

/// The bytes of two scalars: zeros, all ones, and scalars for which many limits pay.
fn signed_pairs(random: &mut Random) -> [(Vec<u8>, Vec<u8>); 6] {
    let most = Limits::Card.bytes();
    [
        (vec![0; most], vec![0; most]),
        (vec![0; most], random.bytes(most)),
        (vec![255; most], vec![255; most]),
        (random.bytes(32), random.bytes(32)),
        (random.bytes(most), random.bytes(most)),
        next_limit::made_for(31, 31),
    ]
}

/// Asks at every limit, and at the first that is refused.
fn every_limit(judge: &mut Judge, met: &mut Met, k: &Scalar, l: &Scalar) -> Vec<Outcome> {
    let additions = next_limit::additions(k.value(), l.value());
    let mut outcomes = Vec::new();
    for limit in 0..=MOST_SLOTS {
        let next = next_limit::next(&additions, limit as usize);
        met.count(limit, next);
        outcomes.push(judge.compare_with(&call(k, l, limit), &Answer::NextLimit(next)));
    }
    judge.compare_with(&call(k, l, MOST_SLOTS + 1), &Answer::refused(4, 0));
    outcomes
}

/// The answers follow from the additions of the archive's own cheapest sheets.
fn beside_cheapest_sheets(judge: &mut Judge, met: &mut Met, k: &Scalar, l: &Scalar) {
    let additions = cheapest::every_limit(judge, k, l);
    let outcomes = every_limit(judge, met, k, l);
    for (limit, outcome) in (0..).zip(outcomes) {
        let call = call(k, l, limit);
        let expected = next_limit::next(&additions, limit as usize);
        let what = format_args!("what the cheapest sheets say, by {call}");
        judge.hold(what, expected, outcome.next_limit());
    }
}

/// The answers are the same with every two signs.
fn every_two_signs(judge: &mut Judge, met: &mut Met, k: &[u8], l: &[u8]) {
    let plus = every_limit(judge, met, &Scalar::plus(k), &Scalar::plus(l));
    for (ks, ls) in scalars::every_two_signs() {
        let (k, l) = (Scalar::new(k, ks), Scalar::new(l, ls));
        let signed = every_limit(judge, met, &k, &l);
        for (limit, (plus, signed)) in (0..).zip(plus.iter().zip(&signed)) {
            let call = call(&k, &l, limit);
            judge.hold(format_args!("the answer without signs, by {call}"), plus.code, signed.code);
        }
    }
}

/// Scalars that are refused with any limit, and limits that are refused with other scalars.
fn refusals(judge: &mut Judge, random: &mut Random) {
    for limit in REFUSED_LIMITS.into_iter().chain([0, 15, 30, MOST_SLOTS]) {
        for bad in refused_scalars(random, Limits::Card) {
            let good = scalars::random(random, Limits::Card);
            for (k, l) in [(&bad, &good), (&good, &bad), (&bad, &bad)] {
                judge.compare(&call(k, l, limit));
            }
        }
        let (k, l) = scalars::random_pair(random, Limits::Card);
        judge.compare(&call(&k, &l, limit));
    }
}
