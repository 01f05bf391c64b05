//! Cheapest sheets.

use super::{comes_to_its_pair, refused_scalars, REFUSED_LIMITS, ROOMS};
use crate::judge::Judge;
use reference::answer::Answer;
use reference::calls::Call;
use reference::cheapest::Forms;
use reference::plan::MOST_SLOTS;
use reference::random::Random;
use reference::scalars::{self, Scalar};

const RANDOM_PAIRS: usize = 800;

pub fn run(judge: &mut Judge, random: &mut Random) {
    let limits = judge.limits();
    for _ in 0..RANDOM_PAIRS {
        let (k, l) = scalars::random_pair(random, limits);
        every_limit(judge, &k, &l);
    }
    for k in scalars::longest(limits) {
        let l = scalars::random_of_length(random, limits.bytes());
        every_limit(judge, &scalars::signed(random, k), &l);
    }
    for bytes in [vec![255; limits.bytes()], scalars::dense(limits)] {
        let (plus, minus) = (Scalar::plus(bytes.clone()), Scalar::minus(bytes));
        every_limit(judge, &plus, &plus);
        every_limit(judge, &plus, &minus);
        every_limit(judge, &minus, &plus);
        every_limit(judge, &minus, &minus);
    }
    refusals(judge, random);
}

/// The cheapest sheets, and what each comes to that is another than the one before; the additions
/// that were answered at every limit.
pub fn every_limit(judge: &mut Judge, k: &Scalar, l: &Scalar) -> Vec<usize> {
    let forms = Forms::of(k.value(), l.value());
    let (mut before, mut additions) = (Vec::new(), Vec::new());
    for limit in 0..=MOST_SLOTS {
        let sheet = forms.cheapest_sheet(limit as usize);
        let call =
            Call::Cheapest { k: k.clone(), l: l.clone(), limit, room: judge.limits().sheet() };
        let outcome = judge.compare_with(&call, &Answer::sheet(&sheet));
        let written = outcome.sheet().unwrap_or_default();
        if written != before {
            comes_to_its_pair(judge, &call, &outcome);
        }
        before = written.to_vec();
        additions.push(outcome.additions());
    }
    additions
}

/// Every order of the questions.
fn refusals(judge: &mut Judge, random: &mut Random) {
    for room in ROOMS {
        for limit in REFUSED_LIMITS.into_iter().chain([0, 15, 30, MOST_SLOTS]) {
            let (k, l) = scalars::random_pair(random, judge.limits());
            judge.compare(&Call::Cheapest { k, l, limit, room });
            for bad in refused_scalars(random, judge.limits()).into_iter().take(3) {
                let good = scalars::random(random, judge.limits());
                let (k, l) = if random.once_in(2) { (bad, good) } else { (good, bad) };
                judge.compare(&Call::Cheapest { k, l, limit, room });
            }
        }
    }
}
