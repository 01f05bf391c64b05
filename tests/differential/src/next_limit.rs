//! The next limit that pays: the smallest larger one at which the cheapest sheet has fewer
//! additions. It is found by asking for the cheapest sheet at every limit.

use crate::answer::Answer;
use crate::big::Big;
use crate::calls::Call;
use crate::cheapest::Forms;
use crate::limits::Limits;
use crate::plan::{Plan, MOST_SLOTS};
use crate::row;
use crate::scalars::{self, every_two_signs, Scalar};

/// A limit, and the additions of the cheapest sheet at it.
#[derive(Clone, Copy, PartialEq, Eq, Debug)]
pub struct NextLimit {
    pub limit: usize,
    pub additions: usize,
}

/// The additions of the cheapest sheet at every limit, from 0 on.
pub fn additions(k: Big, l: Big) -> Vec<usize> {
    let forms = Forms::of(k, l);
    (0..=MOST_SLOTS as usize).map(|limit| forms.additions(forms.cheapest(limit))).collect()
}

/// The next limit that pays, if any does, by the additions at every limit.
pub fn next(additions: &[usize], limit: usize) -> Option<NextLimit> {
    let pays = |larger: &usize| additions[*larger] < additions[limit];
    let larger = (limit + 1..additions.len()).find(pays)?;
    Some(NextLimit { limit: larger, additions: additions[larger] })
}

/// The call for the next limit.
pub fn call(k: &Scalar, l: &Scalar, limit: u32) -> Call {
    Call::NextLimit { k: k.clone(), l: l.clone(), limit }
}

/// The calls at the edges, each pair of scalars with other signs.
pub fn edges() -> Vec<(Call, Answer)> {
    let mut edges = refusals();
    edges.extend(many_additions());
    edges.extend(every_window());
    let pairs = few_additions().into_iter().chain(repeated_ones()).chain(full_windows());
    for ((k, l, paying), (ks, ls)) in pairs.zip(every_two_signs().cycle()) {
        edges.extend(at_every_limit(&Scalar::new(k, ks), &Scalar::new(l, ls), &paying));
    }
    edges
}

/// Two scalars, and all limits at which they have fewer additions than at the one below.
type Paying = (Vec<u8>, Vec<u8>, Vec<NextLimit>);

/// The call at every limit, and at the first that is refused.
fn at_every_limit(k: &Scalar, l: &Scalar, paying: &[NextLimit]) -> Vec<(Call, Answer)> {
    let next = |limit: u32| paying.iter().find(|next| next.limit > limit as usize).copied();
    let within = (0..=MOST_SLOTS).map(|limit| (call(k, l, limit), Answer::NextLimit(next(limit))));
    within.chain([(call(k, l, MOST_SLOTS + 1), refused(4))]).collect()
}

fn few_additions() -> Vec<Paying> {
    let most = Limits::Card.bytes();
    let with_zeros = |value| [vec![0; most - 1], vec![value]].concat();
    vec![
        (vec![0], vec![0], vec![]),
        (vec![0; most], vec![0; most], vec![]),
        (vec![1], vec![0; most], vec![]),
        (vec![7], vec![2], vec![]),
        // Two digits of each row, or two joint columns and the two additions of J's table.
        (vec![255; most], vec![255; most], vec![]),
        // From two slots on there is a sheet with as many additions and fewer doublings.
        (vec![3], vec![0], vec![]),
        (vec![6], vec![11], vec![]),
        // 64 − 16 − 4 + 1, or 3 × 16 − 3 with 3 stored.
        (vec![45], vec![0], pays(&[(2, 2)])),
        (with_zeros(0), with_zeros(45), pays(&[(2, 2)])),
    ]
}

/// Scalars of bytes 1, which have a digit for each byte with every window. Jointly two of them are
/// one column, and two additions fill the table.
fn repeated_ones() -> Vec<Paying> {
    let pair = |bytes: usize, paying| (vec![1; bytes], vec![1; bytes], paying);
    vec![pair(1, vec![]), pair(2, vec![]), pair(3, pays(&[(2, 4)])), pair(66, pays(&[(2, 67)]))]
}

/// Scalars of bytes 2^n − 1 with a byte 0 before or behind each. That window, as any larger one, has
/// a digit for each such byte, and a smaller one two. It pays if there are more of them than it has
/// multiples: each of these takes an addition and a slot, and one slot is the working double's.
fn full_windows() -> Vec<Paying> {
    let mut pairs = Vec::new();
    for m in [3, 7, 15, 31] {
        let multiples = usize::from(m / 2);
        for bytes in [multiples, multiples + 1] {
            let (k, l) = ([0, m].repeat(bytes), [m, 0].repeat(bytes));
            let alone = (multiples + 1, multiples + bytes - 1);
            let first = (multiples + 1, multiples + 3 * bytes - 1);
            let both = (2 * multiples + 1, 2 * multiples + 2 * bytes - 1);
            let paying = |paying| if bytes > multiples { pays(paying) } else { vec![] };
            pairs.extend([
                (k.clone(), vec![0], paying(&[alone])),
                (vec![0], l.clone(), paying(&[alone])),
                (k, l, paying(&[first, both])),
            ]);
        }
    }
    pairs
}

/// How often a scalar that is made for a window holds it.
const HELD: usize = 33;

/// Two scalars for which plan I with these windows has fewer additions than any other plan: of bytes
/// m1 and of bytes m2 in turn. A smaller window has two digits or more for each of them, which is
/// more than its table saves, and a larger one has a larger table.
pub fn made_for(m1: u8, m2: u8) -> (Vec<u8>, Vec<u8>) {
    ([0, m1].repeat(HELD), [m2, 0].repeat(HELD))
}

/// Each plan I pays at the limit below its slots, and from there on no limit does.
fn every_window() -> Vec<(Call, Answer)> {
    let windows = row::windows().flat_map(|m1| row::windows().map(move |m2| (m1, m2)));
    let mut edges = Vec::new();
    for ((m1, m2), (ks, ls)) in windows.zip(every_two_signs().cycle()) {
        let (k, l) = made_for(m1, m2);
        let (k, l) = (Scalar::new(k, ks), Scalar::new(l, ls));
        let plan = Plan::Interleaved { m1, m2 };
        let (slots, additions) = (plan.slots(), plan.table_additions() + 2 * HELD - 1);
        let next = NextLimit { limit: slots, additions };
        let below = slots.checked_sub(1).map(|limit| (limit, Some(next)));
        for (limit, next) in below.into_iter().chain([(slots, None), (MOST_SLOTS as usize, None)]) {
            edges.push((call(&k, &l, limit as u32), Answer::NextLimit(next)));
        }
    }
    edges
}

/// The additions of J, of which there are more than a byte counts: 265 columns.
fn many_additions() -> [(Call, Answer); 2] {
    let dense = scalars::dense(Limits::Card);
    let (k, l) = (Scalar::plus(dense.clone()), Scalar::minus(dense));
    let next = NextLimit { limit: 2, additions: 266 };
    [0, 1].map(|limit| (call(&k, &l, limit), Answer::NextLimit(Some(next))))
}

/// A scalar of a length that is refused, with any limit; then the limits that are refused.
fn refusals() -> Vec<(Call, Answer)> {
    let most = Limits::Card.bytes();
    let lengths = [(0, 1), (1, 0), (0, 0), (most + 1, 1), (most, most + 1), (0, most + 1)];
    let limits = [0, MOST_SLOTS, 32, 255, 256, 65_536, u32::MAX];
    let mut edges = Vec::new();
    for (ks, ls) in every_two_signs() {
        let pair = |k, l| (Scalar::new(vec![7; k], ks), Scalar::new(vec![7; l], ls));
        for limit in limits {
            for (k, l) in lengths.map(|(k, l)| pair(k, l)) {
                edges.push((call(&k, &l, limit), refused(1)));
            }
        }
        let (k, l) = pair(most, 1);
        let too_high = limits.into_iter().filter(|&limit| limit > MOST_SLOTS);
        edges.extend(too_high.map(|limit| (call(&k, &l, limit), refused(4))));
    }
    edges
}

fn pays(limits: &[(usize, usize)]) -> Vec<NextLimit> {
    limits.iter().map(|&(limit, additions)| NextLimit { limit, additions }).collect()
}

fn refused(number: u32) -> Answer {
    Answer::refused(number, 0)
}

#[cfg(test)]
mod tests {
    use super::*;
    use crate::random::Random;

    fn some_pairs() -> Vec<(Big, Big)> {
        let mut random = Random::new(17);
        let small = (0..24 * 24).map(|pair| (Big::from(pair / 24), Big::from(-(pair % 24))));
        let long = (0..20).map(|_| scalars::random_pair(&mut random, Limits::Card));
        small.chain(long.map(|(k, l)| (k.value(), l.value()))).collect()
    }

    #[test]
    fn additions_are_those_counted_on_the_cheapest_sheets_and_never_grow() {
        for (k, l) in some_pairs() {
            let forms = Forms::of(k, l);
            let additions = additions(k, l);
            assert_eq!(additions.len(), 32);
            for (limit, &counted) in additions.iter().enumerate() {
                assert_eq!(counted, forms.cheapest_sheet(limit).additions());
            }
            assert!(additions.windows(2).all(|two| two[1] <= two[0]));
        }
    }

    #[test]
    fn the_next_limit_lets_in_the_first_plan_with_fewer_additions() {
        for (k, l) in some_pairs() {
            let forms = Forms::of(k, l);
            let additions = additions(k, l);
            let fewest = |limit| Plan::within(limit).map(|plan| forms.additions(plan)).min();
            for limit in 0..=MOST_SLOTS as usize {
                let here = fewest(limit);
                let fewer = Plan::all().filter(|&plan| Some(forms.additions(plan)) < here);
                let expected = fewer.map(Plan::slots).min().map(|slots| (slots, fewest(slots)));
                let found = next(&additions, limit).map(|next| (next.limit, Some(next.additions)));
                assert_eq!(found, expected);
            }
        }
    }

    #[test]
    fn scalars_made_for_a_plan_are_cheapest_by_it_alone() {
        for plan in Plan::all().filter(|&plan| plan != Plan::Joint) {
            let (m1, m2) = plan.windows();
            let (k, l) = made_for(m1, m2);
            let forms = Forms::of(Big::from_bytes(&k), Big::from_bytes(&l));
            let mut others = Plan::all().filter(|&other| other != plan);
            assert!(others.all(|other| forms.additions(plan) < forms.additions(other)));
        }
    }

    #[test]
    fn the_reference_agrees_at_every_edge() {
        for (call, answer) in edges() {
            assert_eq!(call.answer(Limits::Card), answer, "{call}");
        }
    }

    /// The call has the card's limits, whoever is asked.
    #[test]
    fn a_byte_more_than_the_card_takes_is_refused() {
        let (k, l) = (Scalar::plus([7]), Scalar::plus([7; 67]));
        for limits in Limits::BOTH {
            assert_eq!(call(&k, &l, 0).answer(limits), refused(1));
            assert_eq!(call(&l, &k, 32).answer(limits), refused(1));
            assert_eq!(call(&k, &k, 32).answer(limits), refused(4));
        }
    }
}
