//! The dearest scalar of a size: the smallest below 2^bits whose row for window 1 has the most
//! digits that are not 0. It is found by the least scalar of every weight among all lists of digits,
//! and where the size is small by the rows of all scalars.

use crate::answer::Answer;
use crate::big::Big;
use crate::calls::Call;
use crate::limits::Limits;
use crate::random::Random;
use crate::row;
use crate::scalars::{self, Scalar};

/// The bytes that the scalar fills.
pub const BYTES: usize = 66;

/// A scalar, and how many digits of its row for window 1 are not 0.
#[derive(Clone, Copy, PartialEq, Eq, Debug)]
pub struct Dearest {
    pub scalar: Big,
    pub most: usize,
}

/// The least scalar of every weight, from 0 on.
///
/// A row for window 1 is a list of digits −1, 0 and 1 in which no two neighbours are both other than
/// 0, and each such list without a 0 at the top is the row of its value. With 1 at the top that is
/// above zero, as the digits below come to less, and with −1 below zero. So the least scalar of a
/// weight is the least value of the lists that have it and 1 at the top.
pub struct LeastScalars(Vec<Big>);

impl LeastScalars {
    /// Among the scalars whose rows have so many places or fewer.
    pub fn of_places(places: usize) -> LeastScalars {
        let mut scalars = vec![Big::ZERO];
        // By weight the least values, below zero too, of all lists over the places so far, and of
        // those over one place fewer: below the next place, if its digit is not 0, there is a 0.
        let (mut lists, mut shorter) = (vec![Big::ZERO], vec![Big::ZERO]);
        let mut power = Big::from(1);
        for _ in 0..places {
            let mut longer = lists.clone();
            for (weight, value) in (1..).zip(&shorter) {
                let (plus, minus) = (value.sum(power), value.sum(power.negated()));
                keep_least(&mut scalars, weight, plus);
                keep_least(&mut longer, weight, plus);
                keep_least(&mut longer, weight, minus);
            }
            (lists, shorter) = (longer, lists);
            power = power.doubled();
        }
        LeastScalars(scalars)
    }

    /// The least scalar of the heaviest weight of which there is one below 2^bits.
    pub fn dearest(&self, bits: u32) -> Dearest {
        let is_of_size = |scalar: &Big| scalar.bit_length() <= bits as usize;
        let most = self.0.iter().rposition(is_of_size).expect("zero is of every size");
        Dearest { scalar: self.0[most], most }
    }
}

/// Keeps the value for its weight if none is less. The weights come up in order.
fn keep_least(values: &mut Vec<Big>, weight: usize, value: Big) {
    match values.get_mut(weight) {
        Some(least) => *least = value.min(*least),
        None => values.push(value),
    }
}

/// The dearest scalar of so many bits. A row has at most one place more.
pub fn of_size(bits: u32) -> Dearest {
    LeastScalars::of_places(bits as usize + 1).dearest(bits)
}

/// The same by the rows of all scalars of the size.
pub fn by_search(bits: u32) -> Dearest {
    let mut dearest = Dearest { scalar: Big::ZERO, most: 0 };
    for scalar in (0..1 << bits).map(Big::from) {
        let weight = row::weight(&row::recode(scalar, 1));
        if weight > dearest.most {
            dearest = Dearest { scalar, most: weight };
        }
    }
    dearest
}

/// All sizes that are taken.
pub fn sizes() -> impl Iterator<Item = u32> {
    1..=528
}

/// The call for the dearest scalar.
pub fn call(bits: u32, room: usize) -> Call {
    Call::Dearest { bits, room }
}

/// A scalar below this one, which is not zero, by a number of any length, with a random sign.
pub fn random_smaller(random: &mut Random, scalar: Big) -> Scalar {
    let bits = random.below(scalar.bit_length());
    let less = scalars::random_of_bits(random, bits).value().size().plus(1);
    scalars::signed(random, scalar.sum(less.negated()).to_bytes(BYTES))
}

/// A scalar below 2^bits with as many digits as there is place for, or one fewer, with a random
/// sign: 1 or −1 at every second place.
pub fn random_heavy(random: &mut Random, bits: u32) -> Scalar {
    let bits = bits as usize;
    let mut digits = vec![0; bits + 1];
    let lowest = random.below(2);
    for digit in digits[lowest..].iter_mut().step_by(2) {
        *digit = random.pick(&[-1, 1]);
    }
    while row::value(&digits).bit_length() > bits {
        digits.pop();
    }
    scalars::signed(random, row::value(&digits).size().to_bytes(BYTES))
}

/// The calls at the edges.
pub fn edges() -> Vec<(Call, Answer)> {
    let mut edges = refusals();
    for (bits, scalar, most) in known() {
        let scalar = Big::from_bytes(&scalar);
        edges.push((call(bits, BYTES), Answer::Dearest(Dearest { scalar, most })));
    }
    edges
}

/// Sizes, each with its scalar and the most digits.
fn known() -> Vec<(u32, Vec<u8>, usize)> {
    let every_second =
        |top: u8, bytes: usize| [&[top][..], &vec![0xaa; bytes - 2], &[0xab]].concat();
    vec![
        (1, vec![1], 1),
        // 4 − 1.
        (2, vec![3], 2),
        (3, vec![3], 2),
        // 16 − 4 − 1.
        (4, vec![11], 3),
        (5, vec![11], 3),
        // 64 − 16 − 4 − 1.
        (6, vec![43], 4),
        (7, vec![43], 4),
        (8, vec![0xab], 5),
        (9, vec![0xab], 5),
        (10, vec![2, 0xab], 6),
        (255, every_second(0x2a, 32), 128),
        (256, every_second(0xaa, 32), 129),
        (257, every_second(0xaa, 32), 129),
        (258, every_second(2, 33), 130),
        (526, every_second(0x2a, 66), 264),
        (527, every_second(0x2a, 66), 264),
        (528, scalars::dense(Limits::Card), 265),
    ]
}

/// A size that is refused with any room; then the rooms that are refused with every size.
fn refusals() -> Vec<(Call, Answer)> {
    let mut edges = Vec::new();
    for bits in refused_sizes() {
        for room in [0, 1, 65, BYTES, 67, 132] {
            edges.push((call(bits, room), refused(15)));
        }
    }
    let rooms = refused_rooms();
    for bits in sizes() {
        edges.extend(rooms.iter().map(|&room| (call(bits, room), refused(3))));
    }
    edges
}

/// Sizes next to those that are taken, and larger ones whose lowest bits may be such a size.
fn refused_sizes() -> Vec<u32> {
    let mut sizes = vec![0, u32::MAX];
    sizes.extend(529..1_024);
    sizes.extend((10..32).flat_map(|place| [0, 1, 5, 528].map(|low| (1 << place) + low)));
    sizes
}

/// Rooms up to twice the one that is taken, and larger ones, of which most have it for their lowest
/// bits.
fn refused_rooms() -> Vec<usize> {
    let mut rooms: Vec<usize> = (0..=2 * BYTES).filter(|&room| room != BYTES).collect();
    rooms.extend((7..=16).map(|place| (1 << place) + BYTES));
    rooms.push(Limits::Card.sheet());
    rooms
}

fn refused(number: u32) -> Answer {
    Answer::refused(number, 0)
}

#[cfg(test)]
mod tests {
    use super::*;
    use crate::direction::Direction;

    #[test]
    fn the_search_over_all_rows_finds_the_same() {
        let all = LeastScalars::of_places(Limits::Card.places());
        for bits in 1..=16 {
            assert_eq!(of_size(bits), by_search(bits));
            assert_eq!(all.dearest(bits), by_search(bits));
        }
    }

    #[test]
    fn the_least_scalar_of_a_weight_is_the_first_that_has_it() {
        let LeastScalars(least) = LeastScalars::of_places(17);
        let weight = |scalar: &Big| row::weight(&row::recode(*scalar, 1));
        let mut first = vec![None; least.len()];
        for scalar in (0..1 << 16).map(Big::from) {
            first[weight(&scalar)].get_or_insert(scalar);
        }
        for (weight, least) in least.into_iter().enumerate() {
            assert_eq!(first[weight], Some(least));
        }
    }

    #[test]
    fn the_dearest_scalar_is_of_the_size_and_has_the_weight() {
        let all = LeastScalars::of_places(Limits::Card.places());
        for bits in sizes() {
            let Dearest { scalar, most } = all.dearest(bits);
            assert!(scalar.bit_length() <= bits as usize);
            for direction in Direction::BOTH {
                assert_eq!(row::weight(&direction.row(scalar, 1)), most);
            }
        }
    }

    #[test]
    fn more_places_than_a_row_of_the_size_has_change_nothing() {
        let all = LeastScalars::of_places(Limits::Card.places());
        for bits in sizes().step_by(31) {
            assert_eq!(of_size(bits), all.dearest(bits));
        }
    }

    #[test]
    fn smaller_scalars_are_smaller_and_heavy_ones_of_the_size() {
        let mut random = Random::new(22);
        let all = LeastScalars::of_places(Limits::Card.places());
        for bits in sizes() {
            let Dearest { scalar, most } = all.dearest(bits);
            let smaller = random_smaller(&mut random, scalar);
            assert!(smaller.value().size() < scalar);
            let heavy = random_heavy(&mut random, bits).value();
            assert!(heavy.bit_length() <= bits as usize);
            let weight = row::weight(&row::recode(heavy, 1));
            assert!(weight == most || weight + 1 == most);
        }
    }

    #[test]
    fn the_reference_agrees_at_every_edge() {
        for (call, answer) in edges() {
            assert_eq!(call.answer(Limits::Card), answer, "{call}");
        }
    }

    /// The call has the card's limits, whoever is asked.
    #[test]
    fn a_size_and_a_room_of_the_gateway_are_refused() {
        for limits in Limits::BOTH {
            assert_eq!(call(1_024, 128).answer(limits), refused(15));
            assert_eq!(call(528, 128).answer(limits), refused(3));
            assert_eq!(call(8, 66).answer(limits), call(8, 66).answer(Limits::Card));
        }
    }
}
