//! Scalars of many kinds, in as many bytes as the limits allow, with a sign.

use crate::big::Big;
use crate::limits::Limits;
use crate::random::Random;

/// Plus, and four of the numbers that are minus.
pub const SIGNS: [u32; 5] = [0, 1, 2, 256, u32::MAX];

/// Every two of these signs, one for each scalar.
pub fn every_two_signs() -> impl Iterator<Item = (u32, u32)> + Clone {
    SIGNS.into_iter().flat_map(|ks| SIGNS.map(|ls| (ks, ls)))
}

/// A scalar as a call takes it.
#[derive(Clone, PartialEq, Eq, Debug)]
pub struct Scalar {
    /// The most significant byte first.
    pub bytes: Vec<u8>,
    /// 0 for plus, any other number for minus.
    pub sign: u32,
}

impl Scalar {
    pub fn new(bytes: impl Into<Vec<u8>>, sign: u32) -> Scalar {
        Scalar { bytes: bytes.into(), sign }
    }

    pub fn plus(bytes: impl Into<Vec<u8>>) -> Scalar {
        Scalar::new(bytes, 0)
    }

    pub fn minus(bytes: impl Into<Vec<u8>>) -> Scalar {
        Scalar::new(bytes, 1)
    }

    /// These bytes with another sign.
    #[must_use]
    pub fn with_sign(&self, sign: u32) -> Scalar {
        Scalar::new(self.bytes.clone(), sign)
    }

    /// The number that the bytes and the sign mean.
    pub fn value(&self) -> Big {
        let size = Big::from_bytes(&self.bytes);
        if self.sign == 0 {
            size
        } else {
            size.negated()
        }
    }
}

/// The bytes with a random sign.
pub fn signed(random: &mut Random, bytes: impl Into<Vec<u8>>) -> Scalar {
    Scalar::new(bytes, random_sign(random))
}

/// Plus half of the times; else a minus, often one with a single bit.
fn random_sign(random: &mut Random) -> u32 {
    match random.below(4) {
        0 | 1 => 0,
        2 => random.pick(&SIGNS[1..]),
        _ => 1 << random.below(32),
    }
}

/// A scalar of a random kind and length, with a random sign.
pub fn random(random: &mut Random, limits: Limits) -> Scalar {
    let bytes = random_bytes(random, limits);
    signed(random, bytes)
}

/// A scalar of a random kind in so many bytes, with a random sign.
pub fn random_of_length(random: &mut Random, bytes: usize) -> Scalar {
    let bytes = bytes_of_length(random, bytes);
    signed(random, bytes)
}

/// A scalar of a random kind below 2^bits in the fewest bytes, with a random sign.
pub fn random_of_bits(random: &mut Random, bits: usize) -> Scalar {
    let mask = ones(0, bits);
    let bytes = bytes_of_length(random, mask.len());
    let below: Vec<u8> = bytes.iter().zip(mask).map(|(byte, mask)| byte & mask).collect();
    signed(random, below)
}

fn random_bytes(random: &mut Random, limits: Limits) -> Vec<u8> {
    let bytes = match random.below(4) {
        0 => random.between(1, 4),
        1 => limits.bytes(),
        _ => random.between(1, limits.bytes()),
    };
    bytes_of_length(random, bytes)
}

fn bytes_of_length(random: &mut Random, bytes: usize) -> Vec<u8> {
    match random.below(8) {
        0 | 1 => random.bytes(bytes),
        2 => runs(random, bytes),
        3 => words(random, bytes),
        4 => sparse(random, bytes, 0),
        5 => sparse(random, bytes, 255),
        6 => vec![random.byte(); bytes],
        _ => with_leading_zeros(random, bytes),
    }
}

/// Long runs of ones and of zeros.
fn runs(random: &mut Random, bytes: usize) -> Vec<u8> {
    let mut scalar = vec![0; bytes];
    let (mut place, mut ones) = (0, random.once_in(2));
    while place < 8 * bytes {
        let end = (place + random.between(1, 100)).min(8 * bytes);
        if ones {
            (place..end).for_each(|bit| flip(&mut scalar, bit));
        }
        (place, ones) = (end, !ones);
    }
    scalar
}

/// Words of four bytes, all ones or all zeros, from the lowest up.
fn words(random: &mut Random, bytes: usize) -> Vec<u8> {
    let mut scalar = vec![0; bytes];
    for word in scalar.rchunks_mut(4) {
        word.fill(random.pick(&[0, 255]));
    }
    scalar
}

/// All bytes alike, but for a few bits.
fn sparse(random: &mut Random, bytes: usize, byte: u8) -> Vec<u8> {
    let mut scalar = vec![byte; bytes];
    for _ in 0..random.below(6) {
        flip(&mut scalar, random.below(8 * bytes));
    }
    scalar
}

fn with_leading_zeros(random: &mut Random, bytes: usize) -> Vec<u8> {
    let mut scalar = random.bytes(bytes);
    scalar[..random.below(bytes + 1)].fill(0);
    scalar
}

/// Flips the bit at a place.
fn flip(scalar: &mut [u8], place: usize) {
    let byte = scalar.len() - 1 - place / 8;
    scalar[byte] ^= 1 << (place % 8);
}

/// Two scalars, independent or akin, each with a random sign.
pub fn random_pair(random: &mut Random, limits: Limits) -> (Scalar, Scalar) {
    let k = random_bytes(random, limits);
    let l = match random.below(8) {
        0 => k.clone(),
        1 => k.iter().map(|byte| !byte).collect(),
        2 => half(&k),
        3 => vec![0; random.between(1, limits.bytes())],
        4 => bytes_of_length(random, k.len()),
        _ => random_bytes(random, limits),
    };
    let (k, l) = (signed(random, k), signed(random, l));
    if random.once_in(2) {
        (k, l)
    } else {
        (l, k)
    }
}

/// Half of the scalar, rounded down, in as many bytes.
fn half(scalar: &[u8]) -> Vec<u8> {
    let mut carry = 0;
    let halve = |&byte: &u8| {
        let halved = byte >> 1 | carry << 7;
        carry = byte & 1;
        halved
    };
    scalar.iter().map(halve).collect()
}

/// Zero, one, all ones, the top bit, and random kinds, in every length from 1 byte on.
pub fn of_every_length(random: &mut Random, limits: Limits) -> Vec<Vec<u8>> {
    let mut scalars = Vec::new();
    for bytes in 1..=limits.bytes() {
        let zero = vec![0; bytes];
        let (mut one, mut top) = (zero.clone(), zero.clone());
        flip(&mut one, 0);
        flip(&mut top, 8 * bytes - 1);
        scalars.extend([zero, one, top, vec![255; bytes]]);
        scalars.extend((0..4).map(|_| bytes_of_length(random, bytes)));
    }
    scalars
}

/// The powers of two and their neighbours, each in the fewest bytes.
pub fn around_powers_of_two(limits: Limits) -> Vec<Vec<u8>> {
    let mut scalars = Vec::new();
    for place in 0..8 * limits.bytes() {
        let mut power = vec![0; place / 8 + 1];
        flip(&mut power, place);
        let mut above = power.clone();
        above[place / 8] |= 1;
        scalars.extend([ones(0, place), power, above]);
    }
    scalars
}

/// Ones from one place to below another, in the fewest bytes.
pub fn ones(from: usize, to: usize) -> Vec<u8> {
    let mut scalar = vec![0; to.div_ceil(8).max(1)];
    (from..to).for_each(|place| flip(&mut scalar, place));
    scalar
}

/// All ones, or every second bit, below a place: in the fewest bytes, and in the most.
pub fn patterned(limits: Limits) -> Vec<Vec<u8>> {
    let bits = 8 * limits.bytes();
    let all_ones = [0, 1, 2, 3, 8, 31, 32, 33, 64, 256, bits].map(|places| (255, places));
    let every_second = [(85, 256), (170, 256), (85, bits - 1), (170, bits)];
    let mut scalars = Vec::new();
    for (pattern, places) in all_ones.into_iter().chain(every_second) {
        let fewest: Vec<u8> = ones(0, places).iter().map(|byte| byte & pattern).collect();
        let most = [vec![0; limits.bytes() - fewest.len()], fewest.clone()].concat();
        scalars.extend([fewest, most]);
    }
    scalars
}

/// Scalars about as long as the card or the gateway takes, and within the limits: all ones, each
/// second bit, one bit, and ones over the borders of 32-bit words.
pub fn longest(limits: Limits) -> Vec<Vec<u8>> {
    let lengths = [65, 66, 67, 127, 128].into_iter().filter(|&bytes| bytes <= limits.bytes());
    let of_length = |bytes: usize| {
        let top = 8 * bytes;
        let words = [32, 64, 288, 512, top - 32, top - 64];
        let single = [0, 31, 32, 33, 63, 64, top - 33, top - 32, top - 1];
        let runs =
            words.into_iter().flat_map(|word| [(word - 1, top), (1, word + 1), (word, top - 1)]);
        let runs =
            runs.chain([(0, top - 1), (1, top)]).chain(single.map(|place| (place, place + 1)));
        let mut scalars = [0xff, 0x55, 0xaa].map(|byte| vec![byte; bytes]).to_vec();
        scalars.extend(runs.map(|(from, to)| {
            let ones = ones(from, to);
            [vec![0; bytes - ones.len()], ones].concat()
        }));
        scalars
    };
    lengths.flat_map(of_length).collect()
}

/// A scalar whose row for window 1 has as many digits that are not 0 as any: every second one, from
/// place 0 to the last.
pub fn dense(limits: Limits) -> Vec<u8> {
    let mut scalar = vec![0xaa; limits.bytes()];
    flip(&mut scalar, 0);
    scalar
}

/// Two scalars whose joint form has two columns that are not zero in every three: all but those at
/// places 2, 5, 8 and so on.
pub fn dense_pair(limits: Limits) -> (Vec<u8>, Vec<u8>) {
    let every_third = |first: usize| {
        let mut scalar = vec![0; limits.bytes()];
        (first..8 * limits.bytes()).step_by(3).for_each(|place| flip(&mut scalar, place));
        scalar
    };
    (every_third(0), every_third(1))
}

#[cfg(test)]
mod tests {
    use super::*;

    fn value(bytes: &[u8]) -> Big {
        Big::from_bytes(bytes)
    }

    #[test]
    fn lengths_are_within_the_limits() {
        let mut generator = Random::new(7);
        for limits in Limits::BOTH {
            let mut lengths = (0..2000).map(|_| random(&mut generator, limits).bytes.len());
            assert!(lengths.all(|bytes| (1..=limits.bytes()).contains(&bytes)));
        }
    }

    #[test]
    fn scalars_of_so_many_bits_have_no_more_and_some_have_all() {
        let mut generator = Random::new(9);
        for bits in 0..=528 {
            let scalars = (0..100).map(|_| random_of_bits(&mut generator, bits));
            let lengths = scalars.map(|scalar| {
                assert_eq!(scalar.bytes.len(), bits.div_ceil(8).max(1));
                scalar.value().bit_length()
            });
            assert_eq!(lengths.max(), Some(bits));
        }
    }

    #[test]
    fn the_longest_are_of_the_lengths_at_the_limits() {
        let of_length = |limits, bytes| {
            longest(limits).into_iter().filter(|scalar| scalar.len() == bytes).count()
        };
        let counts = |limits| [65, 66, 67, 127, 128].map(|bytes| of_length(limits, bytes));
        assert_eq!(counts(Limits::Card), [32, 32, 0, 0, 0]);
        assert_eq!(counts(Limits::Gateway), [32; 5]);
        assert!(longest(Limits::Gateway).contains(&ones(31, 528)));
        assert!(longest(Limits::Gateway).contains(&vec![255; 128]));
    }

    #[test]
    fn dense_pairs_are_the_three_bytes_over_and_over() {
        let (k, l) = dense_pair(Limits::Card);
        assert_eq!((k, l), ([0x24, 0x92, 0x49].repeat(22), [0x49, 0x24, 0x92].repeat(22)));
    }

    #[test]
    fn every_sign_but_0_is_minus() {
        for sign in SIGNS {
            let expected = if sign == 0 { 0x107 } else { -0x107 };
            assert_eq!(Scalar::new([1, 7], sign).value(), Big::from(expected));
            assert_eq!(Scalar::new([0; 128], sign).value(), Big::ZERO);
        }
        assert_eq!(Scalar::minus([7]).value(), Scalar::plus([7]).value().negated());
    }

    #[test]
    fn all_pairs_of_signs_and_every_bit_of_a_sign_come_up() {
        let mut generator = Random::new(8);
        let (mut pairs, mut bits) = ([0; 4], 0);
        for _ in 0..2000 {
            let (k, l) = random_pair(&mut generator, Limits::Card);
            pairs[usize::from(k.sign != 0) * 2 + usize::from(l.sign != 0)] += 1;
            bits |= if k.sign.is_power_of_two() { k.sign } else { 0 };
        }
        assert!(pairs.iter().all(|&count| count > 400));
        assert_eq!(bits, u32::MAX);
    }

    #[test]
    fn neighbours_of_powers() {
        let scalars = around_powers_of_two(Limits::Gateway);
        assert_eq!(scalars.len(), 3 * 1_024);
        for (place, three) in scalars.chunks(3).enumerate() {
            assert_eq!(value(&three[1]).bit_length(), place + 1);
            assert_eq!(value(&three[0]).plus(1), value(&three[1]));
            let above = if place == 0 { 0 } else { 1 };
            assert_eq!(value(&three[1]).plus(above), value(&three[2]));
        }
    }

    #[test]
    fn patterns() {
        let scalars = patterned(Limits::Gateway);
        assert_eq!(scalars.len(), 30);
        for two in scalars.chunks(2) {
            assert_eq!(value(&two[0]), value(&two[1]));
            assert_eq!(two[1].len(), 128);
        }
        assert_eq!(scalars[10], [0x7f, 255, 255, 255]);
        assert_eq!(scalars[22], [0x55; 32]);
    }

    #[test]
    fn halves() {
        assert_eq!(half(&[3, 2]), [1, 129]);
        assert_eq!(half(&[0]), [0]);
    }
}
