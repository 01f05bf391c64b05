//! Joint columns packed: the byte of each counts the columns before it in the list of nine. And the
//! calls at the edges, each with its answer.

use crate::answer::Answer;
use crate::calls::Call;
use crate::joint::Pair;
use crate::random::Random;
use std::ops::RangeInclusive;

/// The columns of digits −1, 0 and 1, in the order of their bytes.
const COLUMNS: [Pair; 9] =
    [(-1, -1), (-1, 0), (-1, 1), (0, -1), (0, 0), (0, 1), (1, -1), (1, 0), (1, 1)];

/// The same columns as they are lent: their digits for k and for l, and their bytes.
const K_DIGITS: [u8; 9] = [255, 255, 255, 0, 0, 0, 1, 1, 1];
const L_DIGITS: [u8; 9] = [255, 0, 1, 255, 0, 1, 255, 0, 1];
const BYTES: [u8; 9] = [0, 1, 2, 3, 4, 5, 6, 7, 8];

/// Numbers of columns at the edges.
const SIZES: [usize; 6] = [1, 2, 9, 64, 529, 1_025];

/// Numbers of columns that no buffer has; the low half of some is small.
const TOO_MANY: [usize; 6] =
    [1 << 32, (1 << 32) + 5, 1 << 63, (1 << 63) + 5, usize::MAX - 1, usize::MAX];

/// The bytes of the columns of two rows, if all are among the nine.
pub fn pack(k_digits: &[u8], l_digits: &[u8]) -> Option<Vec<u8>> {
    k_digits.iter().zip(l_digits).map(|(&a, &b)| byte((a as i8, b as i8))).collect()
}

fn byte(column: Pair) -> Option<u8> {
    COLUMNS.iter().position(|&listed| listed == column).map(|before| before as u8)
}

/// The columns of these bytes, if each is the byte of one.
pub fn unpack(packed: &[u8]) -> Option<Vec<Pair>> {
    packed.iter().map(|&byte| COLUMNS.get(usize::from(byte)).copied()).collect()
}

/// Two rows that begin with so many random columns, and end in any bytes.
pub fn random_rows(random: &mut Random, columns: usize) -> [Vec<u8>; 2] {
    let list: Vec<usize> = (0..columns).map(|_| random.below(9)).collect();
    [K_DIGITS, L_DIGITS].map(|digits| {
        let past = random_past(random);
        let mut row: Vec<u8> = list.iter().map(|&column| digits[column]).collect();
        row.extend(random.bytes(past));
        row
    })
}

/// How much longer than its columns a row or a buffer is.
pub fn random_past(random: &mut Random) -> usize {
    random.pick(&[0, 0, 1, 2, 7, 64, 300])
}

/// Every two rows of three columns or fewer.
pub fn short_rows() -> Vec<[Vec<u8>; 2]> {
    let mut all = vec![[vec![], vec![]]];
    for shorter in 0..1 + 9 + 81 {
        for column in 0..9 {
            let [k_row, l_row] = &all[shorter];
            all.push([
                [&k_row[..], &[K_DIGITS[column]]].concat(),
                [&l_row[..], &[L_DIGITS[column]]].concat(),
            ]);
        }
    }
    all
}

/// A call whose rows and buffer may be a place too short, and may hold bad digits or bytes.
pub fn random_call(random: &mut Random) -> Call {
    let columns = random.between(0, 40);
    let length = |random: &mut Random| columns + random.pick(&[1, 1, 1, 1, 2, 9, 33, 0]);
    let lengths = [(); 3].map(|()| length(random).saturating_sub(1));
    let [k_places, l_places, room] = lengths;
    if random.once_in(2) {
        let k_row = spoiled(random, K_DIGITS, k_places);
        packing(columns, k_row, spoiled(random, L_DIGITS, l_places), room)
    } else {
        unpacking(columns, spoiled(random, BYTES, room), k_places, l_places)
    }
}

/// So many of these digits or bytes, and at two places or fewer any other byte.
fn spoiled(random: &mut Random, nine: [u8; 9], length: usize) -> Vec<u8> {
    let mut bytes: Vec<u8> = (0..length).map(|_| random.pick(&nine)).collect();
    for _ in 0..random.below(3).min(length) {
        let other = random.byte();
        bytes[random.below(length)] = random.pick(&[2, 8, 9, 127, 128, 254, other, other]);
    }
    bytes
}

/// The calls at the edges.
pub fn edges() -> Vec<(Call, Answer)> {
    let mut edges = too_many_columns();
    for columns in SIZES {
        edges.extend(short_buffers(columns));
        edges.extend(bad_digits(columns));
        edges.extend(bad_bytes(columns));
    }
    edges
}

fn too_many_columns() -> Vec<(Call, Answer)> {
    let lengths = [[0, 0, 0], [5, 5, 5], [1_025, 5, 9], [9, 1_025, 5]];
    let calls = TOO_MANY.into_iter().flat_map(|columns| {
        lengths.into_iter().flat_map(move |lengths| of_lengths(columns, lengths))
    });
    calls.map(|call| (call, refused(3))).collect()
}

/// Any row or buffer may be the short one, and any number of them.
fn short_buffers(columns: usize) -> Vec<(Call, Answer)> {
    let mut edges = Vec::new();
    for short in [columns - 1, 0] {
        for choice in 1..8 {
            let length = |i: usize| if choice >> i & 1 == 1 { short } else { columns };
            let calls = of_lengths(columns, [length(0), length(1), length(2)]);
            edges.extend(calls.map(|call| (call, refused(3))));
        }
    }
    edges
}

/// Calls with rows and a buffer of these lengths: without a bad digit or byte, and with one.
fn of_lengths(columns: usize, [k_places, l_places, room]: [usize; 3]) -> [Call; 5] {
    let (k_row, l_row) = (repeated(K_DIGITS, k_places), repeated(L_DIGITS, l_places));
    let packed = repeated(BYTES, room);
    [
        packing(columns, k_row.clone(), l_row.clone(), room),
        packing(columns, with(&k_row, 0, 2), l_row.clone(), room),
        packing(columns, k_row, with(&l_row, 0, 254), room),
        unpacking(columns, packed.clone(), k_places, l_places),
        unpacking(columns, with(&packed, 0, 9), k_places, l_places),
    ]
}

/// Each bad digit in either row and in both: refused at a column, and not past the last.
fn bad_digits(columns: usize) -> Vec<(Call, Answer)> {
    let packed = Answer::Packed(repeated(BYTES, columns));
    let mut edges = Vec::new();
    for (bad, place) in bad_places(2..=254, columns) {
        let answer = if place < columns { refused(12) } else { packed.clone() };
        let length = columns.max(place + 1);
        let (k_row, l_row) = (repeated(K_DIGITS, length), repeated(L_DIGITS, length));
        let (bad_k, bad_l) = (with(&k_row, place, bad), with(&l_row, place, bad));
        for (k_row, l_row) in [(bad_k.clone(), l_row), (k_row, bad_l.clone()), (bad_k, bad_l)] {
            edges.push((packing(columns, k_row, l_row, columns + 1), answer.clone()));
        }
    }
    edges
}

/// Each bad byte: refused at a column, and not past the last.
fn bad_bytes(columns: usize) -> Vec<(Call, Answer)> {
    let digits = |row| repeated(row, columns).into_iter().map(|digit| digit as i8).collect();
    let unpacked = Answer::Unpacked(digits(K_DIGITS), digits(L_DIGITS));
    let edge = |(bad, place): (u8, usize)| {
        let answer = if place < columns { refused(12) } else { unpacked.clone() };
        let packed = with(&repeated(BYTES, columns.max(place + 1)), place, bad);
        (unpacking(columns, packed, columns + 1, columns + 2), answer)
    };
    bad_places(9..=255, columns).map(edge).collect()
}

/// Each of these bytes at the first, a middle and the last column, and past the last.
fn bad_places(bad: RangeInclusive<u8>, columns: usize) -> impl Iterator<Item = (u8, usize)> {
    let places = [0, columns / 2, columns - 1, columns];
    bad.flat_map(move |bad| places.map(|place| (bad, place)))
}

fn repeated(nine: [u8; 9], length: usize) -> Vec<u8> {
    nine.into_iter().cycle().take(length).collect()
}

/// The bytes with another at a place, if they have that place.
fn with(bytes: &[u8], place: usize, byte: u8) -> Vec<u8> {
    let mut bytes = bytes.to_vec();
    if let Some(at) = bytes.get_mut(place) {
        *at = byte;
    }
    bytes
}

fn packing(columns: usize, k_digits: Vec<u8>, l_digits: Vec<u8>, room: usize) -> Call {
    Call::Pack { columns, k_digits, l_digits, room }
}

fn unpacking(columns: usize, packed: Vec<u8>, k_places: usize, l_places: usize) -> Call {
    Call::Unpack { columns, packed, k_places, l_places }
}

fn refused(number: u32) -> Answer {
    Answer::refused(number, 0)
}

#[cfg(test)]
mod tests {
    use super::*;
    use crate::limits::Limits;

    #[test]
    fn the_byte_of_a_column_is_as_printed() {
        for (a, b) in COLUMNS {
            let printed = (3 * (a + 1) + (b + 1)) as u8;
            assert_eq!(pack(&[a as u8], &[b as u8]), Some(vec![printed]));
            assert_eq!(unpack(&[printed]), Some(vec![(a, b)]));
        }
        assert_eq!(pack(&K_DIGITS, &L_DIGITS), Some(BYTES.to_vec()));
    }

    #[test]
    fn no_other_digit_and_no_other_byte_is_taken() {
        let is_digit = |byte| [255, 0, 1].contains(&byte);
        for byte in 0..=255 {
            assert_eq!(unpack(&[4, byte]).is_some(), byte <= 8);
            for other in 0..=255 {
                let taken = is_digit(byte) && is_digit(other);
                assert_eq!(pack(&[0, byte], &[0, other]).is_some(), taken);
            }
        }
    }

    #[test]
    fn short_rows_are_all_different() {
        let mut rows = short_rows();
        assert_eq!(rows.len(), 1 + 9 + 81 + 729);
        rows.sort();
        rows.dedup();
        assert_eq!(rows.len(), 1 + 9 + 81 + 729);
    }

    #[test]
    fn the_reference_agrees_at_every_edge() {
        for (call, answer) in edges() {
            assert_eq!(call.answer(Limits::Card), answer, "{call}");
        }
    }
}
