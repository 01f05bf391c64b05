//! The samples that the scope document and the source documents print, each as a call and the
//! answer it names.

use crate::answer::Answer;
use crate::calls::Call;
use crate::direction::Direction;
use crate::limits::Limits;
use crate::scalars::Scalar;

/// What a sample says of the answer to its call.
pub enum Says {
    Whole(Answer),
    /// The length of a row.
    Places(usize),
    /// The first line of a sheet.
    Header(&'static str),
    /// Any answer but a refusal.
    Passes,
}

impl Says {
    /// Is the sample true of the answer?
    pub fn holds_of(&self, answer: &Answer) -> bool {
        match (self, answer) {
            (Says::Whole(whole), _) => whole == answer,
            (Says::Places(places), Answer::Row(digits)) => digits.len() == *places,
            (Says::Header(header), Answer::Sheet { bytes, .. }) => {
                bytes.starts_with(format!("{header}\n").as_bytes())
            }
            (Says::Passes, _) => !matches!(answer, Answer::Refused(_)),
            _ => false,
        }
    }
}

pub const SEVEN_AND_TWO: &str = "S,I,1,1,0,2,3,7,2\nL,1,0\nD\nD\nA,0,1\nD\nA,-1,0\nE\n";

/// The samples; those of the bounds, and sheet buffers, are of these limits.
pub fn all(limits: Limits) -> Vec<(Call, Says)> {
    let mut samples = rows();
    samples.extend(joint_forms());
    samples.extend(codes());
    samples.extend(bounds(limits));
    samples.extend(orders(limits.sheet()));
    samples.extend(printed_rows());
    samples.extend(printed_joint_forms());
    samples
}

fn rows() -> Vec<(Call, Says)> {
    let sample = |scalar, m, digits: &[i8]| {
        (row(vec![scalar], m), Says::Whole(Answer::Row(digits.to_vec())))
    };
    vec![
        sample(0, 1, &[]),
        sample(7, 5, &[-1, 0, 0, 1]),
        sample(9, 5, &[1, 0, 0, 1]),
        sample(9, 7, &[-7, 0, 0, 0, 1]),
        sample(33, 31, &[-31, 0, 0, 0, 0, 0, 1]),
        sample(53, 3, &[-3, 0, 0, -1, 0, 0, 1]),
    ]
}

fn joint_forms() -> Vec<(Call, Says)> {
    let sample = |k, l, k_row: &[i8], l_row: &[i8]| {
        let (k, l) = (Scalar::plus([k]), Scalar::plus([l]));
        let call = Call::Joint { k, l, k_places: 9, l_places: 9 };
        (call, Says::Whole(Answer::Columns(k_row.to_vec(), l_row.to_vec())))
    };
    vec![
        sample(13, 10, &[-1, -1, 0, 0, 1], &[0, 1, 0, 1, 0]),
        sample(7, 2, &[-1, 0, 0, 1], &[0, 1, 0, 0]),
        sample(3, 2, &[1, 1], &[0, 1]),
        sample(1, 2, &[1, 0], &[0, 1]),
    ]
}

/// The joint forms that turn a sign, and one that does not, with their codes worked out by hand.
fn codes() -> Vec<(Call, Says)> {
    let sample = |k, l, k_row: &[i8], k_codes: &[u8], l_row: &[i8], l_codes: &[u8]| {
        let (k, l) = (Scalar::plus([k]), Scalar::plus([l]));
        let call = Call::JointCodes { k, l, rooms: [9; 4] };
        let (k_row, l_row) = (k_row.to_vec(), l_row.to_vec());
        let (k_codes, l_codes) = (k_codes.to_vec(), l_codes.to_vec());
        (call, Says::Whole(Answer::Coded { k_row, l_row, k_codes, l_codes }))
    };
    vec![
        sample(13, 10, &[-1, -1, 0, 0, 1], &[2, 1, 0, 0, 1], &[0, 1, 0, 1, 0], &[0, 1, 0, 1, 0]),
        sample(7, 2, &[-1, 0, 0, 1], &[1, 0, 0, 1], &[0, 1, 0, 0], &[0, 1, 0, 0]),
        sample(3, 2, &[1, 1], &[2, 1], &[0, 1], &[0, 1]),
    ]
}

fn bounds(limits: Limits) -> Vec<(Call, Says)> {
    let refused = |number| Says::Whole(Answer::refused(number, 0));
    let (bytes, room) = (limits.bytes(), limits.sheet());
    vec![
        (row(vec![255; bytes], 1), Says::Places(limits.places())),
        (row(vec![255; bytes + 1], 1), refused(1)),
        (row(vec![], 1), refused(1)),
        (row(vec![5], 31), Says::Passes),
        (row(vec![5], 0), refused(2)),
        (row(vec![5], 4), refused(2)),
        (row(vec![5], 33), refused(2)),
        (cheapest(5, 6, 31, room), Says::Passes),
        (cheapest(5, 6, 32, room), refused(4)),
        (cheapest(5, 6, 31, room - 1), refused(3)),
        (Call::Read { sheet: vec![b'D'; room + 1] }, refused(5)),
    ]
}

fn orders(room: usize) -> Vec<(Call, Says)> {
    let seven_and_two = Answer::Sheet { bytes: SEVEN_AND_TWO.as_bytes().to_vec(), additions: 2 };
    vec![
        (cheapest(3, 0, 1, room), Says::Header("S,I,1,1,0,1,2,3,0")),
        (cheapest(3, 0, 2, room), Says::Header("S,I,3,1,2,1,1,3,0")),
        (cheapest(7, 2, 0, room), Says::Whole(seven_and_two)),
    ]
}

/// The finished width-w rows that source documents 002, chapter 5, and 003 print, and the row from
/// the top down of 000, section 5.1.3, as there with the top digit first. Width w is window
/// 2^(w−1) − 1.
fn printed_rows() -> Vec<(Call, Says)> {
    let whole = |printed: &[i8]| Says::Whole(Answer::Row(from_place_0(printed)));
    let sample = |scalar: &[u8], m, printed: &[i8]| (row(scalar.to_vec(), m), whole(printed));
    let down = |scalar: &[u8], m, printed: &[i8]| {
        (row_by(Direction::Down, scalar.to_vec(), m), whole(printed))
    };
    vec![
        // 000: the example with m = 5.
        down(&22_369_u16.to_be_bytes(), 5, &[5, 1, 0, 0, 0, 0, 0, -5, 0, 0, 0, 0, 1]),
        // 002: example 5.5, w = 3; example 5.10, the last line, which is non-adjacent.
        sample(&619_u16.to_be_bytes(), 3, &[1, 0, 0, -3, 0, 0, 0, -3, 0, 0, 3]),
        sample(&731_u16.to_be_bytes(), 1, &[1, 0, -1, 0, 0, -1, 0, 0, -1, 0, -1]),
        // 003: example 4.2; example 4.3, w = 3 and w = 4; example 4.4, w = 4.
        sample(&[53], 1, &[1, 0, -1, 0, 1, 0, 1]),
        sample(&[53], 3, &[1, 0, 0, -1, 0, 0, -3]),
        sample(&[53], 7, &[3, 0, 0, 0, 5]),
        sample(&[42], 7, &[1, 0, 0, 0, 5, 0]),
    ]
}

/// The finished joint form of two scalars that source document 003 prints in example 4.7, as there
/// with the top column first.
fn printed_joint_forms() -> Vec<(Call, Says)> {
    let (k, l) = (Scalar::plus([53]), Scalar::plus([42]));
    let call = Call::Joint { k, l, k_places: 9, l_places: 9 };
    let k_row = from_place_0(&[1, 0, 0, -1, 0, -1, -1]);
    let l_row = from_place_0(&[0, 1, 0, 1, 0, 1, 0]);
    vec![(call, Says::Whole(Answer::Columns(k_row, l_row)))]
}

fn from_place_0(printed: &[i8]) -> Vec<i8> {
    printed.iter().rev().copied().collect()
}

fn row(scalar: Vec<u8>, m: u32) -> Call {
    row_by(Direction::Up, scalar, m)
}

fn row_by(direction: Direction, scalar: Vec<u8>, m: u32) -> Call {
    let places = 8 * scalar.len() + 1;
    Call::Row { direction, scalar: Scalar::plus(scalar), m, places }
}

fn cheapest(k: u8, l: u8, limit: u32, room: usize) -> Call {
    Call::Cheapest { k: Scalar::plus([k]), l: Scalar::plus([l]), limit, room }
}

#[cfg(test)]
mod tests {
    use super::*;
    use crate::big::Big;
    use crate::row::{recode, weight};
    use crate::{joint, reader};

    #[test]
    fn the_reference_agrees_with_every_sample() {
        for limits in Limits::BOTH {
            for (call, says) in all(limits) {
                assert!(says.holds_of(&call.answer(limits)), "{limits} {call}");
            }
        }
    }

    #[test]
    fn thirteen_and_ten_cost_four_columns_and_five_digits() {
        let (k, l) = (Big::from(13), Big::from(10));
        assert_eq!(joint::weight(&joint::recode(k, l)), 4);
        assert_eq!(weight(&recode(k, 1)) + weight(&recode(l, 1)), 5);
    }

    #[test]
    fn the_printed_sheet_is_accepted() {
        assert_eq!(reader::read(SEVEN_AND_TWO.as_bytes(), Limits::Card), Ok(()));
    }
}
