//! The answers to the calls: the number that each returns, and what it leaves in the buffers.

use crate::dearest::Dearest;
use crate::limits::Limits;
use crate::next_limit::NextLimit;
use crate::reader::Refusal;
use crate::sheet::{columns, Sheet};
use crate::{joint, row};

/// The answer to a call.
#[derive(Clone, PartialEq, Eq, Debug)]
pub enum Answer {
    /// The number of the question missed; the line is 0 for all calls but the reader.
    Refused(Refusal),
    /// One row.
    Row(Vec<i8>),
    /// Two rows over the same places.
    Columns(Vec<i8>, Vec<i8>),
    /// Two rows over the same places, and the codes of each.
    Coded { k_row: Vec<i8>, l_row: Vec<i8>, k_codes: Vec<u8>, l_codes: Vec<u8> },
    /// A sheet and its additions.
    Sheet { bytes: Vec<u8>, additions: usize },
    /// The reader accepts.
    Accepted,
    /// The bytes of columns.
    Packed(Vec<u8>),
    /// The digits of columns for k and for l.
    Unpacked(Vec<i8>, Vec<i8>),
    /// The next limit that pays, if any does.
    NextLimit(Option<NextLimit>),
    /// The dearest scalar of a size.
    Dearest(Dearest),
}

impl Answer {
    pub fn refused(number: u32, line: usize) -> Answer {
        Answer::Refused(Refusal { number, line })
    }

    pub fn sheet(sheet: &Sheet) -> Answer {
        Answer::Sheet { bytes: sheet.to_bytes(), additions: sheet.additions() }
    }

    /// The number that the C call returns: in bits 32 to 63 the question missed; below them the
    /// reader's line, or what was written, or the limit that pays and its additions, or the most
    /// digits that are not 0.
    pub fn code(&self) -> u64 {
        match self {
            Answer::Refused(Refusal { number, line }) => u64::from(*number) << 32 | *line as u64,
            Answer::Row(digits) => written(digits.len(), row::weight(digits)),
            Answer::Columns(k_row, l_row) | Answer::Coded { k_row, l_row, .. } => {
                written(k_row.len(), joint::weight(&columns(k_row, l_row)))
            }
            Answer::Sheet { bytes, additions } => written(bytes.len(), *additions),
            Answer::NextLimit(Some(NextLimit { limit, additions })) => written(*limit, *additions),
            Answer::Dearest(Dearest { most, .. }) => *most as u64,
            Answer::Accepted
            | Answer::Packed(_)
            | Answer::Unpacked(_, _)
            | Answer::NextLimit(None) => 0,
        }
    }

    /// What the buffers hold after the call, given what they held before.
    pub fn leave_in(&self, buffers: &mut [Vec<u8>]) {
        match (self, buffers) {
            (Answer::Row(digits), [buffer]) => leave_digits(digits, buffer),
            (Answer::Columns(k_row, l_row), [k_buffer, l_buffer]) => {
                leave_digits(k_row, k_buffer);
                leave_digits(l_row, l_buffer);
            }
            (
                Answer::Coded { k_row, l_row, k_codes, l_codes },
                [k_digits, l_digits, k_buffer, l_buffer],
            ) => {
                leave_digits(k_row, k_digits);
                leave_digits(l_row, l_digits);
                leave_bytes(k_codes, k_buffer);
                leave_bytes(l_codes, l_buffer);
            }
            (Answer::Sheet { bytes, .. } | Answer::Packed(bytes), [buffer]) => {
                buffer[..bytes.len()].copy_from_slice(bytes);
            }
            (Answer::Unpacked(k_row, l_row), [k_buffer, l_buffer]) => {
                leave_digits(k_row, &mut k_buffer[..k_row.len()]);
                leave_digits(l_row, &mut l_buffer[..l_row.len()]);
            }
            (Answer::Dearest(Dearest { scalar, .. }), [buffer]) => {
                buffer.copy_from_slice(&scalar.to_bytes(Limits::Card.bytes()));
            }
            (Answer::Refused(_) | Answer::Accepted | Answer::NextLimit(_), _) => {}
            _ => unreachable!("every answer has its own number of buffers"),
        }
    }
}

/// In bits 0 to 15 the length, or the limit; in bits 16 to 31 the weight, or the additions.
fn written(length: usize, count: usize) -> u64 {
    let part = |number| u64::from(u16::try_from(number).expect("a number of 16 bits"));
    part(count) << 16 | part(length)
}

/// The digits in two's complement; the unused places hold 0.
fn leave_digits(digits: &[i8], buffer: &mut [u8]) {
    let bytes: Vec<u8> = digits.iter().map(|&digit| digit as u8).collect();
    leave_bytes(&bytes, buffer);
}

/// The bytes, and 0 at the unused places.
fn leave_bytes(bytes: &[u8], buffer: &mut [u8]) {
    let (used, unused) = buffer.split_at_mut(bytes.len());
    used.copy_from_slice(bytes);
    unused.fill(0);
}

#[cfg(test)]
mod tests {
    use super::*;
    use crate::big::Big;
    use crate::calls::parse;
    use crate::plan::Plan;
    use crate::scalars;

    /// The code of the reference's answer to the call that these words print, at the card.
    fn code(call: &str) -> u64 {
        let words: Vec<&str> = call.split(' ').collect();
        parse(&words).expect("a call").answer(Limits::Card).code()
    }

    #[test]
    fn codes_of_rows_and_joint_forms() {
        assert_eq!(code("row 00 0 1 9"), 0);
        assert_eq!(code("row 07 0 1 9"), 0x0002_0004);
        assert_eq!(code("row 07 0 5 9"), 0x0002_0004);
        assert_eq!(code("row 35 0 3 9"), 0x0003_0007);
        assert_eq!(code("row 0b 0 1 9"), 0x0003_0005);
        assert_eq!(code("row-down 0b 0 1 9"), 0x0003_0004);
        assert_eq!(code("joint 00 0 00 0 9 9"), 0);
        assert_eq!(code("joint 0d 0 0a 0 9 9"), 0x0004_0005);
        assert_eq!(code("joint 07 0 02 0 9 9"), 0x0003_0004);
        assert_eq!(code("joint-codes 0d 0 0a 0 9 9 9 9"), 0x0004_0005);
    }

    #[test]
    fn codes_of_sheets() {
        assert_eq!(code("cheapest 07 0 02 0 0 16384"), 2 << 16 | 45);
        assert_eq!(code("cheapest 03 0 00 0 1 16384"), 1 << 16 | 37);
        assert_eq!(code("plan-i 00 0 00 0 1 1 16384"), 20);
        assert_eq!(code("plan-i 09 0 00 0 5 1 16384"), 3 << 16 | 56);
        assert_eq!(code("plan-i 0b 0 00 0 1 1 16384"), 2 << 16 | 48);
        assert_eq!(code("plan-i-down 0b 0 00 0 1 1 16384"), 2 << 16 | 45);
        assert_eq!(code("plan-j 0d 0 0a 0 16384"), 5 << 16 | 67);
    }

    /// A minus changes no number of an answer but the length of a sheet.
    #[test]
    fn codes_of_signed_scalars() {
        assert_eq!(code("row 00 1 1 9"), 0);
        assert_eq!(code("row 35 256 3 9"), 0x0003_0007);
        assert_eq!(code("joint 0d 1 0a 0 9 9"), 0x0004_0005);
        assert_eq!(code("joint-codes 0d 2 0a 4294967295 9 9 9 9"), 0x0004_0005);
        // The sheet for 7 and 2 has 45 bytes; with a minus both digits for P change their sign, and
        // the one for Q.
        assert_eq!(code("cheapest 07 1 02 0 0 16384"), 2 << 16 | 46);
        assert_eq!(code("cheapest 07 0 02 1 0 16384"), 2 << 16 | 47);
        assert_eq!(code("cheapest 07 1 02 1 0 16384"), 2 << 16 | 48);
        assert_eq!(code("plan-i 00 1 00 1 1 1 16384"), 20);
        assert_eq!(code("row - 1 4 0"), 1 << 32);
    }

    #[test]
    fn codes_of_refusals_and_of_the_reader() {
        assert_eq!(code("row - 0 4 0"), 1 << 32);
        assert_eq!(code("row 07 0 4 9"), 2 << 32);
        assert_eq!(code("joint 0d 0 0a 0 8 9"), 3 << 32);
        assert_eq!(code("cheapest 07 0 02 0 32 16384"), 4 << 32);
        assert_eq!(code("read -"), 6 << 32 | 1);
        assert_eq!(code("pack 2 00ff 0101 2"), 0);
        assert_eq!(code("pack 2 00ff 0102 2"), 12 << 32);
        assert_eq!(code("pack 2 00ff 0102 1"), 3 << 32);
        assert_eq!(code("unpack 2 0508 2 2"), 0);
        assert_eq!(code("unpack 2 0509 2 2"), 12 << 32);
        assert_eq!(code("unpack 2 0509 2 1"), 3 << 32);
        assert_eq!(Answer::refused(9, 531).code(), 9 << 32 | 531);
        assert_eq!(Answer::refused(11, 0x1_2345).code(), 0x0000_000b_0001_2345);
        assert_eq!(Answer::Accepted.code(), 0);
    }

    #[test]
    fn codes_of_next_limits() {
        assert_eq!(code("next-limit 2d 0 00 0 0"), 2 << 16 | 2);
        assert_eq!(code("next-limit 2d 256 00 1 1"), 2 << 16 | 2);
        assert_eq!(code("next-limit 2d 0 00 0 2"), 0);
        assert_eq!(code("next-limit 2d 0 00 0 31"), 0);
        assert_eq!(code("next-limit 2d 0 00 0 32"), 4 << 32);
        assert_eq!(code("next-limit - 0 00 0 32"), 1 << 32);
        let next = NextLimit { limit: 31, additions: 528 };
        assert_eq!(Answer::NextLimit(Some(next)).code(), 0x0210_001f);
    }

    #[test]
    fn codes_of_dearest_scalars() {
        assert_eq!(code("dearest 1 66"), 1);
        assert_eq!(code("dearest 4 66"), 3);
        assert_eq!(code("dearest 528 66"), 265);
        assert_eq!(code("dearest 528 65"), 3 << 32);
        assert_eq!(code("dearest 528 67"), 3 << 32);
        assert_eq!(code("dearest 529 66"), 15 << 32);
        assert_eq!(code("dearest 0 67"), 15 << 32);
        let dearest = Dearest { scalar: Big::ZERO, most: 0x1_0000 };
        assert_eq!(Answer::Dearest(dearest).code(), 0x1_0000);
    }

    /// A row and a joint form with as many digits and columns that are not zero as the rules allow,
    /// sheets of every plan, and the longest sheet with the most additions that a header can state.
    fn every_part_has_room(limits: Limits, row: (usize, usize), joint: (usize, usize)) {
        let code = |(weight, length): (usize, usize)| (weight << 16 | length) as u64;
        let dense = Big::from_bytes(&scalars::dense(limits));
        assert_eq!(Answer::Row(row::recode(dense, 1)).code(), code(row));
        let (k, l) = scalars::dense_pair(limits);
        let columns = joint::recode(Big::from_bytes(&k), Big::from_bytes(&l));
        let (k_row, l_row) = joint::rows(&columns);
        assert_eq!(Answer::Columns(k_row, l_row).code(), code(joint));
        for plan in Plan::all() {
            for scalar in [dense, dense.negated()] {
                let sheet = Sheet::of_plan(plan, scalar, scalar);
                let (length, additions) = (sheet.to_bytes().len(), sheet.additions());
                assert!(length <= limits.sheet() && additions <= limits.places());
                assert_eq!(Answer::sheet(&sheet).code(), code((additions, length)));
            }
        }
        let longest = Answer::Sheet { bytes: vec![b'D'; limits.sheet()], additions: 9_999 };
        assert_eq!(longest.code(), code((9_999, limits.sheet())));
    }

    #[test]
    fn every_part_has_room_for_the_largest_answers() {
        every_part_has_room(Limits::Card, (265, 529), (352, 527));
        every_part_has_room(Limits::Gateway, (513, 1_025), (683, 1_024));
    }

    #[test]
    fn unused_places_hold_zero() {
        let mut buffers = [vec![9; 5]];
        Answer::Row(vec![-1, 0, 1]).leave_in(&mut buffers);
        assert_eq!(buffers[0], [255, 0, 1, 0, 0]);
        let mut buffers = [vec![9; 5]];
        Answer::Sheet { bytes: b"E\n".to_vec(), additions: 0 }.leave_in(&mut buffers);
        assert_eq!(buffers[0], *b"E\n\x09\x09\x09");
    }

    #[test]
    fn what_lies_past_packed_and_unpacked_columns_stays() {
        let mut buffers = [vec![9; 5]];
        Answer::Packed(vec![0, 4, 8]).leave_in(&mut buffers);
        assert_eq!(buffers[0], [0, 4, 8, 9, 9]);
        let mut buffers = [vec![9; 4], vec![7; 3]];
        Answer::Unpacked(vec![-1, 0, 1], vec![1, 0, -1]).leave_in(&mut buffers);
        assert_eq!(buffers, [vec![255, 0, 1, 9], vec![1, 0, 255]]);
    }

    #[test]
    fn a_dearest_scalar_fills_its_buffer() {
        let mut buffers = [vec![9; 66]];
        let scalar = Big::from_bytes(&[1, 0, 2]);
        Answer::Dearest(Dearest { scalar, most: 2 }).leave_in(&mut buffers);
        assert_eq!(buffers[0], [&[0; 63][..], &[1, 0, 2]].concat());
    }
}
