//! The calls: their questions in order, their answers, and how a call is printed and read
//! back.

use crate::answer::Answer;
use crate::big::Big;
use crate::cheapest::Forms;
use crate::direction::Direction;
use crate::limits::Limits;
use crate::plan::{Plan, MOST_SLOTS};
use crate::scalars::Scalar;
use crate::sheet::Sheet;
use crate::{codes, dearest, joint, next_limit, packing, reader};
use std::fmt;

/// A call with all that is lent to it, but for what its buffers hold before.
#[derive(Clone, PartialEq, Eq, Debug)]
pub enum Call {
    /// The row from the bottom up or from the top down; so too the rows of plan I.
    Row {
        direction: Direction,
        scalar: Scalar,
        m: u32,
        places: usize,
    },
    Joint {
        k: Scalar,
        l: Scalar,
        k_places: usize,
        l_places: usize,
    },
    /// The rooms are those of the two digit buffers and then of the two code buffers.
    JointCodes {
        k: Scalar,
        l: Scalar,
        rooms: [usize; 4],
    },
    PlanJ {
        k: Scalar,
        l: Scalar,
        room: usize,
    },
    PlanI {
        direction: Direction,
        k: Scalar,
        l: Scalar,
        m1: u32,
        m2: u32,
        room: usize,
    },
    Cheapest {
        k: Scalar,
        l: Scalar,
        limit: u32,
        room: usize,
    },
    Read {
        sheet: Vec<u8>,
    },
    /// Any number of columns, whatever the rows and the buffer have.
    Pack {
        columns: usize,
        k_digits: Vec<u8>,
        l_digits: Vec<u8>,
        room: usize,
    },
    Unpack {
        columns: usize,
        packed: Vec<u8>,
        k_places: usize,
        l_places: usize,
    },
    /// The card's alone.
    NextLimit {
        k: Scalar,
        l: Scalar,
        limit: u32,
    },
    /// The card's alone.
    Dearest {
        bits: u32,
        room: usize,
    },
}

impl Call {
    /// The reference's answer within these limits.
    pub fn answer(&self, limits: Limits) -> Answer {
        if let Some(number) = self.first_question_missed(limits) {
            return Answer::refused(number, 0);
        }
        match self {
            Call::Row { direction, scalar, m, .. } => {
                Answer::Row(direction.row(scalar.value(), *m as u8))
            }
            Call::Joint { k, l, .. } => {
                let columns = joint::recode(k.value(), l.value());
                let (k_row, l_row) = joint::rows(&columns);
                Answer::Columns(k_row, l_row)
            }
            Call::JointCodes { k, l, .. } => {
                let (k, l) = (k.value(), l.value());
                let columns = joint::recode(k, l);
                let (k_row, l_row) = joint::rows(&columns);
                let (k_codes, l_codes) = codes::of_columns(k, l, &columns);
                Answer::Coded { k_row, l_row, k_codes, l_codes }
            }
            Call::PlanJ { k, l, .. } => {
                Answer::sheet(&Sheet::of_plan(Plan::Joint, k.value(), l.value()))
            }
            Call::PlanI { direction, k, l, m1, m2, .. } => {
                let (m1, m2) = (*m1 as u8, *m2 as u8);
                Answer::sheet(&Sheet::of_rows(*direction, m1, m2, k.value(), l.value()))
            }
            Call::Cheapest { k, l, limit, .. } => {
                let forms = Forms::of(k.value(), l.value());
                Answer::sheet(&forms.cheapest_sheet(*limit as usize))
            }
            Call::Read { sheet } => match reader::read(sheet, limits) {
                Ok(()) => Answer::Accepted,
                Err(refusal) => Answer::Refused(refusal),
            },
            Call::Pack { columns, k_digits, l_digits, .. } => {
                match packing::pack(&k_digits[..*columns], &l_digits[..*columns]) {
                    Some(bytes) => Answer::Packed(bytes),
                    None => Answer::refused(12, 0),
                }
            }
            Call::Unpack { columns, packed, .. } => match packing::unpack(&packed[..*columns]) {
                Some(columns) => {
                    let (k_row, l_row) = joint::rows(&columns);
                    Answer::Unpacked(k_row, l_row)
                }
                None => Answer::refused(12, 0),
            },
            Call::NextLimit { k, l, limit } => {
                let additions = next_limit::additions(k.value(), l.value());
                Answer::NextLimit(next_limit::next(&additions, *limit as usize))
            }
            Call::Dearest { bits, .. } => Answer::Dearest(dearest::of_size(*bits)),
        }
    }

    /// The number of the first question missed by a call other than the reader; question 12, of the
    /// digits and bytes of columns, comes after these.
    fn first_question_missed(&self, limits: Limits) -> Option<u32> {
        // The gateway has no call for the next limit and none for the dearest scalar.
        let limits = match self {
            Call::NextLimit { .. } | Call::Dearest { .. } => Limits::Card,
            _ => limits,
        };
        let has_length = |scalar: &Scalar| (1..=limits.bytes()).contains(&scalar.bytes.len());
        let questions = match self {
            Call::Row { scalar, m, places, .. } => {
                vec![
                    (has_length(scalar), 1),
                    (is_window(*m), 2),
                    (*places > 8 * scalar.bytes.len(), 3),
                ]
            }
            Call::Joint { k, l, k_places, l_places } => {
                let bytes = k.bytes.len().max(l.bytes.len());
                vec![
                    (has_length(k) && has_length(l), 1),
                    (*k_places > 8 * bytes && *l_places > 8 * bytes, 3),
                ]
            }
            Call::JointCodes { k, l, rooms } => {
                let bytes = k.bytes.len().max(l.bytes.len());
                vec![
                    (has_length(k) && has_length(l), 1),
                    (rooms.iter().all(|&room| room > 8 * bytes), 3),
                ]
            }
            Call::PlanJ { k, l, room } => {
                vec![(has_length(k) && has_length(l), 1), (*room >= limits.sheet(), 3)]
            }
            Call::PlanI { k, l, m1, m2, room, .. } => vec![
                (has_length(k) && has_length(l), 1),
                (is_window(*m1) && is_window(*m2), 2),
                (*room >= limits.sheet(), 3),
            ],
            Call::Cheapest { k, l, limit, room } => vec![
                (has_length(k) && has_length(l), 1),
                (*limit <= MOST_SLOTS, 4),
                (*room >= limits.sheet(), 3),
            ],
            Call::Read { .. } => Vec::new(),
            Call::Pack { columns, k_digits, l_digits, room } => {
                let lengths = [k_digits.len(), l_digits.len(), *room];
                vec![(lengths.iter().all(|length| length >= columns), 3)]
            }
            Call::Unpack { columns, packed, k_places, l_places } => {
                let lengths = [packed.len(), *k_places, *l_places];
                vec![(lengths.iter().all(|length| length >= columns), 3)]
            }
            Call::NextLimit { k, l, limit } => {
                vec![(has_length(k) && has_length(l), 1), (*limit <= MOST_SLOTS, 4)]
            }
            Call::Dearest { bits, room } => {
                let sizes = 1..=8 * limits.bytes();
                vec![(sizes.contains(&(*bits as usize)), 15), (*room == limits.bytes(), 3)]
            }
        };
        questions.into_iter().find(|(met, _)| !met).map(|(_, number)| number)
    }

    /// The bytes that the call only reads.
    pub fn inputs(&self) -> Vec<&[u8]> {
        match self {
            Call::Row { scalar, .. } => vec![&scalar.bytes],
            Call::Joint { k, l, .. }
            | Call::JointCodes { k, l, .. }
            | Call::PlanJ { k, l, .. }
            | Call::PlanI { k, l, .. }
            | Call::Cheapest { k, l, .. }
            | Call::NextLimit { k, l, .. } => vec![&k.bytes, &l.bytes],
            Call::Read { sheet } => vec![sheet],
            Call::Pack { k_digits, l_digits, .. } => vec![k_digits, l_digits],
            Call::Unpack { packed, .. } => vec![packed],
            Call::Dearest { .. } => Vec::new(),
        }
    }

    /// The pair that a sheet is ordered for.
    pub fn ordered(&self) -> Option<(Big, Big)> {
        match self {
            Call::PlanJ { k, l, .. } | Call::PlanI { k, l, .. } | Call::Cheapest { k, l, .. } => {
                Some((k.value(), l.value()))
            }
            _ => None,
        }
    }

    /// The sizes of the buffers that the call writes to.
    pub fn rooms(&self) -> Vec<usize> {
        match self {
            Call::Row { places, .. } => vec![*places],
            Call::Joint { k_places, l_places, .. } | Call::Unpack { k_places, l_places, .. } => {
                vec![*k_places, *l_places]
            }
            Call::JointCodes { rooms, .. } => rooms.to_vec(),
            Call::PlanJ { room, .. }
            | Call::PlanI { room, .. }
            | Call::Cheapest { room, .. }
            | Call::Pack { room, .. }
            | Call::Dearest { room, .. } => vec![*room],
            Call::Read { .. } | Call::NextLimit { .. } => Vec::new(),
        }
    }
}

fn is_window(m: u32) -> bool {
    m % 2 == 1 && m <= 31
}

impl fmt::Display for Call {
    /// The words that `parse` reads back; of a scalar its bytes and its sign.
    fn fmt(&self, out: &mut fmt::Formatter) -> fmt::Result {
        let words = |scalar: &Scalar| format!("{} {}", hex(&scalar.bytes), scalar.sign);
        match self {
            Call::Row { direction, scalar, m, places } => {
                write!(out, "row{} {} {m} {places}", suffix(*direction), words(scalar))
            }
            Call::Joint { k, l, k_places, l_places } => {
                write!(out, "joint {} {} {k_places} {l_places}", words(k), words(l))
            }
            Call::JointCodes { k, l, rooms: [k_digits, l_digits, k_codes, l_codes] } => {
                let (k, l) = (words(k), words(l));
                write!(out, "joint-codes {k} {l} {k_digits} {l_digits} {k_codes} {l_codes}")
            }
            Call::PlanJ { k, l, room } => write!(out, "plan-j {} {} {room}", words(k), words(l)),
            Call::PlanI { direction, k, l, m1, m2, room } => {
                let (suffix, k, l) = (suffix(*direction), words(k), words(l));
                write!(out, "plan-i{suffix} {k} {l} {m1} {m2} {room}")
            }
            Call::Cheapest { k, l, limit, room } => {
                write!(out, "cheapest {} {} {limit} {room}", words(k), words(l))
            }
            Call::Read { sheet } => write!(out, "read {}", hex(sheet)),
            Call::Pack { columns, k_digits, l_digits, room } => {
                write!(out, "pack {columns} {} {} {room}", hex(k_digits), hex(l_digits))
            }
            Call::Unpack { columns, packed, k_places, l_places } => {
                write!(out, "unpack {columns} {} {k_places} {l_places}", hex(packed))
            }
            Call::NextLimit { k, l, limit } => {
                write!(out, "next-limit {} {} {limit}", words(k), words(l))
            }
            Call::Dearest { bits, room } => write!(out, "dearest {bits} {room}"),
        }
    }
}

/// What is printed behind the name of a call for rows of this kind.
fn suffix(direction: Direction) -> &'static str {
    match direction {
        Direction::Up => "",
        Direction::Down => "-down",
    }
}

/// The call that these words print.
pub fn parse(words: &[&str]) -> Option<Call> {
    Some(match *words {
        ["row", ref words @ ..] => parse_row(Direction::Up, words)?,
        ["row-down", ref words @ ..] => parse_row(Direction::Down, words)?,
        ["joint", k, ks, l, ls, k_places, l_places] => Call::Joint {
            k: parse_scalar(k, ks)?,
            l: parse_scalar(l, ls)?,
            k_places: k_places.parse().ok()?,
            l_places: l_places.parse().ok()?,
        },
        ["joint-codes", k, ks, l, ls, k_digits, l_digits, k_codes, l_codes] => Call::JointCodes {
            k: parse_scalar(k, ks)?,
            l: parse_scalar(l, ls)?,
            rooms: [
                k_digits.parse().ok()?,
                l_digits.parse().ok()?,
                k_codes.parse().ok()?,
                l_codes.parse().ok()?,
            ],
        },
        ["plan-j", k, ks, l, ls, room] => Call::PlanJ {
            k: parse_scalar(k, ks)?,
            l: parse_scalar(l, ls)?,
            room: room.parse().ok()?,
        },
        ["plan-i", ref words @ ..] => parse_plan_i(Direction::Up, words)?,
        ["plan-i-down", ref words @ ..] => parse_plan_i(Direction::Down, words)?,
        ["cheapest", k, ks, l, ls, limit, room] => Call::Cheapest {
            k: parse_scalar(k, ks)?,
            l: parse_scalar(l, ls)?,
            limit: limit.parse().ok()?,
            room: room.parse().ok()?,
        },
        ["read", sheet] => Call::Read { sheet: unhex(sheet)? },
        ["pack", columns, k_digits, l_digits, room] => Call::Pack {
            columns: columns.parse().ok()?,
            k_digits: unhex(k_digits)?,
            l_digits: unhex(l_digits)?,
            room: room.parse().ok()?,
        },
        ["unpack", columns, packed, k_places, l_places] => Call::Unpack {
            columns: columns.parse().ok()?,
            packed: unhex(packed)?,
            k_places: k_places.parse().ok()?,
            l_places: l_places.parse().ok()?,
        },
        ["next-limit", k, ks, l, ls, limit] => Call::NextLimit {
            k: parse_scalar(k, ks)?,
            l: parse_scalar(l, ls)?,
            limit: limit.parse().ok()?,
        },
        ["dearest", bits, room] => {
            Call::Dearest { bits: bits.parse().ok()?, room: room.parse().ok()? }
        }
        _ => return None,
    })
}

fn parse_row(direction: Direction, words: &[&str]) -> Option<Call> {
    let [scalar, sign, m, places] = *words else {
        return None;
    };
    let scalar = parse_scalar(scalar, sign)?;
    Some(Call::Row { direction, scalar, m: m.parse().ok()?, places: places.parse().ok()? })
}

fn parse_plan_i(direction: Direction, words: &[&str]) -> Option<Call> {
    let [k, ks, l, ls, m1, m2, room] = *words else {
        return None;
    };
    let (k, l) = (parse_scalar(k, ks)?, parse_scalar(l, ls)?);
    let (m1, m2, room) = (m1.parse().ok()?, m2.parse().ok()?, room.parse().ok()?);
    Some(Call::PlanI { direction, k, l, m1, m2, room })
}

fn parse_scalar(bytes: &str, sign: &str) -> Option<Scalar> {
    Some(Scalar::new(unhex(bytes)?, sign.parse().ok()?))
}

/// Two hexadecimal figures for each byte, and `-` for no bytes.
fn hex(bytes: &[u8]) -> String {
    if bytes.is_empty() {
        return "-".to_string();
    }
    bytes.iter().map(|byte| format!("{byte:02x}")).collect()
}

fn unhex(word: &str) -> Option<Vec<u8>> {
    if word == "-" {
        return Some(Vec::new());
    }
    let figures: Option<Vec<u8>> =
        word.chars().map(|figure| figure.to_digit(16).map(|value| value as u8)).collect();
    let pairs = figures.filter(|figures| figures.len() % 2 == 0)?;
    Some(pairs.chunks(2).map(|pair| pair[0] << 4 | pair[1]).collect())
}

#[cfg(test)]
mod tests {
    use super::*;

    #[test]
    fn calls_read_back() {
        let (k, l) = (Scalar::plus([0, 0xff]), Scalar::new([], u32::MAX));
        let of_rows = Direction::BOTH.map(|direction| {
            let (scalar, k, l) = (k.with_sign(256), k.clone(), l.clone());
            [
                Call::Row { direction, scalar, m: 4, places: 17 },
                Call::PlanI { direction, k, l, m1: 5, m2: u32::MAX, room: 16_383 },
            ]
        });
        let others = [
            Call::Joint { k: k.clone(), l: l.clone(), k_places: 17, l_places: 0 },
            Call::JointCodes { k: k.clone(), l: l.clone(), rooms: [17, 0, 18, 529] },
            Call::PlanJ { k: k.with_sign(2), l: l.with_sign(0), room: 16_384 },
            Call::Cheapest { k: k.clone(), l: l.clone(), limit: 32, room: 0 },
            Call::Read { sheet: b"E\n".to_vec() },
            Call::Pack { columns: 2, k_digits: vec![0, 255, 2], l_digits: vec![], room: 3 },
            Call::Unpack { columns: usize::MAX, packed: vec![8], k_places: 0, l_places: 5 },
            Call::NextLimit { k: k.with_sign(1), l, limit: u32::MAX },
            Call::Dearest { bits: u32::MAX, room: 67 },
        ];
        for call in of_rows.into_iter().flatten().chain(others) {
            let printed = call.to_string();
            let words: Vec<&str> = printed.split(' ').collect();
            assert_eq!(parse(&words), Some(call));
        }
    }
}
