//! The two kinds of rows for a window.

use crate::big::Big;
use crate::{down, row};

/// Where the first digit of a row is found: at the bottom, or at the top.
#[derive(Clone, Copy, PartialEq, Eq, Debug)]
pub enum Direction {
    Up,
    Down,
}

impl Direction {
    pub const BOTH: [Direction; 2] = [Direction::Up, Direction::Down];

    /// The scalar's row for window m, place 0 first.
    pub fn row(self, scalar: Big, m: u8) -> Vec<i8> {
        match self {
            Direction::Up => row::recode(scalar, m),
            Direction::Down => down::recode(scalar, m),
        }
    }
}
