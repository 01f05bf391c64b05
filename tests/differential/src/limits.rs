//! The limits of the card's calls and of the gateway's.

use std::fmt;

/// Whose calls they are, and so whose limits hold.
#[derive(Clone, Copy, PartialEq, Eq, Debug)]
pub enum Limits {
    Card,
    Gateway,
}

impl Limits {
    pub const BOTH: [Limits; 2] = [Limits::Card, Limits::Gateway];

    /// The most bytes of a scalar.
    pub fn bytes(self) -> usize {
        match self {
            Limits::Card => 66,
            Limits::Gateway => 128,
        }
    }

    /// The most D lines of a sheet.
    pub fn doubles(self) -> usize {
        match self {
            Limits::Card => 528,
            Limits::Gateway => 1_024,
        }
    }

    /// The most bytes of a sheet that is read, and the fewest of a sheet buffer.
    pub fn sheet(self) -> usize {
        match self {
            Limits::Card => 16_384,
            Limits::Gateway => 32_768,
        }
    }

    /// The most figures of a scalar in a header.
    pub fn figures(self) -> usize {
        match self {
            Limits::Card => 132,
            Limits::Gateway => 256,
        }
    }

    /// The most places of a row: 8 for each byte, and one more.
    pub fn places(self) -> usize {
        8 * self.bytes() + 1
    }

    /// The limits of this name.
    pub fn named(name: &str) -> Option<Limits> {
        Limits::BOTH.into_iter().find(|limits| limits.to_string() == name)
    }
}

impl fmt::Display for Limits {
    fn fmt(&self, out: &mut fmt::Formatter) -> fmt::Result {
        out.write_str(match self {
            Limits::Card => "card",
            Limits::Gateway => "gateway",
        })
    }
}
