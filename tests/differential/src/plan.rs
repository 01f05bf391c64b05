//! Plans: what their tables hold and how many slots they need.

use crate::joint::Pair;
use crate::row;
use std::fmt;

/// The highest limit of slots: what the widest windows need.
pub const MOST_SLOTS: u32 = 31;

#[derive(Clone, Copy, PartialEq, Eq, Debug)]
pub enum Plan {
    /// Plan J.
    Joint,
    /// Plan I with window m1 for P and window m2 for Q.
    Interleaved { m1: u8, m2: u8 },
}

impl Plan {
    /// J and all 256 plans I.
    pub fn all() -> impl Iterator<Item = Plan> {
        let interleaved = row::windows()
            .flat_map(|m1| row::windows().map(move |m2| Plan::Interleaved { m1, m2 }));
        std::iter::once(Plan::Joint).chain(interleaved)
    }

    /// The plans that need no more slots than the limit.
    pub fn within(limit: usize) -> impl Iterator<Item = Plan> {
        Plan::all().filter(move |plan| plan.slots() <= limit)
    }

    /// The kind that the header names.
    pub fn kind(self) -> char {
        match self {
            Plan::Joint => 'J',
            Plan::Interleaved { .. } => 'I',
        }
    }

    /// The windows that the header states.
    pub fn windows(self) -> (u8, u8) {
        match self {
            Plan::Joint => (1, 1),
            Plan::Interleaved { m1, m2 } => (m1, m2),
        }
    }

    /// The places that a card needs: for the stored points, and one for 2P and later 2Q where a
    /// window is 3 or more.
    pub fn slots(self) -> usize {
        match self {
            Plan::Joint => 2,
            Plan::Interleaved { m1, m2 } => {
                let working = usize::from(m1 >= 3 || m2 >= 3);
                (usize::from(m1) + usize::from(m2) - 2) / 2 + working
            }
        }
    }

    /// The additions that fill the table.
    pub fn table_additions(self) -> usize {
        match self {
            Plan::Joint => 2,
            Plan::Interleaved { m1, m2 } => usize::from(m1 / 2) + usize::from(m2 / 2),
        }
    }

    /// The doublings that fill the table.
    pub fn table_doublings(self) -> usize {
        match self {
            Plan::Joint => 0,
            Plan::Interleaved { m1, m2 } => usize::from(m1 >= 3) + usize::from(m2 >= 3),
        }
    }

    /// The T lines in order.
    pub fn table(self) -> Vec<Pair> {
        match self {
            Plan::Joint => vec![(1, 1), (1, -1)],
            Plan::Interleaved { m1, m2 } => {
                let of_p = multiples(m1).into_iter().map(|a| (a, 0));
                let of_q = multiples(m2).into_iter().map(|b| (0, b));
                of_p.chain(of_q).collect()
            }
        }
    }

    /// The steps at a place with this column, in order.
    pub fn steps(self, (a, b): Pair) -> impl Iterator<Item = Pair> {
        let steps = match self {
            Plan::Joint => [(a, b), (0, 0)],
            Plan::Interleaved { .. } => [(a, 0), (0, b)],
        };
        steps.into_iter().filter(|&step| step != (0, 0))
    }
}

/// As a header names it: the kind and the windows.
impl fmt::Display for Plan {
    fn fmt(&self, out: &mut fmt::Formatter) -> fmt::Result {
        let (kind, (m1, m2)) = (self.kind(), self.windows());
        write!(out, "{kind},{m1},{m2}")
    }
}

/// The multiples that a table is filled with for window m: 2, then 3, 5 and so on to m.
fn multiples(m: u8) -> Vec<i8> {
    let odd = (3..=m as i8).step_by(2);
    if m < 3 {
        Vec::new()
    } else {
        std::iter::once(2).chain(odd).collect()
    }
}

/// Is this line of the table a doubling? The others are additions.
pub fn is_doubling(line: Pair) -> bool {
    line == (2, 0) || line == (0, 2)
}

#[cfg(test)]
mod tests {
    use super::*;

    #[test]
    fn there_are_257_plans_and_the_widest_windows_need_the_highest_limit() {
        assert_eq!(Plan::all().count(), 257);
        assert_eq!(Plan::all().map(Plan::slots).max(), Some(MOST_SLOTS as usize));
        let widest = Plan::Interleaved { m1: 31, m2: 31 };
        assert_eq!(widest.slots(), MOST_SLOTS as usize);
    }

    #[test]
    fn every_addition_fills_a_slot_and_all_doublings_share_one() {
        for plan in Plan::all() {
            let (doublings, additions): (Vec<_>, Vec<_>) =
                plan.table().into_iter().partition(|&line| is_doubling(line));
            assert_eq!(additions.len(), plan.table_additions());
            assert_eq!(doublings.len(), plan.table_doublings());
            assert_eq!(additions.len() + doublings.len().min(1), plan.slots());
        }
    }

    #[test]
    fn tables() {
        let table = Plan::Interleaved { m1: 5, m2: 3 }.table();
        assert_eq!(table, [(2, 0), (3, 0), (5, 0), (0, 2), (0, 3)]);
        assert_eq!(Plan::Interleaved { m1: 1, m2: 1 }.table(), []);
    }
}
