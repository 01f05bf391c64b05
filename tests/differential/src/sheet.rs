//! Sheets: the lines that a plan and a column list make, and how they are spelled.

use crate::big::Big;
use crate::direction::Direction;
use crate::joint::{self, Pair};
use crate::plan::{is_doubling, Plan};
use std::fmt;

#[derive(Clone, Copy, PartialEq, Eq, Debug)]
pub enum Step {
    Load(Pair),
    Double,
    Add(Pair),
}

pub struct Sheet {
    plan: Plan,
    k: Big,
    l: Big,
    steps: Vec<Step>,
}

impl Sheet {
    /// The sheet of a named plan, with the digits of its rows or of its joint form.
    pub fn of_plan(plan: Plan, k: Big, l: Big) -> Sheet {
        match plan {
            Plan::Joint => Sheet::from_columns(plan, k, l, &joint::recode(k, l)),
            Plan::Interleaved { m1, m2 } => Sheet::of_rows(Direction::Up, m1, m2, k, l),
        }
    }

    /// The sheet of plan I from rows of this kind.
    pub fn of_rows(direction: Direction, m1: u8, m2: u8, k: Big, l: Big) -> Sheet {
        let columns = columns(&direction.row(k, m1), &direction.row(l, m2));
        Sheet::from_columns(Plan::Interleaved { m1, m2 }, k, l, &columns)
    }

    /// The sheet of these columns, whoever chose their digits, from the highest non-zero place
    /// down to place 0.
    pub fn from_columns(plan: Plan, k: Big, l: Big, columns: &[Pair]) -> Sheet {
        let mut steps = Vec::new();
        for &column in columns.iter().rev() {
            if !steps.is_empty() {
                steps.push(Step::Double);
            }
            for pair in plan.steps(column) {
                let step = if steps.is_empty() { Step::Load(pair) } else { Step::Add(pair) };
                steps.push(step);
            }
        }
        Sheet { plan, k, l, steps }
    }

    pub fn additions(&self) -> usize {
        let in_table = self.plan.table().into_iter().filter(|&line| !is_doubling(line)).count();
        let in_steps = self.steps.iter().filter(|step| matches!(step, Step::Add(_))).count();
        in_table + in_steps
    }

    pub fn doublings(&self) -> usize {
        let in_table = self.plan.table().into_iter().filter(|&line| is_doubling(line)).count();
        let in_steps = self.steps.iter().filter(|step| matches!(step, Step::Double)).count();
        in_table + in_steps
    }

    pub fn to_bytes(&self) -> Vec<u8> {
        self.to_string().into_bytes()
    }
}

/// Two rows over the same places.
pub fn columns(k_row: &[i8], l_row: &[i8]) -> Vec<Pair> {
    let digit = |row: &[i8], place| row.get(place).copied().unwrap_or(0);
    let places = k_row.len().max(l_row.len());
    (0..places).map(|place| (digit(k_row, place), digit(l_row, place))).collect()
}

impl fmt::Display for Sheet {
    fn fmt(&self, out: &mut fmt::Formatter) -> fmt::Result {
        let (plan, slots) = (self.plan, self.plan.slots());
        let (additions, doublings) = (self.additions(), self.doublings());
        let (k, l) = (self.k.to_hex(), self.l.to_hex());
        writeln!(out, "S,{plan},{slots},{additions},{doublings},{k},{l}")?;
        for (a, b) in self.plan.table() {
            writeln!(out, "T,{a},{b}")?;
        }
        for step in &self.steps {
            match step {
                Step::Load((a, b)) => writeln!(out, "L,{a},{b}")?,
                Step::Double => writeln!(out, "D")?,
                Step::Add((a, b)) => writeln!(out, "A,{a},{b}")?,
            }
        }
        writeln!(out, "E")
    }
}

#[cfg(test)]
mod tests {
    use super::*;
    use crate::limits::Limits;
    use crate::random::Random;
    use crate::{reader, scalars};

    #[test]
    fn zero_has_a_table_and_no_load() {
        let joint = Sheet::of_plan(Plan::Joint, Big::ZERO, Big::ZERO);
        assert_eq!(joint.to_string(), "S,J,1,1,2,2,0,0,0\nT,1,1\nT,1,-1\nE\n");
        let plan = Plan::Interleaved { m1: 3, m2: 1 };
        let interleaved = Sheet::of_plan(plan, Big::ZERO, Big::ZERO);
        assert_eq!(interleaved.to_string(), "S,I,3,1,2,1,1,0,0\nT,2,0\nT,3,0\nE\n");
    }

    #[test]
    fn the_step_for_p_comes_first_and_the_first_step_loads() {
        let plan = Plan::Interleaved { m1: 1, m2: 1 };
        let sheet = Sheet::of_plan(plan, Big::from(1), Big::from(1));
        assert_eq!(sheet.to_string(), "S,I,1,1,0,1,0,1,1\nL,1,0\nA,0,1\nE\n");
    }
    #[test]
    fn a_minus_stands_in_the_header_and_before_the_digits() {
        let sheet = |k, l| {
            let plan = Plan::Interleaved { m1: 1, m2: 1 };
            Sheet::of_plan(plan, Big::from(k), Big::from(l)).to_string()
        };
        assert_eq!(sheet(-3, 1), "S,I,1,1,0,2,2,-3,1\nL,-1,0\nD\nD\nA,1,0\nA,0,1\nE\n");
        assert_eq!(sheet(3, -1), "S,I,1,1,0,2,2,3,-1\nL,1,0\nD\nD\nA,-1,0\nA,0,-1\nE\n");
        assert_eq!(sheet(-26, 0), "S,I,1,1,0,2,5,-1a,0\nL,-1,0\nD\nD\nA,1,0\nD\nD\nA,-1,0\nD\nE\n");
    }

    #[test]
    fn rows_of_either_kind_make_a_sheet_with_as_many_additions() {
        let sheet = |direction| Sheet::of_rows(direction, 1, 1, Big::from(11), Big::ZERO);
        let [up, down] = Direction::BOTH.map(|direction| sheet(direction).to_string());
        assert_eq!(up, "S,I,1,1,0,2,4,b,0\nL,1,0\nD\nD\nA,-1,0\nD\nD\nA,-1,0\nE\n");
        assert_eq!(down, "S,I,1,1,0,2,3,b,0\nL,1,0\nD\nA,1,0\nD\nD\nA,-1,0\nE\n");
    }

    #[test]
    fn every_plan_s_sheet_is_accepted_for_its_signed_pair() {
        let mut random = Random::new(16);
        for plan in Plan::all() {
            let (k, l) = scalars::random_pair(&mut random, Limits::Gateway);
            let sheet = Sheet::of_plan(plan, k.value(), l.value());
            assert_eq!(reader::read(&sheet.to_bytes(), Limits::Gateway), Ok(()));
        }
    }
}
