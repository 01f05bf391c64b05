//! A card in software: it has P, Q and what the T lines stored, and makes one group operation for
//! each T, D and A line.

pub mod curve;
pub mod group;
pub mod modular;

use crate::big::Big;
use group::{Group, Pairs};
use std::collections::HashMap;

/// What a card came to, in how many places beside those of P and Q, and by how many group
/// operations.
pub struct Run<Point> {
    pub result: Point,
    pub slots: usize,
    pub additions: usize,
    pub doublings: usize,
}

struct Card<'a, G: Group> {
    group: &'a G,
    /// The points at hand, aP + bQ under (a, b).
    stored: HashMap<(i32, i32), G::Point>,
    /// 2P while multiples of P are stored, then 2Q, in one place; none where neither is made.
    double: Option<G::Point>,
    run: Run<G::Point>,
}

/// Runs the lines of a sheet for P and Q; none where a line is not one that the card can carry
/// out. The header is not looked at.
pub fn run<G: Group>(group: &G, p: G::Point, q: G::Point, sheet: &str) -> Option<Run<G::Point>> {
    let stored = HashMap::from([((1, 0), p), ((0, 1), q)]);
    let run = Run { result: group.zero(), slots: 0, additions: 0, doublings: 0 };
    let mut card = Card { group, stored, double: None, run };
    for line in sheet.lines().skip(1) {
        let words: Vec<&str> = line.split(',').collect();
        match words[..] {
            ["T", a, b] => card.store(a.parse().ok()?, b.parse().ok()?)?,
            ["L", a, b] => card.run.result = card.point(a.parse().ok()?, b.parse().ok()?)?,
            ["D"] => card.run.result = card.doubled(card.run.result),
            ["A", a, b] => {
                let point = card.point(a.parse().ok()?, b.parse().ok()?)?;
                card.run.result = card.sum(card.run.result, point);
            }
            ["E"] => return Some(card.ended()),
            _ => return None,
        }
    }
    None
}

/// Runs a sheet in pairs of whole numbers: it comes to the (a, b) for which it makes aP + bQ.
pub fn run_in_pairs(sheet: &str) -> Option<Run<(Big, Big)>> {
    let (zero, one) = (Big::ZERO, Big::from(1));
    run(&Pairs, (one, zero), (zero, one), sheet)
}

impl<G: Group> Card<'_, G> {
    fn store(&mut self, a: i32, b: i32) -> Option<()> {
        let point = match (a, b) {
            (2, 0) | (0, 2) => {
                self.double = Some(self.doubled(self.point(a / 2, b / 2)?));
                return Some(());
            }
            (1, _) => self.sum(self.point(1, 0)?, self.point(0, b)?),
            (_, 0) => self.sum(self.point(a - 2, 0)?, self.double?),
            (0, _) => self.sum(self.point(0, b - 2)?, self.double?),
            _ => return None,
        };
        self.stored.insert((a, b), point);
        Some(())
    }

    /// The run, with the places that it took.
    fn ended(self) -> Run<G::Point> {
        let slots = self.stored.len() - 2 + usize::from(self.double.is_some());
        Run { slots, ..self.run }
    }

    /// The point aP + bQ, if it or its negative is at hand.
    fn point(&self, a: i32, b: i32) -> Option<G::Point> {
        let negated = || self.stored.get(&(-a, -b)).map(|&point| self.group.negated(point));
        self.stored.get(&(a, b)).copied().or_else(negated)
    }

    fn doubled(&mut self, point: G::Point) -> G::Point {
        self.run.doublings += 1;
        self.group.doubled(point)
    }

    fn sum(&mut self, one: G::Point, other: G::Point) -> G::Point {
        self.run.additions += 1;
        self.group.sum(one, other)
    }
}

#[cfg(test)]
mod tests {
    use super::*;
    use crate::limits::Limits;
    use crate::plan::Plan;
    use crate::random::Random;
    use crate::samples::SEVEN_AND_TWO;
    use crate::sheet::Sheet;
    use crate::{licences, scalars};

    #[test]
    fn seven_p_and_two_q() {
        let curve = &licences::all().curves[0];
        let p = curve.g;
        let q = curve.doubled(curve.doubled(p));
        let run = run(&**curve, p, q, SEVEN_AND_TWO).expect("lines that a card can carry out");
        let eight = curve.doubled(q);
        let fifteen = curve.sum(curve.doubled(eight), curve.negated(p));
        assert_eq!(run.result, fifteen);
        assert_eq!((run.slots, run.additions, run.doublings), (0, 2, 3));
    }

    #[test]
    fn a_sheet_in_pairs_comes_to_its_signed_pair() {
        let pair = |sheet| run_in_pairs(sheet).map(|run| run.result);
        let numbers = |a, b| Some((Big::from(a), Big::from(b)));
        assert_eq!(pair(SEVEN_AND_TWO), numbers(7, 2));
        assert_eq!(pair("S\nL,-1,0\nD\nD\nA,0,1\nD\nA,1,0\nE\n"), numbers(-7, 2));
        assert_eq!(pair("S\nT,1,1\nT,1,-1\nL,-1,1\nD\nA,-1,-1\nE\n"), numbers(-3, 1));
        assert_eq!(pair("S\nT,0,2\nT,0,3\nL,0,-3\nE\n"), numbers(0, -3));
        assert_eq!(pair("S\nE\n"), numbers(0, 0));
        assert_eq!(pair("S\nL,0,3\nE\n"), None);
        let mut random = Random::new(17);
        for plan in Plan::all() {
            let (k, l) = scalars::random_pair(&mut random, Limits::Gateway);
            let sheet = Sheet::of_plan(plan, k.value(), l.value());
            let run = run_in_pairs(&sheet.to_string()).expect("lines that a card can carry out");
            assert_eq!(run.result, (k.value(), l.value()));
            let counted = (plan.slots(), sheet.additions(), sheet.doublings());
            assert_eq!((run.slots, run.additions, run.doublings), counted);
        }
    }

    #[test]
    fn the_places_that_a_run_took() {
        let curve = &licences::all().curves[0];
        let took =
            |sheet| run(&**curve, curve.g, curve.doubled(curve.g), sheet).map(|run| run.slots);
        assert_eq!(took("S\nT,1,1\nT,1,-1\nE\n"), Some(2));
        assert_eq!(took("S\nT,2,0\nT,3,0\nE\n"), Some(2));
        assert_eq!(took("S\nT,2,0\nT,3,0\nT,0,2\nT,0,3\nT,0,5\nE\n"), Some(4));
    }

    #[test]
    fn a_point_that_is_not_stored_is_not_at_hand() {
        let curve = &licences::all().curves[0];
        let runs = |sheet| run(&**curve, curve.g, curve.g, sheet).is_some();
        assert!(runs("S\nT,2,0\nT,3,0\nL,-3,0\nE\n"));
        assert!(!runs("S\nL,3,0\nE\n"));
        assert!(!runs("S\nT,3,0\nE\n"));
        assert!(!runs("S\nT,2,0\nT,3,0\nL,2,0\nE\n"));
        assert!(!runs("S\nL,1,1\nE\n"));
        assert!(!runs("S\nL,1,0\n"));
        assert!(!runs("S\nL,1,0\nX\nE\n"));
    }
}
