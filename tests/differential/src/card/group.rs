//! The groups that a card may work in: the points of a curve, and pairs of whole numbers.

use super::curve::{Curve, Point};
use crate::big::Big;

/// A commutative group.
pub trait Group {
    type Point: Copy;

    fn zero(&self) -> Self::Point;
    fn doubled(&self, point: Self::Point) -> Self::Point;
    fn sum(&self, one: Self::Point, other: Self::Point) -> Self::Point;
    fn negated(&self, point: Self::Point) -> Self::Point;
}

impl Group for Curve {
    type Point = Point;

    fn zero(&self) -> Point {
        None
    }

    fn doubled(&self, point: Point) -> Point {
        Curve::doubled(self, point)
    }

    fn sum(&self, one: Point, other: Point) -> Point {
        Curve::sum(self, one, other)
    }

    fn negated(&self, point: Point) -> Point {
        Curve::negated(self, point)
    }
}

/// The pairs (a, b), which stand for aP + bQ.
pub struct Pairs;

impl Group for Pairs {
    type Point = (Big, Big);

    fn zero(&self) -> (Big, Big) {
        (Big::ZERO, Big::ZERO)
    }

    fn doubled(&self, (a, b): (Big, Big)) -> (Big, Big) {
        (a.doubled(), b.doubled())
    }

    fn sum(&self, one: (Big, Big), other: (Big, Big)) -> (Big, Big) {
        (one.0.sum(other.0), one.1.sum(other.1))
    }

    fn negated(&self, (a, b): (Big, Big)) -> (Big, Big) {
        (a.negated(), b.negated())
    }
}
