//! Points of a curve y² = x³ + ax + b modulo p, in affine coordinates.

use super::modular::{Modulus, Number, Residue};

/// A point; none is the one at infinity.
pub type Point = Option<(Residue, Residue)>;

pub struct Curve {
    pub field: Modulus,
    pub a: Residue,
    /// The order of the point g.
    pub order: Modulus,
    pub g: Point,
}

impl Curve {
    /// The point with these coordinates.
    pub fn point(&self, x: Number, y: Number) -> Point {
        Some((self.field.residue(x), self.field.residue(y)))
    }

    /// The x coordinate, of a point that is not at infinity.
    pub fn x(&self, point: Point) -> Option<Number> {
        point.map(|(x, _)| self.field.number(x))
    }

    pub fn negated(&self, point: Point) -> Point {
        point.map(|(x, y)| (x, self.field.minus(Residue::ZERO, y)))
    }

    pub fn doubled(&self, point: Point) -> Point {
        let (x, y) = point?;
        if y == Residue::ZERO {
            return None;
        }
        let f = &self.field;
        let square = f.times(x, x);
        let rise = f.plus(f.plus(f.plus(square, square), square), self.a);
        self.on_line(f.over(rise, f.plus(y, y)), (x, y), x)
    }

    pub fn sum(&self, one: Point, other: Point) -> Point {
        let (Some((x1, y1)), Some((x2, y2))) = (one, other) else {
            return one.or(other);
        };
        if x1 == x2 {
            return if y1 == y2 { self.doubled(one) } else { None };
        }
        let f = &self.field;
        let slope = f.over(f.minus(y2, y1), f.minus(x2, x1));
        self.on_line(slope, (x1, y1), x2)
    }

    /// n times a point, by the bits of n.
    pub fn multiple(&self, n: Number, point: Point) -> Point {
        (0..n.bit_length()).rev().fold(None, |sum, place| {
            let double = self.doubled(sum);
            if n.has_bit(place) {
                self.sum(double, point)
            } else {
                double
            }
        })
    }

    /// The sum of the two points on a line of this slope, one whole and one by its x coordinate.
    fn on_line(&self, slope: Residue, (x, y): (Residue, Residue), other: Residue) -> Point {
        let f = &self.field;
        let sum = f.minus(f.minus(f.times(slope, slope), x), other);
        Some((sum, f.minus(f.times(slope, f.minus(x, sum)), y)))
    }
}

#[cfg(test)]
mod tests {
    use crate::licences;

    #[test]
    fn the_order_times_the_generator_is_at_infinity() {
        for curve in licences::all().curves {
            let n = curve.order.modulus();
            assert_eq!(curve.multiple(n, curve.g), None);
            let one_less = n.with_bit_changed(0);
            assert_eq!(curve.multiple(one_less, curve.g), curve.negated(curve.g));
        }
    }

    #[test]
    fn sums_in_every_order() {
        for curve in licences::all().curves {
            let one = curve.g;
            let two = curve.doubled(one);
            let three = curve.sum(two, one);
            assert_eq!(curve.sum(one, one), two);
            assert_eq!(curve.sum(one, two), three);
            assert_eq!(curve.sum(one, three), curve.doubled(two));
            assert_eq!(curve.sum(three, curve.negated(one)), two);
            assert_eq!(curve.sum(one, curve.negated(one)), None);
            assert_eq!(curve.sum(None, two), two);
            assert_eq!(curve.sum(two, None), two);
            assert_eq!(curve.doubled(None), None);
        }
    }
}
