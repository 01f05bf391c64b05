//! Real licences: ECDSA signatures made with OpenSSL, from licences.txt, whose first lines say how
//! they are checked.

use crate::card::curve::{Curve, Point};
use crate::card::modular::{Modulus, Number};
use std::rc::Rc;

pub struct Licences {
    pub curves: Vec<Rc<Curve>>,
    pub licences: Vec<Licence>,
}

/// A signature of the digest z by the holder of the key q.
#[derive(Clone)]
pub struct Licence {
    pub curve: Rc<Curve>,
    pub q: Point,
    pub z: Number,
    pub r: Number,
    pub s: Number,
}

impl Licence {
    /// The scalars of the check: z/s for the generator, r/s for the key.
    pub fn scalars(&self) -> (Vec<u8>, Vec<u8>) {
        let n = &self.curve.order;
        let s = n.residue(self.s);
        let bytes = n.modulus().bit_length().div_ceil(8);
        let over_s = |number| n.number(n.over(n.residue(number), s)).to_bytes(bytes);
        (over_s(self.z), over_s(self.r))
    }

    /// Is the licence valid, where its scalars came to this point?
    pub fn is_valid(&self, point: Point) -> bool {
        let n = &self.curve.order;
        let x = self.curve.x(point).map(|x| n.number(n.residue(x)));
        self.r.is_below(n.modulus()) && x == Some(self.r)
    }

    /// A valid licence with the key of this one and these scalars, for a digest that comes from
    /// them.
    #[must_use]
    pub fn with_scalars(&self, u1: Number, u2: Number) -> Licence {
        let curve = &self.curve;
        let n = &curve.order;
        let point = curve.sum(curve.multiple(u1, curve.g), curve.multiple(u2, self.q));
        let r = n.residue(curve.x(point).expect("a point that is not at infinity"));
        let s = n.over(r, n.residue(u2));
        let z = n.times(n.residue(u1), s);
        Licence { z: n.number(z), r: n.number(r), s: n.number(s), ..self.clone() }
    }
}

pub fn all() -> Licences {
    let mut all = Licences { curves: Vec::new(), licences: Vec::new() };
    let mut names = Vec::new();
    for line in include_str!("../licences.txt").lines() {
        let words: Vec<&str> = line.split(',').collect();
        let number = |at: usize| Number::from_hex(words[at]).expect("hexadecimal figures");
        match words[0] {
            "curve" => {
                let (field, order) = (Modulus::new(number(2)), Modulus::new(number(4)));
                let (a, g) = (field.residue(number(3)), (number(5), number(6)));
                let mut curve = Curve { field, a, order, g: None };
                curve.g = curve.point(g.0, g.1);
                all.curves.push(Rc::new(curve));
                names.push(words[1]);
            }
            "sign" => {
                let named = names.iter().position(|&name| name == words[1]);
                let curve = &all.curves[named.expect("the curve of a signature stands before it")];
                let (curve, q) = (curve.clone(), curve.point(number(2), number(3)));
                let (z, r, s) = (number(4), number(5), number(6));
                all.licences.push(Licence { curve, q, z, r, s });
            }
            _ => assert!(line.starts_with('#'), "a line of licences.txt: {line}"),
        }
    }
    all
}

#[cfg(test)]
mod tests {
    use super::*;

    #[test]
    fn sixty_on_three_curves_are_valid() {
        let all = all();
        assert_eq!((all.curves.len(), all.licences.len()), (3, 60));
        for licence in &all.licences {
            let curve = &licence.curve;
            let (u1, u2) = licence.scalars();
            let of_g = curve.multiple(Number::from_bytes(&u1), curve.g);
            let of_q = curve.multiple(Number::from_bytes(&u2), licence.q);
            assert!(licence.is_valid(curve.sum(of_g, of_q)));
            assert!(!licence.is_valid(of_g));
            assert!(!licence.is_valid(None));
        }
    }

    #[test]
    fn a_licence_is_made_for_two_scalars() {
        let all = all();
        for licence in all.licences.iter().step_by(20) {
            let (u1, u2) = (Number::from_bytes(&[7]), Number::from_bytes(&[2; 32]));
            let (k, l) = licence.with_scalars(u1, u2).scalars();
            assert_eq!((Number::from_bytes(&k), Number::from_bytes(&l)), (u1, u2));
        }
    }
}
