//! The cheapest sheet under a slot limit.

use crate::big::Big;
use crate::plan::Plan;
use crate::sheet::Sheet;
use crate::{joint, row};

/// The length and the weight of a row or a joint form, or of two rows side by side.
#[derive(Clone, Copy)]
struct Form {
    length: usize,
    weight: usize,
}

/// All forms of one pair of scalars.
pub struct Forms {
    k: Big,
    l: Big,
    k_rows: Vec<Form>,
    l_rows: Vec<Form>,
    joint: Form,
}

impl Forms {
    pub fn of(k: Big, l: Big) -> Forms {
        let columns = joint::recode(k, l);
        let joint = Form { length: columns.len(), weight: joint::weight(&columns) };
        Forms { k, l, k_rows: rows(k), l_rows: rows(l), joint }
    }

    /// The additions of the plan's sheet.
    pub fn additions(&self, plan: Plan) -> usize {
        additions(plan, self.form(plan).weight)
    }

    /// The doublings of the plan's sheet: the table's, and one for each place below the top one.
    pub fn doublings(&self, plan: Plan) -> usize {
        plan.table_doublings() + self.form(plan).length.saturating_sub(1)
    }

    /// The plan of the cheapest sheet: fewest additions; then fewest doublings; then fewest slots;
    /// then J before I; then smaller m1.
    pub fn cheapest(&self, limit: usize) -> Plan {
        let order = |plan: &Plan| {
            let (additions, doublings) = (self.additions(*plan), self.doublings(*plan));
            (additions, doublings, plan.slots(), *plan != Plan::Joint, plan.windows().0)
        };
        Plan::within(limit).min_by_key(order).expect("windows 1, 1 need no slot")
    }

    /// The cheapest sheet.
    pub fn cheapest_sheet(&self, limit: usize) -> Sheet {
        Sheet::of_plan(self.cheapest(limit), self.k, self.l)
    }

    /// The form that the plan's steps are taken from.
    fn form(&self, plan: Plan) -> Form {
        match plan {
            Plan::Joint => self.joint,
            Plan::Interleaved { m1, m2 } => {
                let k_row = self.k_rows[usize::from(m1 / 2)];
                let l_row = self.l_rows[usize::from(m2 / 2)];
                let length = k_row.length.max(l_row.length);
                Form { length, weight: k_row.weight + l_row.weight }
            }
        }
    }
}

/// The scalar's rows for all windows.
fn rows(scalar: Big) -> Vec<Form> {
    let form = |digits: Vec<i8>| Form { length: digits.len(), weight: row::weight(&digits) };
    row::windows().map(|m| form(row::recode(scalar, m))).collect()
}

/// The additions of a sheet of the plan with this many steps: the table's, and every step but the
/// load.
pub fn additions(plan: Plan, weight: usize) -> usize {
    plan.table_additions() + weight.saturating_sub(1)
}

#[cfg(test)]
mod tests {
    use super::*;
    use crate::limits::Limits;
    use crate::plan::MOST_SLOTS;
    use crate::random::Random;
    use crate::scalars::{self, Scalar};

    #[test]
    fn additions_and_doublings_are_those_counted_on_the_sheet() {
        let mut random = Random::new(6);
        let mut pairs: Vec<_> =
            (0..10).map(|_| scalars::random_pair(&mut random, Limits::Gateway)).collect();
        let (zero, all_ones) = (Scalar::plus([0]), Scalar::plus([255; 128]));
        pairs.push((zero.clone(), zero.clone()));
        pairs.push((zero, Scalar::minus([3])));
        pairs.push((all_ones.clone(), all_ones.with_sign(1)));
        for (k, l) in pairs {
            let (k, l) = (k.value(), l.value());
            let forms = Forms::of(k, l);
            for plan in Plan::all() {
                let sheet = Sheet::of_plan(plan, k, l);
                assert_eq!(forms.additions(plan), sheet.additions());
                assert_eq!(forms.doublings(plan), sheet.doublings());
            }
        }
    }

    #[test]
    fn ties_go_to_fewer_doublings_then_to_fewer_slots_then_to_j_then_to_smaller_m1() {
        for k in 0..40 {
            for l in 0..40 {
                let forms = Forms::of(Big::from(k), Big::from(l));
                for limit in 0..=MOST_SLOTS as usize {
                    let best = forms.cheapest(limit);
                    assert!(best.slots() <= limit);
                    assert!(!Plan::within(limit).any(|plan| comes_before(&forms, plan, best)));
                }
            }
        }
    }

    #[test]
    fn neither_the_counts_nor_the_plan_change_with_the_signs() {
        let mut random = Random::new(15);
        let small = (0..16 * 16).map(|pair| (Big::from(pair / 16), Big::from(pair % 16)));
        let long: Vec<_> =
            (0..10).map(|_| scalars::random_pair(&mut random, Limits::Gateway)).collect();
        for (k, l) in small.chain(long.iter().map(|(k, l)| (k.value(), l.value()))) {
            let forms = Forms::of(k, l);
            for (k, l) in [(k.negated(), l), (k, l.negated()), (k.negated(), l.negated())] {
                let signed = Forms::of(k, l);
                for plan in Plan::all() {
                    assert_eq!(signed.additions(plan), forms.additions(plan));
                    assert_eq!(signed.doublings(plan), forms.doublings(plan));
                }
                for limit in 0..=MOST_SLOTS as usize {
                    assert_eq!(signed.cheapest(limit), forms.cheapest(limit));
                }
            }
        }
    }

    /// The order of the plans, spelled out.
    fn comes_before(forms: &Forms, plan: Plan, other: Plan) -> bool {
        if forms.additions(plan) != forms.additions(other) {
            return forms.additions(plan) < forms.additions(other);
        }
        if forms.doublings(plan) != forms.doublings(other) {
            return forms.doublings(plan) < forms.doublings(other);
        }
        if plan.slots() != other.slots() {
            return plan.slots() < other.slots();
        }
        match (plan, other) {
            (Plan::Joint, Plan::Interleaved { .. }) => true,
            (Plan::Interleaved { m1, .. }, Plan::Interleaved { m1: other_m1, .. }) => m1 < other_m1,
            _ => false,
        }
    }
}
