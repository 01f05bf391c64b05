//! The orders whose plan changed when fewest doublings were put before fewest slots.

use crate::big::Big;
use crate::cheapest::Forms;
use crate::plan::Plan;

/// The orders that are looked at: both scalars are below 16, and the limit is at most 3.
fn orders() -> impl Iterator<Item = (i64, i64, usize)> {
    let limits = |k, l| (0..=3).map(move |limit| (k, l, limit));
    (0..16).flat_map(move |k| (0..16).flat_map(move |l| limits(k, l)))
}

/// A line for each changed order, by k, then l, then the limit.
pub fn list() -> String {
    orders().filter_map(|(k, l, limit)| line(k, l, limit)).collect()
}

/// The order as it is spelled, its plan before and its plan now; nothing where they are the same.
fn line(k: i64, l: i64, limit: usize) -> Option<String> {
    let (k, l) = (Big::from(k), Big::from(l));
    let forms = Forms::of(k, l);
    let (before, now) = (cheapest_before(&forms, limit), forms.cheapest(limit));
    let (k, l) = (k.to_hex(), l.to_hex());
    (before != now).then(|| format!("{k},{l},{limit},{before},{now}\n"))
}

/// The plan of the cheapest sheet as it was: fewest additions; then fewest slots; then J before I;
/// then smaller m1.
fn cheapest_before(forms: &Forms, limit: usize) -> Plan {
    let order = |plan: &Plan| {
        (forms.additions(*plan), plan.slots(), *plan != Plan::Joint, plan.windows().0)
    };
    Plan::within(limit).min_by_key(order).expect("windows 1, 1 need no slot")
}

#[cfg(test)]
mod tests {
    use super::*;

    /// The order of a line: k, l and the limit.
    fn order(line: &str) -> (i64, i64, usize) {
        let fields: Vec<&str> = line.split(',').collect();
        let scalar = |at: usize| i64::from_str_radix(fields[at], 16).expect("a scalar");
        (scalar(0), scalar(1), fields[2].parse().expect("a limit"))
    }

    /// Is this the list's line for an order? An order that has none is given an empty one.
    fn check(k: i64, l: i64, limit: usize, expected: &str) {
        let list = list();
        let found = list.lines().find(|line| order(line) == (k, l, limit));
        assert_eq!(found.unwrap_or_default(), expected);
    }

    #[test]
    fn lines_known_by_hand() {
        // 3P by 4P − P takes an addition and two doublings, by 2P + P one of each.
        check(3, 0, 1, "");
        check(3, 0, 2, "3,0,2,I,1,1,I,3,1");
        check(0, 3, 3, "0,3,3,I,1,1,I,1,3");
        check(3, 1, 2, "3,1,2,I,1,1,I,3,1");
        // 2Q takes a doubling more beside 3P, and none beside 4P − P.
        check(3, 2, 2, "");
        // By 8 − 2 and 16 − 4 − 1 four additions and four doublings; jointly, with the columns
        // 1,1 and 0,0 and -1,1 and 0,1 from the top, four and three.
        check(6, 11, 2, "6,b,2,I,1,1,J,1,1");
    }

    #[test]
    fn lines_are_in_order_and_begin_where_a_second_plan_is_within_the_limit() {
        let list = list();
        let orders: Vec<_> = list.lines().map(order).collect();
        assert!(orders.windows(2).all(|two| two[0] < two[1]));
        assert_eq!(orders.iter().map(|order| order.2).min(), Some(2));
        assert_eq!(Plan::within(1).count(), 1);
    }

    #[test]
    fn a_changed_plan_has_as_many_additions_and_fewer_doublings() {
        for (k, l, limit) in list().lines().map(order) {
            let forms = Forms::of(Big::from(k), Big::from(l));
            let (before, now) = (cheapest_before(&forms, limit), forms.cheapest(limit));
            assert_eq!(forms.additions(now), forms.additions(before));
            assert!(forms.doublings(now) < forms.doublings(before));
        }
    }
}
