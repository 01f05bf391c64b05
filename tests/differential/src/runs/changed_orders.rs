//! The list of changed orders, line by line as the proved program prints it.

use crate::judge::Judge;
use reference::changed_orders;

const PRINTED: &str =
    include_str!(concat!(env!("CARGO_MANIFEST_DIR"), "/../../crates/changes_main/stdout"));

pub fn run(judge: &mut Judge) {
    let list = changed_orders::list();
    let expected: Vec<&str> = list.split_inclusive('\n').collect();
    let printed: Vec<&str> = PRINTED.split_inclusive('\n').collect();
    for at in 0..expected.len().max(printed.len()) {
        let what = format_args!("line {} of crates/changes_main/stdout", at + 1);
        judge.hold(what, expected.get(at), printed.get(at));
    }
}
