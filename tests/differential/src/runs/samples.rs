//! The samples of the documents, and the calls at the edges.

use crate::judge::Judge;
use reference::edges;
use reference::samples::{self, Says};

pub fn run(judge: &mut Judge) {
    let limits = judge.limits();
    for (call, says) in samples::all(limits) {
        if let Says::Whole(answer) = says {
            judge.compare_with(&call, &answer);
        } else {
            let answer = call.answer(limits);
            assert!(says.holds_of(&answer), "the reference fails a sample: {call}");
            judge.compare_with(&call, &answer);
        }
    }
    for (call, answer) in edges::all(limits) {
        judge.compare_with(&call, &answer);
    }
}
