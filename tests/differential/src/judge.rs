//! Compares calls with the reference, counts them, and prints the first that fails.

use crate::host;
use crate::lent::Lent;
use crate::outcome::{Claim, Outcome};
use reference::answer::Answer;
use reference::calls::Call;
use reference::limits::Limits;
use reference::random::Random;
use std::fmt::{Arguments, Debug};

pub struct Judge {
    /// Whose calls are compared.
    limits: Limits,
    fills: Random,
    trace: bool,
    compared: u64,
    failed: u64,
}

impl Judge {
    pub fn new(seed: u64, trace: bool) -> Judge {
        let (limits, fills) = (Limits::Card, Random::new(!seed));
        Judge { limits, fills, trace, compared: 0, failed: 0 }
    }

    /// Whose calls are compared: the card's at first.
    pub fn limits(&self) -> Limits {
        self.limits
    }

    /// Compares with the calls of these limits from now on.
    pub fn turn_to(&mut self, limits: Limits) {
        self.limits = limits;
    }

    /// Makes comparisons with the calls of these limits, and turns back.
    pub fn at<T>(&mut self, limits: Limits, compare: impl FnOnce(&mut Judge) -> T) -> T {
        let before = std::mem::replace(&mut self.limits, limits);
        let found = compare(self);
        self.limits = before;
        found
    }

    pub fn compared(&self) -> u64 {
        self.compared
    }

    pub fn failed(&self) -> u64 {
        self.failed
    }

    /// Makes the call and compares it whole with the reference's answer.
    pub fn compare(&mut self, call: &Call) -> Outcome {
        self.compare_with(call, &call.answer(self.limits))
    }

    /// Makes the call and compares it whole with this answer.
    pub fn compare_with(&mut self, call: &Call, answer: &Answer) -> Outcome {
        let fill = self.fills.number();
        self.compare_filled(call, answer, fill, None)
    }

    /// Makes the call, compares it whole with the reference's answer, and holds a number found in
    /// its outcome, and the same one answered, against one found by other means.
    pub fn compare_claiming(&mut self, call: &Call, claim: &dyn Fn(&Outcome) -> Claim) -> Outcome {
        let fill = self.fills.number();
        self.compare_filled(call, &call.answer(self.limits), fill, Some(claim))
    }

    /// Holds what was found out about sheets against what it has to be.
    pub fn hold<T: PartialEq + Debug>(&mut self, what: Arguments, expected: T, got: T) {
        self.compared += 1;
        if got != expected {
            self.fail(&what.to_string(), &format!("{expected:?}"), &format!("{got:?}"));
        }
    }

    /// Repeats a call whose guards and buffers were first filled from this number.
    pub fn repeat(&mut self, call: &Call, fill: u64) {
        self.compare_filled(call, &call.answer(self.limits), fill, None);
    }

    fn compare_filled(
        &mut self,
        call: &Call,
        answer: &Answer,
        fill: u64,
        claim: Option<&dyn Fn(&Outcome) -> Claim>,
    ) -> Outcome {
        if self.trace {
            eprintln!("{} {call} {fill}", self.limits);
        }
        let random = &mut Random::new(fill);
        let mut inputs: Vec<Lent> =
            call.inputs().iter().map(|input| Lent::copy_of(input, random)).collect();
        let mut buffers: Vec<Lent> =
            call.rooms().iter().map(|&room| Lent::buffer(room, random)).collect();
        let code = host::make(self.limits, call, &mut inputs, &mut buffers);

        let expected = Outcome::expected(answer, &buffers);
        let got = Outcome::got(code, &buffers);
        let difference = if got != expected {
            Some((expected.beside(&got, call), got.beside(&expected, call)))
        } else if !inputs.iter().all(Lent::is_unchanged) {
            Some(("inputs unchanged".into(), "a changed input, or a guard byte beside it".into()))
        } else if !buffers.iter().all(Lent::guards_are_unchanged) {
            Some(("guard bytes unchanged".into(), "a changed guard byte".into()))
        } else {
            claim.and_then(|claim| claim(&got).difference())
        };
        self.compared += 1;
        if let Some((expected, got)) = difference {
            let mut failed =
                format!("repeat with: tests/differential/run {} {call} {fill}", self.limits);
            if let Call::Read { sheet } = call {
                failed += &format!("\nsheet: \"{}\"", sheet.escape_ascii());
            }
            self.fail(&failed, &expected, &got);
        }
        got
    }

    fn fail(&mut self, what: &str, expected: &str, got: &str) {
        self.failed += 1;
        if self.failed > 1 {
            return;
        }
        println!("FAILED; {what}");
        println!("expected: {expected}");
        println!("got: {got}");
    }
}
