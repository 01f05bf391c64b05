//! Outcomes of calls, and how a failed comparison is printed.

use crate::lent::Lent;
use reference::answer::Answer;
use reference::calls::Call;
use reference::next_limit::NextLimit;

/// The number that a call returned and what its buffers hold after it.
#[derive(PartialEq, Eq)]
pub struct Outcome {
    pub code: u64,
    pub buffers: Vec<Vec<u8>>,
}

/// A weight or a number of additions: what it has to be, what the buffers come to, and what the
/// call answered.
pub struct Claim {
    pub what: &'static str,
    pub expected: usize,
    pub counted: usize,
    pub answered: usize,
}

impl Claim {
    /// What was expected and what was got, where they differ.
    pub fn difference(&self) -> Option<(String, String)> {
        let Claim { what, expected, counted, answered } = self;
        let differ = counted != expected || answered != expected;
        let got = || format!("{what} {counted} counted, {answered} answered");
        differ.then(|| (format!("{what} {expected}"), got()))
    }
}

impl Outcome {
    /// What this answer returns, and what it leaves in the lent buffers.
    pub fn expected(answer: &Answer, lent: &[Lent]) -> Outcome {
        let mut buffers: Vec<Vec<u8>> =
            lent.iter().map(|buffer| buffer.before().to_vec()).collect();
        answer.leave_in(&mut buffers);
        Outcome { code: answer.code(), buffers }
    }

    pub fn got(code: u64, lent: &[Lent]) -> Outcome {
        Outcome { code, buffers: lent.iter().map(|buffer| buffer.now().to_vec()).collect() }
    }

    /// The question missed, or 0.
    pub fn number(&self) -> u64 {
        self.code >> 32
    }

    /// The length that a call other than the reader returned.
    pub fn length(&self) -> usize {
        usize::from(self.code as u16)
    }

    /// The weight that a call for a row or for a joint form returned.
    pub fn weight(&self) -> usize {
        usize::from((self.code >> 16) as u16)
    }

    /// The additions that a call for a sheet returned.
    pub fn additions(&self) -> usize {
        usize::from((self.code >> 16) as u16)
    }

    /// The next limit that pays, if the call for it returned one.
    pub fn next_limit(&self) -> Option<NextLimit> {
        let (limit, additions) = (usize::from(self.code as u16), self.additions());
        (self.number() == 0 && limit != 0).then_some(NextLimit { limit, additions })
    }

    /// The most digits that are not 0, which the call for the dearest scalar returned.
    pub fn most(&self) -> usize {
        self.code as u32 as usize
    }

    /// The line that the reader returned.
    pub fn line(&self) -> u32 {
        self.code as u32
    }

    /// The sheet that the call wrote, if it returned the length of one.
    pub fn sheet(&self) -> Option<&[u8]> {
        let buffer = self.buffers.first().filter(|_| self.number() == 0)?;
        buffer.get(..self.length())
    }

    /// The parts of the number that the call returned.
    fn parts(&self, call: &Call) -> String {
        let (number, length) = (self.number(), self.length());
        match call {
            Call::Row { .. } | Call::Joint { .. } | Call::JointCodes { .. } => {
                format!("number {number}, length {length}, weight {}", self.weight())
            }
            Call::PlanJ { .. } | Call::PlanI { .. } | Call::Cheapest { .. } => {
                format!("number {number}, length {length}, additions {}", self.additions())
            }
            Call::Read { .. } => format!("number {number}, line {}", self.line()),
            Call::Pack { .. } | Call::Unpack { .. } => {
                format!("number {number}, low half {}", self.code as u32)
            }
            Call::NextLimit { .. } => {
                format!(
                    "number {number}, limit {}, additions {}",
                    self.code as u16,
                    self.additions()
                )
            }
            Call::Dearest { .. } => format!("number {number}, most {}", self.most()),
        }
    }

    /// The outcome in words, with the buffers as far as they matter beside the other outcome.
    pub fn beside(&self, other: &Outcome, call: &Call) -> String {
        let mut words = self.parts(call);
        for (mine, others) in self.buffers.iter().zip(&other.buffers) {
            let differ = mine.iter().zip(others).rposition(|(mine, others)| mine != others);
            let written = self.sheet().into_iter().chain(other.sheet()).map(<[u8]>::len).max();
            let count = written.max(differ.map(|place| place + 1)).unwrap_or(0);
            words += &format!("\n  {}", show(&mine[..count.min(mine.len())], call));
        }
        words
    }
}

/// Digits, packed columns and scalars as numbers, sheets as text.
fn show(bytes: &[u8], call: &Call) -> String {
    match call {
        Call::Row { .. } | Call::Joint { .. } | Call::JointCodes { .. } | Call::Unpack { .. } => {
            format!("{:?}", bytes.iter().map(|&byte| byte as i8).collect::<Vec<_>>())
        }
        Call::Pack { .. } | Call::Dearest { .. } => format!("{bytes:?}"),
        _ => format!("\"{}\"", bytes.escape_ascii()),
    }
}
