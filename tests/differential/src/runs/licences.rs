//! Real licences, checked by a card in software that runs the archive's sheets; and what becomes of
//! them with a recoder whose carry stops.

use crate::judge::Judge;
use reference::answer::Answer;
use reference::big::Big;
use reference::calls::Call;
use reference::card::curve::Point;
use reference::card::modular::Number;
use reference::card::{self, Run};
use reference::carry_stops;
use reference::direction::Direction;
use reference::licences::{self, Licence};
use reference::plan::Plan;
use reference::random::Random;
use reference::scalars::Scalar;
use reference::sheet::{columns, Sheet};

const LIMITS: [u32; 8] = [0, 1, 2, 3, 5, 8, 15, 31];
const WINDOWS: [(u32, u32); 5] = [(1, 1), (3, 1), (5, 7), (15, 9), (31, 31)];

/// The licences are checked by the card's sheets.
const ROOM: usize = 16_384;

/// A scalar with a 32-bit word of ones to which a carry comes.
const WITH_A_WORD_OF_ONES: &str = "1234567890abcdefffffffffc0ffee11";

/// What the run came to.
#[derive(Default)]
pub struct Found {
    pub licences: usize,
    pub sheets: usize,
    pub operations: usize,
    /// The licences that the wrong recoder spoils.
    pub spoiled: usize,
}

pub fn run(judge: &mut Judge, random: &mut Random) -> Found {
    let licences = licences::all().licences;
    let mut trial = Trial { judge, random, found: Found::default() };
    for licence in &licences {
        trial.real(licence);
    }
    for licence in licences.iter().step_by(20) {
        let u1 = Number::from_hex(WITH_A_WORD_OF_ONES).expect("hexadecimal figures");
        trial.made(&licence.with_scalars(u1, licence.r));
    }
    trial.found
}

struct Trial<'a> {
    judge: &'a mut Judge,
    random: &'a mut Random,
    found: Found,
}

impl Trial<'_> {
    /// A real licence verifies by every sheet; with a bit of it changed, or a sign of a sheet turned,
    /// it does not. It does by the wrong recoder's sheet.
    fn real(&mut self, licence: &Licence) {
        self.found.licences += 1;
        for call in calls(licence) {
            self.check(licence, &call, true);
        }
        for changed in self.changed(licence) {
            let call = cheapest(&changed, self.random.pick(&LIMITS));
            self.check(&changed, &call, false);
        }
        self.sign_turned(licence);
        self.signed(licence);
        let survives = self.survives(licence);
        self.judge.hold(format_args!("a real licence by a carry that stops"), true, survives);
        self.found.spoiled += usize::from(!survives);
    }

    /// A licence made for the wrong recoder verifies by every sheet, and not by the wrong one.
    fn made(&mut self, licence: &Licence) {
        for call in calls(licence) {
            self.check(licence, &call, true);
        }
        let survives = self.survives(licence);
        self.judge.hold(format_args!("the licence made for a carry that stops"), false, survives);
    }

    /// Orders the sheet and runs it: it finds the licence valid or not, in as many places and by as
    /// many group operations as its header says, and by as many additions as the call answered.
    fn check(&mut self, licence: &Licence, call: &Call, valid: bool) {
        let (sheet, answered) = self.order(call);
        let run = self.run(licence, &sheet);
        let finds = run.as_ref().map(|run| licence.is_valid(run.result));
        self.judge.hold(format_args!("is it valid, by {call}"), Some(valid), finds);
        let made = run.map(|run| [run.slots, run.additions, run.doublings]);
        self.judge.hold(format_args!("slots and operations, by {call}"), counted(&sheet), made);
        let additions = made.map(|[_, additions, _]| additions);
        self.judge.hold(format_args!("additions answered, by {call}"), Some(answered), additions);
    }

    /// The sheet that the call writes, and the additions that it answers.
    fn order(&mut self, call: &Call) -> (String, usize) {
        let outcome = self.judge.compare(call);
        let sheet = String::from_utf8_lossy(outcome.sheet().unwrap_or_default()).into_owned();
        (sheet, outcome.additions())
    }

    fn run(&mut self, licence: &Licence, sheet: &str) -> Option<Run<Point>> {
        let run = card::run(&*licence.curve, licence.curve.g, licence.q, sheet)?;
        self.found.sheets += 1;
        self.found.operations += run.additions + run.doublings;
        Some(run)
    }

    /// The licence with one bit changed: of the digest, of r, and of s.
    fn changed(&mut self, licence: &Licence) -> [Licence; 3] {
        let mut change = |number: Number| number.with_bit_changed(self.random.below(250));
        [
            Licence { z: change(licence.z), ..licence.clone() },
            Licence { r: change(licence.r), ..licence.clone() },
            Licence { s: change(licence.s), ..licence.clone() },
        ]
    }

    /// With the sign of one digit turned the reader refuses the sheet, and the card does not find
    /// the licence valid.
    fn sign_turned(&mut self, licence: &Licence) {
        let call = cheapest(licence, self.random.pick(&LIMITS));
        let (sheet, _) = self.order(&call);
        let steps = sheet.lines().filter(|line| is_step(line)).count();
        let turned = with_step_turned(&sheet, self.random.below(steps));
        let read = Call::Read { sheet: turned.clone().into_bytes() };
        self.judge.compare_with(&read, &Answer::refused(11, 1));
        let finds = self.run(licence, &turned).map(|run| licence.is_valid(run.result));
        self.judge.hold(format_args!("is it valid, by {call}, a sign turned"), Some(false), finds);
    }

    /// With a minus before a scalar of the licence, or before both, the card comes to that multiple
    /// taken off.
    fn signed(&mut self, licence: &Licence) {
        let curve = &licence.curve;
        let (k, l) = licence.scalars();
        let multiple = |bytes: &[u8], point| curve.multiple(Number::from_bytes(bytes), point);
        let (of_g, of_q) = (multiple(&k, curve.g), multiple(&l, licence.q));
        for (ks, ls) in [(0, 1), (1, 0), (1, 1)] {
            let with = |sign, point| if sign == 0 { point } else { curve.negated(point) };
            let expected = curve.sum(with(ks, of_g), with(ls, of_q));
            let call =
                any_call(self.random, Scalar::new(k.clone(), ks), Scalar::new(l.clone(), ls));
            let (sheet, _) = self.order(&call);
            let result = self.run(licence, &sheet).map(|run| run.result);
            self.judge.hold(format_args!("the point, by {call}"), Some(expected), result);
        }
    }

    /// Does the licence verify by the wrong recoder's sheet? Where it does not, the reader refuses
    /// the sheet.
    fn survives(&mut self, licence: &Licence) -> bool {
        let (k, l) = licence.scalars();
        let plan = Plan::Interleaved { m1: 1, m2: 1 };
        let columns = columns(&carry_stops::recode(&k), &carry_stops::recode(&l));
        let sheet = Sheet::from_columns(plan, Big::from_bytes(&k), Big::from_bytes(&l), &columns);
        let run = self.run(licence, &sheet.to_string());
        let valid = run.is_some_and(|run| licence.is_valid(run.result));
        let answer = if valid { Answer::Accepted } else { Answer::refused(11, 1) };
        self.judge.compare_with(&Call::Read { sheet: sheet.to_bytes() }, &answer);
        valid
    }
}

/// The sheets that are ordered for a licence.
fn calls(licence: &Licence) -> Vec<Call> {
    let (k, l) = plus_scalars(licence);
    let mut calls = vec![Call::PlanJ { k: k.clone(), l: l.clone(), room: ROOM }];
    for direction in Direction::BOTH {
        calls.extend(WINDOWS.map(|(m1, m2)| {
            let (k, l) = (k.clone(), l.clone());
            Call::PlanI { direction, k, l, m1, m2, room: ROOM }
        }));
    }
    calls.extend(LIMITS.map(|limit| cheapest(licence, limit)));
    calls
}

fn cheapest(licence: &Licence, limit: u32) -> Call {
    let (k, l) = plus_scalars(licence);
    Call::Cheapest { k, l, limit, room: ROOM }
}

fn plus_scalars(licence: &Licence) -> (Scalar, Scalar) {
    let (k, l) = licence.scalars();
    (Scalar::plus(k), Scalar::plus(l))
}

/// One of the calls that write a sheet for these scalars.
fn any_call(random: &mut Random, k: Scalar, l: Scalar) -> Call {
    let ((m1, m2), limit) = (random.pick(&WINDOWS), random.pick(&LIMITS));
    match random.below(3) {
        0 => Call::PlanJ { k, l, room: ROOM },
        1 => {
            let direction = random.pick(&Direction::BOTH);
            Call::PlanI { direction, k, l, m1, m2, room: ROOM }
        }
        _ => Call::Cheapest { k, l, limit, room: ROOM },
    }
}

/// The slots, the additions and the doublings of a sheet's header.
fn counted(sheet: &str) -> Option<[usize; 3]> {
    let mut fields = sheet.lines().next()?.split(',').skip(4);
    let mut number = || fields.next()?.parse().ok();
    Some([number()?, number()?, number()?])
}

/// Is this line a load or an addition?
fn is_step(line: &str) -> bool {
    line.starts_with(['L', 'A'])
}

/// The sheet with the first digit of one step negated, or the second where the first is 0.
fn with_step_turned(sheet: &str, which: usize) -> String {
    let mut steps = 0;
    let mut turned = String::new();
    for line in sheet.lines() {
        if is_step(line) && steps == which {
            turned += &turn(line);
        } else {
            turned += line;
        }
        turned.push('\n');
        steps += usize::from(is_step(line));
    }
    turned
}

fn turn(step: &str) -> String {
    let fields: Vec<&str> = step.split(',').collect();
    let digit = |at: usize| fields[at].parse::<i8>().expect("a digit");
    let (a, b) = if digit(1) == 0 { (0, -digit(2)) } else { (-digit(1), digit(2)) };
    format!("{},{a},{b}", fields[0])
}
