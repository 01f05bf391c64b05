//! The reader: foreign sheets, damaged sheets, and bytes that are no sheets.

use crate::judge::Judge;
use reference::answer::Answer;
use reference::calls::Call;
use reference::damage::{damage, recount};
use reference::limits::Limits;
use reference::plan::{Plan, MOST_SLOTS};
use reference::random::Random;
use reference::samples::SEVEN_AND_TWO;
use reference::sheet::Sheet;
use reference::{foreign, scalars};

const FOREIGN_SHEETS: usize = 6_000;
const STRETCHED_SHEETS: usize = 1_000;
const FALSE_SHEETS: usize = 2_500;
const DAMAGED_SHEETS: usize = 45_000;
const NO_SHEETS: usize = 2_000;

/// How often each question was missed by the limits of the run; at 0, how often none was.
#[derive(Default)]
pub struct Met([u64; 12]);

impl Met {
    pub fn by_number(&self) -> impl Iterator<Item = (usize, u64)> + '_ {
        self.0.iter().copied().enumerate().filter(|(_, count)| *count > 0)
    }

    /// Reads the sheet at the card and at the gateway: where the card accepts it, so does the
    /// gateway.
    fn read(&mut self, judge: &mut Judge, sheet: Vec<u8>) {
        let limits = judge.limits();
        let call = Call::Read { sheet };
        let at_card = judge.at(Limits::Card, |judge| judge.compare(&call)).number();
        let at_gateway = judge.at(Limits::Gateway, |judge| judge.compare(&call)).number();
        if at_card == 0 {
            judge.hold(format_args!("accepted by the card: {call}"), 0, at_gateway);
        }
        let number = if limits == Limits::Card { at_card } else { at_gateway };
        if let Some(count) = self.0.get_mut(number as usize) {
            *count += 1;
        }
    }
}

pub fn run(judge: &mut Judge, random: &mut Random) -> Met {
    let mut met = Met::default();
    every_number_of_slots(judge, random);
    foreign_sheets(judge, random, &mut met);
    stretched_sheets(judge, random, &mut met);
    false_sheets(judge, random, &mut met);
    damaged_sheets(judge, random, &mut met);
    every_byte_of_a_short_sheet(judge, &mut met);
    long_sheets(judge, random, &mut met);
    no_sheets(judge, random, &mut met);
    met
}

/// A sheet of every plan, with every number of slots in its header: accepted with the plan's own.
fn every_number_of_slots(judge: &mut Judge, random: &mut Random) {
    for plan in Plan::all() {
        let (k, l) = scalars::random_pair(random, judge.limits());
        let sheet = Sheet::of_plan(plan, k.value(), l.value()).to_string();
        for slots in 0..=2 * MOST_SLOTS as usize {
            let own = slots == plan.slots();
            let answer = if own { Answer::Accepted } else { Answer::refused(7, 1) };
            let stated = with_slots(&sheet, slots).into_bytes();
            judge.compare_with(&Call::Read { sheet: stated }, &answer);
        }
    }
}

/// The sheet with other slots in its header.
fn with_slots(sheet: &str, slots: usize) -> String {
    let (header, rest) = sheet.split_once('\n').expect("a header");
    let mut fields: Vec<&str> = header.split(',').collect();
    let slots = slots.to_string();
    fields[4] = &slots;
    format!("{}\n{rest}", fields.join(","))
}

fn random_plan(random: &mut Random) -> Plan {
    match random.below(4) {
        0 => Plan::Joint,
        1 => Plan::Interleaved { m1: 1, m2: 1 },
        _ => Plan::Interleaved { m1: random.window(), m2: random.window() },
    }
}

fn foreign_sheet(random: &mut Random, limits: Limits) -> Sheet {
    let plan = random_plan(random);
    let (k, l) = scalars::random_pair(random, limits);
    foreign::sheet(random, plan, k.value(), l.value())
}

fn foreign_sheets(judge: &mut Judge, random: &mut Random, met: &mut Met) {
    for _ in 0..FOREIGN_SHEETS {
        let sheet = foreign_sheet(random, judge.limits());
        met.read(judge, sheet.to_bytes());
    }
}

/// Correct sheets with about as many doublings as are allowed, or more.
fn stretched_sheets(judge: &mut Judge, random: &mut Random, met: &mut Met) {
    for _ in 0..STRETCHED_SHEETS {
        let plan = random_plan(random);
        let (k, l) = scalars::random_pair(random, judge.limits());
        let places =
            random.pick(&[527, 528, 529, 530, 531, 600, 1_023, 1_024, 1_025, 1_026, 1_500]);
        let sheet = foreign::stretched_sheet(random, plan, k.value(), l.value(), places);
        met.read(judge, sheet.to_bytes());
    }
}

/// Sheets whose result is not, but looks like, what the header says.
fn false_sheets(judge: &mut Judge, random: &mut Random, met: &mut Met) {
    for _ in 0..FALSE_SHEETS {
        let plan = random_plan(random);
        let (k, l) = scalars::random_pair(random, judge.limits());
        let sheet = foreign::false_sheet(random, plan, k.value(), l.value(), judge.limits());
        met.read(judge, sheet.to_bytes());
    }
}

fn damaged_sheets(judge: &mut Judge, random: &mut Random, met: &mut Met) {
    for _ in 0..DAMAGED_SHEETS {
        let sheet = sheet_to_damage(random, judge.limits()).to_bytes();
        met.read(judge, damage(random, &sheet, judge.limits()));
    }
}

/// A written or foreign sheet; mostly for short scalars, where a line that is hit at random is
/// more often one that matters.
fn sheet_to_damage(random: &mut Random, limits: Limits) -> Sheet {
    if random.once_in(4) {
        return foreign_sheet(random, limits);
    }
    let plan = random_plan(random);
    let bytes = random.pick(&[1, 1, 2, 3, limits.bytes()]);
    let k = scalars::random_of_length(random, bytes).value();
    let l = scalars::random_of_length(random, bytes).value();
    if random.once_in(2) {
        Sheet::of_plan(plan, k, l)
    } else {
        foreign::sheet(random, plan, k, l)
    }
}

/// Every byte replaced by every other, left out, or followed by another; every cut.
fn every_byte_of_a_short_sheet(judge: &mut Judge, met: &mut Met) {
    let joint = "S,J,1,1,2,3,1,3,1\nT,1,1\nT,1,-1\nL,1,1\nD\nA,1,-1\nE\n";
    let signed = "S,J,1,1,2,3,1,-3,-2\nT,1,1\nT,1,-1\nL,-1,-1\nD\nA,-1,0\nE\n";
    for good in [SEVEN_AND_TWO, joint, signed] {
        let good = good.as_bytes();
        judge.compare_with(&Call::Read { sheet: good.to_vec() }, &Answer::Accepted);
        for at in 0..good.len() {
            met.read(judge, good[..at].to_vec());
            met.read(judge, [&good[..at], &good[at + 1..]].concat());
            for byte in 0..=255 {
                met.read(judge, [&good[..at], &[byte], &good[at + 1..]].concat());
            }
            for &byte in b"019af,-ADELST\n \0" {
                met.read(judge, [&good[..at], &[byte], &good[at..]].concat());
            }
        }
    }
}

/// Sheets about as long as is allowed, spelled well as far as they go.
fn long_sheets(judge: &mut Judge, random: &mut Random, met: &mut Met) {
    let openings = [
        "",
        "S,I,1,1,0,0,0,0,0\n",
        "S,I,1,1,0,0,0,1,0\nL,1,0\n",
        "S,I,1,1,0,0,0,1,0\nL,1,0\nD\n",
        "S,J,1,1,2,2,0,1,1\nT,1,1\nT,1,-1\nL,1,1\n",
    ];
    let fillings = ["D\n", "A,1,0\n", "D\nA,1,0\n", "T,2,0\n", "T,3,0\n", "E\n", "\n", "x", "9"];
    for opening in openings {
        for filling in fillings {
            let longest = judge.limits().sheet();
            for length in longest - 3..=longest + 3 {
                met.read(judge, filled(opening, filling, length));
            }
            let longer = random.pick(&[17_000, 33_000, 65_536, 65_600, 81_920]);
            met.read(judge, filled(opening, filling, longer));
        }
    }
    for doubles in [527, 528, 529, 530, 1_000, 1_023, 1_024, 1_025, 1_026, 8_000] {
        for opening in &openings[2..] {
            let mut sheet = format!("{opening}{}E\n", "D\n".repeat(doubles)).into_bytes();
            met.read(judge, sheet.clone());
            recount(&mut sheet);
            met.read(judge, sheet);
        }
    }
}

/// The opening, then the filling over and over, then E, in exactly this length. Where the filling
/// does not fit, the figure of a last line is left hanging before E.
fn filled(opening: &str, filling: &str, length: usize) -> Vec<u8> {
    let mut sheet = opening.as_bytes().to_vec();
    while sheet.len() + filling.len() + 2 <= length {
        sheet.extend_from_slice(filling.as_bytes());
    }
    sheet.resize(length - 2, b'1');
    sheet.extend_from_slice(b"E\n");
    sheet
}

/// The empty sheet, random bytes, and random bytes of the alphabet of sheets.
fn no_sheets(judge: &mut Judge, random: &mut Random, met: &mut Met) {
    met.read(judge, Vec::new());
    for _ in 0..NO_SHEETS {
        let length = random.between(1, 300);
        met.read(judge, random.bytes(length));
        let spelled = (0..length).map(|_| random.pick(b"SIJTLDAE,,,0123456789-\n\n")).collect();
        met.read(judge, spelled);
    }
}
