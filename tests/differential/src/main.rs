//! The differential test: the archive libhost.a against a second implementation of the sheets.
//!
//! Without arguments it compares everything; with the arguments that a failure prints, that call
//! alone. SHEETS_SEED sets another seed (decimal). With SHEETS_TRACE set, every call is printed
//! before it is made, which names the input of a call that never returns.

mod host;
mod judge;
mod lent;
mod outcome;
mod runs;

use judge::Judge;
use reference::calls;
use reference::limits::Limits;
use reference::random::Random;
use std::env;
use std::process::ExitCode;
use std::time::Instant;

const DEFAULT_SEED: u64 = 20_010_041;

fn main() -> ExitCode {
    let Some(seed) = seed() else {
        eprintln!("differential: SHEETS_SEED is not a decimal number of 64 bits");
        return ExitCode::from(2);
    };
    let mut judge = Judge::new(seed, env::var_os("SHEETS_TRACE").is_some());
    let words: Vec<String> = env::args().skip(1).collect();
    if words.is_empty() {
        compare_everything(&mut judge, seed);
    } else if !repeat(&mut judge, &words) {
        eprintln!("differential: the arguments are not a call as printed by a failure");
        return ExitCode::from(2);
    }
    let (compared, failed) = (judge.compared(), judge.failed());
    println!("differential: {compared} comparisons, {failed} failed (seed {seed})");
    ExitCode::from(u8::from(failed > 0))
}

fn seed() -> Option<u64> {
    match env::var("SHEETS_SEED") {
        Ok(seed) => seed.parse().ok(),
        Err(_) => Some(DEFAULT_SEED),
    }
}

fn compare_everything(judge: &mut Judge, seed: u64) {
    let random = &mut Random::new(seed);
    for limits in Limits::BOTH {
        judge.turn_to(limits);
        section(judge, "samples", runs::samples::run);
        section(judge, "rows", |judge| runs::rows::run(judge, random));
        section(judge, "joint forms", |judge| runs::joint_forms::run(judge, random));
        section(judge, "sheets of plans", |judge| runs::plans::run(judge, random));
        section(judge, "cheapest sheets", |judge| runs::cheapest::run(judge, random));
        section(judge, "signs", |judge| runs::signs::run(judge, random));
        section(judge, "reads", |judge| {
            for (number, count) in runs::reads::run(judge, random).by_number() {
                println!("  reads answered {number}: {count}");
            }
        });
    }
    judge.turn_to(Limits::Card);
    section(judge, "changed orders", runs::changed_orders::run);
    section(judge, "small scalars", runs::small::run);
    section(judge, "the card's at the gateway", |judge| runs::both::run(judge, random));
    section(judge, "licences", |judge| {
        let found = runs::licences::run(judge, random);
        let runs::licences::Found { licences, sheets, operations, spoiled } = found;
        println!("  {sheets} sheets run on a card in software, {operations} group operations");
        println!("  a carry that stops spoils {spoiled} of {licences} real licences");
    });
    section(judge, "packed columns", |judge| runs::joint_forms::run_columns(judge, random));
    section(judge, "next limits", |judge| {
        let runs::next_limit::Met { none, next, further, highest } =
            runs::next_limit::run(judge, random);
        println!("  limit that pays: none {none}, next {next}, further {further}; 31: {highest}");
    });
    section(judge, "dearest scalars", |judge| runs::dearest::run(judge, random));
}

fn section(judge: &mut Judge, name: &str, run: impl FnOnce(&mut Judge)) {
    let (before, start) = (judge.compared(), Instant::now());
    run(judge);
    let (compared, seconds) = (judge.compared() - before, start.elapsed().as_secs_f64());
    println!("{}: {name}: {compared} comparisons in {seconds:.1} s", judge.limits());
}

/// Repeats the call that a failure printed; the first word says whose it is, and the last is the
/// number that fills the buffers.
fn repeat(judge: &mut Judge, words: &[String]) -> bool {
    let words: Vec<&str> = words.iter().map(String::as_str).collect();
    let [limits, words @ .., fill] = &words[..] else {
        return false;
    };
    match (Limits::named(limits), calls::parse(words), fill.parse()) {
        (Some(limits), Some(call), Ok(fill)) => {
            judge.turn_to(limits);
            judge.repeat(&call, fill);
            true
        }
        _ => false,
    }
}
