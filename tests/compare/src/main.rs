//! Compares the archive named by CHOMPHUREK_LIB with the reference, byte for
//! byte, on random texts; see tests/compare/run. One test is one text, made
//! from one seed, with all its calls.

mod agreement;
mod arguments;
mod calls;
mod choices;
mod lent;
mod texts;

use agreement::Explored;
use arguments::{Arguments, Until};
use calls::{Call, Inputs, NAMES};
use choices::Choices;
use reference::generate::{input_list, Random};
use reference::limits;
use std::collections::BTreeMap;
use std::panic;
use std::process::ExitCode;
use std::time::Instant;

/// Calls of each kind on one text, and input lists for demand 3.
const CALLS: usize = 3;
const LISTS: usize = 3;

/// The failures that are described; the others are only counted.
const SHOWN: u32 = 5;

/// How often each call returned each number.
type Returned = [BTreeMap<u32, u32>; NAMES.len()];

/// All calls on one text: nothing, or what differs first.
fn compare(seed: u64, text: &[u8], returned: &mut Returned) -> Result<(), String> {
    let random = &mut Random::new(!seed);
    let mut choices = Choices::new(text, random);
    let mut calls = vec![Call::Check];
    for _ in 0..CALLS {
        calls.extend([choices.plain_run(), choices.explore(), choices.place()]);
    }
    for call in calls {
        let number = call.compare(text)?;
        *returned[call.number()].entry(number).or_default() += 1;
    }
    let most = (limits::STEPS, limits::BRANCHES as u32);
    for (steps, branches) in [most, choices.right_budgets()] {
        let Some(explored) = Explored::new(text, steps, branches) else {
            continue;
        };
        for _ in 0..LISTS {
            let inputs = input_list(choices.random);
            explored.agrees(text, &inputs).map_err(|why| {
                let inputs = Inputs(&inputs);
                format!("demand 3, {steps} steps, {branches} branches, {inputs}: {why}")
            })?;
        }
    }
    Ok(())
}

/// A table that cannot even be read (a term of no kind, a place outside the
/// pool) is a failure too.
fn caught(seed: u64, text: &[u8], returned: &mut Returned) -> Result<(), String> {
    let compared = panic::catch_unwind(panic::AssertUnwindSafe(|| compare(seed, text, returned)));
    compared.unwrap_or_else(|payload| {
        let why = payload.downcast_ref::<String>().map_or("out of range", String::as_str);
        Err(format!("the archive's table cannot be read: {why}"))
    })
}

/// The refusals that each call must have met, or the texts were not worth it.
fn is_thorough(returned: &Returned) -> Result<(), String> {
    let met = |call: usize, numbers: &[u32]| {
        let missing: Vec<_> = numbers.iter().filter(|n| !returned[call].contains_key(n)).collect();
        match missing[..] {
            [] => Ok(()),
            _ => Err(format!("{} never returned {missing:?}", NAMES[call])),
        }
    };
    met(0, &[0, 3, 4, 5, 6, 7, 8])?;
    met(1, &[0, 1, 2, 3, 4, 5, 6, 7, 8])?;
    met(2, &[0, 1, 2, 3, 4, 5, 6, 7, 8, 9, 10])?;
    met(3, &[256, 257, 1, 2, 3, 4, 5, 6, 7, 8, 9, 10])
}

fn show(returned: &Returned) {
    for (name, counts) in NAMES.iter().zip(returned) {
        let placed: u32 = counts.range(256..).map(|(_, times)| times).sum();
        let mut parts: Vec<String> =
            counts.range(..256).map(|(number, times)| format!("{number}: {times}")).collect();
        if placed > 0 {
            parts.push(format!("a row: {placed}"));
        }
        println!("{name} returned {}", parts.join(", "));
    }
}

fn main() -> ExitCode {
    let Arguments { seed, until, verbose } = match arguments::read() {
        Ok(arguments) => arguments,
        Err(why) => {
            eprintln!("compare: {why}");
            return ExitCode::from(2);
        }
    };
    // A failure says what happened in a line of its own.
    panic::set_hook(Box::new(|_| {}));
    println!("texts from seed {seed}");
    let (mut passed, mut failed) = (0, 0);
    let mut count = |result: Result<(), String>| match result {
        Ok(()) => passed += 1,
        Err(why) => {
            failed += 1;
            if failed <= SHOWN {
                println!("FAILED {why}");
            }
        }
    };
    let mut returned = Returned::default();
    let start = Instant::now();
    let mut next = seed;
    while match until {
        Until::Texts(texts) => next - seed < texts,
        Until::Seconds(seconds) => start.elapsed().as_secs() < seconds,
    } {
        let (kind, text) = texts::text(next);
        if verbose {
            println!("{next} ({kind}): {}", text.escape_ascii());
        }
        let compared = caught(next, &text, &mut returned);
        count(compared.map_err(|why| format!("seed {next} ({kind} text): {why}")));
        next += 1;
    }
    if next - seed >= arguments::TEXTS {
        count(is_thorough(&returned));
    }
    show(&returned);
    println!("{passed} passed, {failed} failed");
    match failed {
        0 => ExitCode::SUCCESS,
        _ => ExitCode::FAILURE,
    }
}
