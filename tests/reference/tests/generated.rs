//! The generator itself: its texts must reach what they are meant to reach.

mod common;

use common::*;
use reference::generate::{crowded_text, damaged_text, valid_text};
use std::collections::BTreeMap;

const TEXTS: u64 = 3_000;

/// How often each number came.
fn count(numbers: impl Iterator<Item = u32>) -> BTreeMap<u32, u32> {
    let mut counts = BTreeMap::new();
    for number in numbers {
        *counts.entry(number).or_default() += 1;
    }
    counts
}

#[test]
fn a_seed_gives_one_text() {
    for make in [valid_text, damaged_text, crowded_text] {
        assert_eq!(make(7), make(7));
        assert_ne!(make(7), make(8));
    }
}

#[test]
fn valid_texts_are_accepted_and_mostly_explored() {
    let explored = count((0..TEXTS).map(|seed| {
        let text = valid_text(seed);
        assert_eq!(check(&text), 0, "seed {seed}");
        explore(&text, STEPS, BRANCHES).err().unwrap_or(0)
    }));
    println!("{explored:?}");
    assert!(explored[&0] > TEXTS as u32 * 3 / 4, "{explored:?}");
    assert!(explored.contains_key(&9) && explored.contains_key(&10), "{explored:?}");
}

/// Texts with all four calls on them: one refusal for all, and the memory as
/// document 01 wants it, which the helpers look at.
fn refusals(make: fn(u64) -> Vec<u8>) -> BTreeMap<u32, u32> {
    count((0..TEXTS).map(|seed| {
        let text = make(seed);
        let refusal = check(&text);
        let explored = explore(&text, 200, 6);
        let placed = place(&text, &[], 200, 6);
        let run = plain(&text, &[], 200);
        if refusal == 0 {
            assert!(run.is_ok());
            assert!(matches!(explored, Ok(_) | Err(9 | 10)));
            assert_eq!(placed.err(), explored.err());
        } else {
            assert_eq!(run, Err(refusal));
            assert_eq!(explored, Err(refusal));
            assert_eq!(placed, Err(refusal));
        }
        refusal
    }))
}

#[test]
fn damaged_texts_meet_most_refusals() {
    let met = refusals(damaged_text);
    println!("{met:?}");
    for refusal in [0, 4, 6, 7, 8] {
        assert!(met.contains_key(&refusal), "{met:?}");
    }
}

#[test]
fn crowded_texts_meet_all_refusals_of_a_text() {
    let met = refusals(crowded_text);
    println!("{met:?}");
    for refusal in [0, 3, 4, 5, 6, 7, 8] {
        assert!(met[&refusal] > 20, "{met:?}");
    }
}

/// The printed table must not fail on anything either.
#[test]
fn every_text_prints() {
    for seed in 0..TEXTS / 3 {
        for make in [valid_text, damaged_text, crowded_text] {
            let printed = reference::printed_table(&make(seed));
            assert!(printed.ends_with(b"\r\n"));
            assert!(printed.starts_with(b"row,") || printed.starts_with(b"refused,"));
        }
    }
}
