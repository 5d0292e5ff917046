//! Random texts and inputs, the same for the same seed on every machine, for
//! comparing two implementations byte for byte.

mod crowded;
mod damage;
mod handler;
mod random;
mod tokens;

use crate::layout;
use crate::limits;

pub use random::Random;

/// A text of the right form, mostly below all limits and mostly of right
/// sorts, that calls, loops, keeps cells and jumps on its inputs.
pub fn valid_text(seed: u64) -> Vec<u8> {
    let random = &mut Random::new(seed);
    let tokens = handler::handler(random);
    tokens::join(&tokens, random)
}

/// A text of [`valid_text`]'s making with one to three things wrong: on its
/// bytes, on its tokens, or so that its form stays right.
pub fn damaged_text(seed: u64) -> Vec<u8> {
    let random = &mut Random::new(seed);
    let mut tokens = handler::handler(random);
    let kind = random.below(3);
    let times = random.between(1, 3);
    for _ in 0..times {
        match kind {
            0 => damage::form(&mut tokens, random),
            1 => damage::sense(&mut tokens, random),
            _ => {}
        }
    }
    let mut text = tokens::join(&tokens, random);
    if kind == 2 {
        for _ in 0..times {
            damage::bytes(&mut text, random);
        }
    }
    text
}

/// A text at or next to one of the limits that refusals 3 to 5 test, often
/// with a reason for one of the refusals 6 to 8 besides.
pub fn crowded_text(seed: u64) -> Vec<u8> {
    crowded::text(&mut Random::new(seed))
}

/// Sixteen inputs as bytes: small numbers, so that comparisons go both ways,
/// and numbers at the edges.
pub fn input_list(random: &mut Random) -> [u8; layout::INPUT_BYTES] {
    let mut bytes = [0; layout::INPUT_BYTES];
    for number in 0..limits::INPUTS {
        let input = match random.below(10) {
            0..=6 => random.below(10),
            7 => 0,
            8 => random.bits() as u32,
            _ => random.pick(&handler::EDGES),
        };
        layout::put(&mut bytes, number, input);
    }
    bytes
}

/// A step and a branch budget: mostly the largest, always accepted.
pub fn budgets(random: &mut Random) -> (u32, u32) {
    let most = limits::BRANCHES as u32;
    match random.below(4) {
        0 => (random.between(1, 40), random.below(most + 1)),
        1 => (limits::STEPS, random.below(most + 1)),
        _ => (limits::STEPS, most),
    }
}
