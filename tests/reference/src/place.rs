//! Which row of a finished table a list of inputs falls in.

use crate::layout::{self, header, row};
use crate::limits;
use crate::value::{tag, Kind};

/// The values of all terms of a pool, each worked out once: a term's operands
/// stand before it. A boolean is 0 or 1; the kind says which sort it is.
fn term_values(pool: &[u8], count: usize, inputs: &[u32; limits::INPUTS]) -> [u32; limits::TERMS] {
    let mut values = [0; limits::TERMS];
    for number in 0..count {
        let term = layout::term_at(pool, number);
        let operand = |at: usize| {
            let word = layout::word(term, at + 1);
            match layout::word(term, at) {
                tag::NUMBER_TERM | tag::BOOLEAN_TERM => values[word as usize],
                _ => word,
            }
        };
        let (left, right) = (operand(1), operand(3));
        values[number] = apply(layout::word(term, 0), left, right, inputs);
    }
    values
}

fn apply(kind: u32, left: u32, right: u32, inputs: &[u32; limits::INPUTS]) -> u32 {
    const INPUT: u32 = Kind::Input as u32;
    const NOT: u32 = Kind::Not as u32;
    const ADD: u32 = Kind::Add as u32;
    const SUBTRACT: u32 = Kind::Subtract as u32;
    const EQUAL: u32 = Kind::Equal as u32;
    const LESS: u32 = Kind::Less as u32;
    const AND: u32 = Kind::And as u32;
    const OR: u32 = Kind::Or as u32;
    match kind {
        INPUT => inputs[left as usize],
        NOT => left ^ 1,
        ADD => left.wrapping_add(right),
        SUBTRACT => left.wrapping_sub(right),
        // Only operands of one sort are ever in a term.
        EQUAL => u32::from(left == right),
        LESS => u32::from(left < right),
        AND => left & right,
        OR => left | right,
        _ => unreachable!("the pool holds no other kind"),
    }
}

/// Whether the inputs that gave the terms these values fall in a row.
fn holds(row: &[u8], values: &[u32; limits::TERMS]) -> bool {
    let count = layout::word(row, row::CONDITION_COUNT) as usize;
    (0..count).all(|number| {
        let at = row::CONDITIONS + 2 * number;
        values[layout::word(row, at) as usize] == layout::word(row, at + 1)
    })
}

/// The number of the one row whose conditions all hold.
pub fn place(table: &[u8], pool: &[u8], inputs: &[u32; limits::INPUTS]) -> u32 {
    let terms = layout::word(table, header::TERMS) as usize;
    let rows = layout::word(table, header::ROWS) as usize;
    let values = term_values(pool, terms, inputs);
    (0..rows)
        .find(|&number| holds(layout::row_at(table, number), &values))
        .expect("the branches of a jump are each other's opposites") as u32
}
