//! Where the words of rows, tables and pools stand in the lent bytes.
//! Every word has four bytes, the lowest first.

use crate::limits;
use crate::machine::{Outcome, State};
use crate::program::Program;
use crate::value::{Kind, Tag, Value};

pub const WORD: usize = 4;

pub const INPUT_BYTES: usize = limits::INPUTS * WORD;

pub const TERM_WORDS: usize = 5;
pub const TERM_BYTES: usize = TERM_WORDS * WORD;
pub const POOL_BYTES: usize = limits::TERMS * TERM_BYTES;

pub const ROW_BYTES: usize = 256 * WORD;
pub const ANSWER_BYTES: usize = ROW_BYTES;

pub const HEADER_BYTES: usize = 16 * WORD;
pub const TABLE_BYTES: usize = HEADER_BYTES + limits::ROWS * ROW_BYTES;

/// Words of the table's header.
pub mod header {
    pub const ROWS: usize = 0;
    pub const TERMS: usize = 1;
}

/// Words of a row.
pub mod row {
    pub const OUTCOME: usize = 0;
    pub const VALUE: usize = 1;
    pub const STEPS: usize = 3;
    pub const PROCEDURE: usize = 4;
    pub const COMMAND: usize = 5;
    pub const INPUTS: usize = 6;
    pub const CONDITION_COUNT: usize = 7;
    pub const VARIABLE_COUNT: usize = 8;
    pub const CELL_COUNT: usize = 9;
    pub const CONDITIONS: usize = 16;
    pub const VARIABLES: usize = 48;
    pub const CELLS: usize = 80;
}

/// The numbers of a row's outcome.
pub mod outcome {
    pub const RETURNED: u32 = 1;
    pub const FAILED: u32 = 2;
    pub const VANISHED: u32 = 3;
    pub const ERROR: u32 = 4;
    pub const CUT: u32 = 5;
}

pub fn word(bytes: &[u8], number: usize) -> u32 {
    let at = number * WORD;
    u32::from_le_bytes([bytes[at], bytes[at + 1], bytes[at + 2], bytes[at + 3]])
}

pub fn put(bytes: &mut [u8], number: usize, word: u32) {
    let at = number * WORD;
    bytes[at..at + WORD].copy_from_slice(&word.to_le_bytes());
}

pub fn row_at(table: &[u8], number: usize) -> &[u8] {
    &table[HEADER_BYTES + number * ROW_BYTES..][..ROW_BYTES]
}

pub fn term_at(pool: &[u8], number: usize) -> &[u8] {
    &pool[number * TERM_BYTES..][..TERM_BYTES]
}

/// The input list as words, if it is exactly sixteen long.
pub fn inputs(bytes: &[u8]) -> Option<[u32; limits::INPUTS]> {
    if bytes.len() != INPUT_BYTES {
        return None;
    }
    Some(std::array::from_fn(|number| word(bytes, number)))
}

fn put_value(bytes: &mut [u8], number: usize, value: Value) {
    put(bytes, number, value.tag as u32);
    put(bytes, number + 1, value.word);
}

/// Writes all five words of a term.
pub(crate) fn write_term(term: &mut [u8], kind: Kind, left: Value, right: Value) {
    put(term, 0, kind as u32);
    put_value(term, 1, left);
    put_value(term, 3, right);
}

fn put_outcome(row: &mut [u8], outcome: Outcome) {
    // The number of an error or a reason has the tag of nothing.
    let untagged = |word| Value { tag: Tag::Nothing, word };
    let (number, value) = match outcome {
        Outcome::Returned(value) => (outcome::RETURNED, value),
        Outcome::Failed(value) => (outcome::FAILED, value),
        Outcome::Vanished => (outcome::VANISHED, Value::NOTHING),
        Outcome::Error(error) => (outcome::ERROR, untagged(error as u32)),
        Outcome::Cut(reason) => (outcome::CUT, untagged(reason as u32)),
    };
    put(row, row::OUTCOME, number);
    put_value(row, row::VALUE, value);
}

/// Writes every word of a row, those that hold nothing too. `row` is the part
/// of the lent memory that belongs to it, and its old content does not matter.
pub(crate) fn write_row(row: &mut [u8], program: &Program, state: &State, outcome: Outcome) {
    row.fill(0);
    put_outcome(row, outcome);

    let frame = state.frame();
    let procedure = &program.procedures[frame.procedure as usize];
    let variables = &frame.variables[..procedure.variables as usize];
    let cells = state.cells.as_slice();
    let conditions = state.conditions();

    put(row, row::STEPS, state.steps);
    put(row, row::PROCEDURE, u32::from(frame.procedure));
    put(row, row::COMMAND, state.next - u32::from(procedure.first));
    put(row, row::INPUTS, state.inputs);
    put(row, row::CONDITION_COUNT, conditions.len() as u32);
    put(row, row::VARIABLE_COUNT, variables.len() as u32);
    put(row, row::CELL_COUNT, cells.len() as u32);

    for (number, condition) in conditions.iter().enumerate() {
        put(row, row::CONDITIONS + 2 * number, condition.term);
        put(row, row::CONDITIONS + 2 * number + 1, u32::from(condition.truth));
    }
    for (number, &value) in variables.iter().enumerate() {
        put_value(row, row::VARIABLES + 2 * number, value);
    }
    for (number, cell) in cells.iter().enumerate() {
        let at = row::CELLS + 4 * number;
        put(row, at, cell.location());
        put(row, at + 1, cell.property());
        put_value(row, at + 2, cell.value);
    }
}
