//! A reference implementation of document 01, written from the document and
//! its readings alone: an oracle and a yardstick for the verified one.
//!
//! The four calls take byte slices and numbers, and give 0 (for `place`, 256
//! and the row's number) or the number of a refusal.

#![forbid(unsafe_code)]

mod cells;
mod explore;
pub mod generate;
pub mod layout;
pub mod limits;
mod machine;
mod place;
mod print;
mod program;
mod resolve;
mod text;
mod tokens;
mod value;

pub use print::printed_table;

use explore::Budget;

/// What `place` adds to the number of a row, so that it is no refusal.
pub const PLACED: u32 = 256;

/// Document 01's refusals.
#[derive(Clone, Copy, PartialEq, Eq, Debug)]
enum Refusal {
    Budget = 1,
    Lent = 2,
    LongText = 3,
    Form = 4,
    Counts = 5,
    Names = 6,
    JumpRange = 7,
    LastCommand = 8,
    Rows = 9,
    Terms = 10,
}

fn number_of(outcome: Result<u32, Refusal>) -> u32 {
    outcome.unwrap_or_else(|refusal| refusal as u32)
}

/// Whether a text is accepted: 0, or 3 to 8.
pub fn check(text: &[u8]) -> u32 {
    number_of(text::read(text).map(|_| 0))
}

/// Runs a text on sixteen inputs: 0, or 1 to 8.
pub fn plain_run(text: &[u8], inputs: &[u8], steps: u32, answer: &mut [u8]) -> u32 {
    number_of(try_plain_run(text, inputs, steps, answer).map(|()| 0))
}

/// Explores a text: 0, or 1 to 10.
pub fn explore(text: &[u8], steps: u32, branches: u32, table: &mut [u8], pool: &mut [u8]) -> u32 {
    number_of(try_explore(text, steps, branches, table, pool).map(|()| 0))
}

/// Explores a text and says which row the inputs fall in: 256 and the row's
/// number, or 1 to 10.
pub fn place(
    text: &[u8],
    inputs: &[u8],
    steps: u32,
    branches: u32,
    table: &mut [u8],
    pool: &mut [u8],
) -> u32 {
    let row = try_place(text, inputs, steps, branches, table, pool);
    number_of(row.map(|row| PLACED + row))
}

fn try_plain_run(text: &[u8], inputs: &[u8], steps: u32, answer: &mut [u8]) -> Result<(), Refusal> {
    if steps > limits::STEPS {
        return Err(Refusal::Budget);
    }
    let answer = answer.get_mut(..layout::ANSWER_BYTES).ok_or(Refusal::Lent)?;
    let inputs = layout::inputs(inputs).ok_or(Refusal::Lent)?;
    let program = text::read(text)?;
    let (state, outcome) = machine::plain_run(&program, &inputs, steps);
    layout::write_row(answer, &program, &state, outcome);
    Ok(())
}

fn try_explore(
    text: &[u8],
    steps: u32,
    branches: u32,
    table: &mut [u8],
    pool: &mut [u8],
) -> Result<(), Refusal> {
    let budget = budget(steps, branches)?;
    // A surplus of the lent memory is out of reach from here on.
    let table = table.get_mut(..layout::TABLE_BYTES).ok_or(Refusal::Lent)?;
    let pool = pool.get_mut(..layout::POOL_BYTES).ok_or(Refusal::Lent)?;
    let program = text::read(text)?;
    explore::explore(&program, budget, table, pool)
}

fn try_place(
    text: &[u8],
    inputs: &[u8],
    steps: u32,
    branches: u32,
    table: &mut [u8],
    pool: &mut [u8],
) -> Result<u32, Refusal> {
    // Refusal 1 comes before the input list is looked at, and 3 after.
    budget(steps, branches)?;
    let inputs = layout::inputs(inputs).ok_or(Refusal::Lent)?;
    try_explore(text, steps, branches, table, pool)?;
    Ok(place::place(table, pool, &inputs))
}

fn budget(steps: u32, branches: u32) -> Result<Budget, Refusal> {
    if steps == 0 || steps > limits::STEPS || branches > limits::BRANCHES as u32 {
        return Err(Refusal::Budget);
    }
    Ok(Budget { steps, branches })
}
