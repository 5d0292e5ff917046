//! Exploring: all paths of a text over terms, the true branch of a jump first.

use crate::layout::{self, header};
use crate::limits;
use crate::machine::{Event, Outcome, Reason, State};
use crate::program::Program;
use crate::value::{Kind, Stop, Value, World};
use crate::Refusal;

/// The lent pool, filled from its start.
struct Pool<'a> {
    bytes: &'a mut [u8],
    count: usize,
}

impl World for Pool<'_> {
    fn input(&mut self, number: u32) -> Result<Value, Stop> {
        let term = self.term(Kind::Input, Value::number(number), Value::NOTHING)?;
        Ok(Value::number_term(term))
    }

    fn term(&mut self, kind: Kind, left: Value, right: Value) -> Result<u32, Stop> {
        if self.count == limits::TERMS {
            return Err(Stop::PoolFull);
        }
        let at = self.count * layout::TERM_BYTES;
        let bytes = &mut self.bytes[at..at + layout::TERM_BYTES];
        layout::write_term(bytes, kind, left, right);
        self.count += 1;
        Ok(self.count as u32 - 1)
    }
}

#[derive(Clone, Copy)]
pub struct Budget {
    pub steps: u32,
    pub branches: u32,
}

/// Explores a text into exactly the needed parts of a table and a pool. All
/// their bytes are written, once where the text is not refused.
pub fn explore(
    program: &Program,
    budget: Budget,
    table: &mut [u8],
    pool: &mut [u8],
) -> Result<(), Refusal> {
    let mut terms = Pool { bytes: pool, count: 0 };
    match all_paths(program, budget, table, &mut terms) {
        Ok(rows) => {
            let used = layout::HEADER_BYTES + rows * layout::ROW_BYTES;
            table[..layout::HEADER_BYTES].fill(0);
            layout::put(table, header::ROWS, rows as u32);
            layout::put(table, header::TERMS, terms.count as u32);
            table[used..].fill(0);
            let used = terms.count * layout::TERM_BYTES;
            pool[used..].fill(0);
            Ok(())
        }
        Err(refusal) => {
            table.fill(0);
            pool.fill(0);
            Err(refusal)
        }
    }
}

/// Writes the rows and gives their number.
fn all_paths(
    program: &Program,
    budget: Budget,
    table: &mut [u8],
    terms: &mut Pool,
) -> Result<usize, Refusal> {
    let mut state = State::start(program);
    // A path waits for each condition of the present one that must be true,
    // so that there are never more of them than branches.
    let mut waiting = Vec::with_capacity(budget.branches as usize);
    let mut rows = 0;
    loop {
        let outcome = one_path(program, budget, &mut state, terms, &mut waiting)?;
        if rows == limits::ROWS {
            return Err(Refusal::Rows);
        }
        let at = layout::HEADER_BYTES + rows * layout::ROW_BYTES;
        let row = &mut table[at..at + layout::ROW_BYTES];
        layout::write_row(row, program, &state, outcome);
        rows += 1;
        match waiting.pop() {
            Some(next) => state = next,
            None => return Ok(rows),
        }
    }
}

/// Follows one path to its end, and leaves the false branches it passed.
fn one_path(
    program: &Program,
    budget: Budget,
    state: &mut State,
    terms: &mut Pool,
    waiting: &mut Vec<State>,
) -> Result<Outcome, Refusal> {
    while state.steps < budget.steps {
        match state.step(program, terms) {
            Ok(Event::Next) => state.steps += 1,
            Ok(Event::Ended(outcome)) => {
                state.steps += 1;
                return Ok(outcome);
            }
            Ok(Event::Branch { term, to }) => {
                if state.conditions().len() == budget.branches as usize {
                    return Ok(Outcome::Cut(Reason::Branches));
                }
                state.steps += 1;
                let mut other = *state;
                other.take_branch(term, false, state.next + 1);
                waiting.push(other);
                state.take_branch(term, true, to);
            }
            Err(Stop::Error(error)) => {
                state.steps += 1;
                return Ok(Outcome::Error(error));
            }
            Err(Stop::PoolFull) => return Err(Refusal::Terms),
        }
    }
    Ok(Outcome::Cut(Reason::Steps))
}
