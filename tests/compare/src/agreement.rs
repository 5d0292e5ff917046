//! Demand 3 on the archive's own answers: every list of inputs falls in exactly
//! one row, place names it, and the plain run with the row's steps gives the
//! row with the inputs put in. The reference has no part in this.

use reference::layout::{
    outcome, put, row, row_at, term_at, word, ANSWER_BYTES, INPUT_BYTES, POOL_BYTES, ROW_BYTES,
    TABLE_BYTES, WORD,
};
use reference::limits;

/// Tags of a value, as docs/LAYOUT.md numbers them.
const NUMBER: u32 = 1;
const BOOLEAN: u32 = 2;
const NUMBER_TERM: u32 = 4;
const BOOLEAN_TERM: u32 = 5;

const PLACED: u32 = 256;

/// Why a path was cut.
const FOR_STEPS: u32 = 1;

/// A table with its pool.
pub struct Explored {
    table: Vec<u8>,
    pool: Vec<u8>,
    steps: u32,
    branches: u32,
}

impl Explored {
    /// Of the archive; nothing where it refuses.
    pub fn new(text: &[u8], steps: u32, branches: u32) -> Option<Explored> {
        let (mut table, mut pool) = (vec![0; TABLE_BYTES], vec![0; POOL_BYTES]);
        match archive::explore(text, steps, branches, &mut table, &mut pool) {
            0 => Some(Explored { table, pool, steps, branches }),
            _ => None,
        }
    }

    fn row_count(&self) -> usize {
        word(&self.table, 0) as usize
    }

    /// What every term of the pool is on these inputs; a boolean is 0 or 1.
    fn term_values(&self, inputs: &[u8]) -> Vec<u32> {
        let mut values: Vec<u32> = Vec::new();
        for number in 0..word(&self.table, 1) as usize {
            let term = term_at(&self.pool, number);
            let operand = |at| value(&values, word(term, at), word(term, at + 1)).1;
            let (left, right) = (operand(1), operand(3));
            values.push(match word(term, 0) {
                1 => word(inputs, left as usize),
                2 => u32::from(left == 0),
                3 => left.wrapping_add(right),
                4 => left.wrapping_sub(right),
                5 => u32::from(left == right),
                6 => u32::from(left < right),
                7 => u32::from(left == 1 && right == 1),
                8 => u32::from(left == 1 || right == 1),
                kind => panic!("term {number} has kind {kind}"),
            });
        }
        values
    }

    fn is_met(&self, number: usize, values: &[u32]) -> bool {
        let row = row_at(&self.table, number);
        (0..word(row, row::CONDITION_COUNT) as usize).all(|number| {
            let at = row::CONDITIONS + 2 * number;
            values[word(row, at) as usize] == word(row, at + 1)
        })
    }

    /// The answer that the plain run must give: the row without conditions, all
    /// terms worked out, and cut for steps where it was cut at all.
    fn answer(&self, number: usize, values: &[u32]) -> Vec<u8> {
        let mut answer = row_at(&self.table, number).to_vec();
        put(&mut answer, row::CONDITION_COUNT, 0);
        for at in row::CONDITIONS..row::VARIABLES {
            put(&mut answer, at, 0);
        }
        let variables = (row::VARIABLES..row::CELLS).step_by(2);
        let cells = (row::CELLS..row::CELLS + 4 * limits::CELLS).step_by(4).map(|cell| cell + 2);
        for at in variables.chain(cells) {
            put_constant(&mut answer, at, values);
        }
        match word(&answer, row::OUTCOME) {
            outcome::CUT => put(&mut answer, row::VALUE + 1, FOR_STEPS),
            _ => put_constant(&mut answer, row::VALUE, values),
        }
        answer
    }

    /// The one row whose conditions the inputs meet.
    fn row_met(&self, values: &[u32]) -> Result<usize, String> {
        let rows = 0..self.row_count();
        let met: Vec<usize> = rows.filter(|&number| self.is_met(number, values)).collect();
        match met[..] {
            [number] => Ok(number),
            _ => Err(format!("they meet the rows {met:?}")),
        }
    }

    /// Demand 3 for one list of inputs.
    pub fn agrees(&self, text: &[u8], inputs: &[u8; INPUT_BYTES]) -> Result<(), String> {
        let values = self.term_values(inputs);
        let number = self.row_met(&values)?;

        let (mut table, mut pool) = (vec![0; TABLE_BYTES], vec![0; POOL_BYTES]);
        let placed = archive::place(text, inputs, self.steps, self.branches, &mut table, &mut pool);
        if placed != PLACED + number as u32 {
            return Err(format!("they meet row {number}, place returned {placed}"));
        }

        let steps = word(row_at(&self.table, number), row::STEPS);
        let mut answer = vec![0; ANSWER_BYTES];
        let returned = archive::plain_run(text, inputs, steps, &mut answer);
        if returned != 0 {
            return Err(format!("the plain run of {steps} steps returned {returned}"));
        }
        let wanted = self.answer(number, &values);
        match (0..ROW_BYTES / WORD).find(|&at| word(&answer, at) != word(&wanted, at)) {
            None => Ok(()),
            Some(at) => Err(format!(
                "word {at} of the plain run's answer after {steps} steps is {}, by row {number} {}",
                word(&answer, at),
                word(&wanted, at)
            )),
        }
    }
}

/// A value with its term, if it is one, worked out.
fn value(values: &[u32], tag: u32, word: u32) -> (u32, u32) {
    match tag {
        NUMBER_TERM => (NUMBER, values[word as usize]),
        BOOLEAN_TERM => (BOOLEAN, values[word as usize]),
        _ => (tag, word),
    }
}

fn put_constant(row: &mut [u8], at: usize, values: &[u32]) {
    let (tag, number) = value(values, word(row, at), word(row, at + 1));
    put(row, at, tag);
    put(row, at + 1, number);
}
