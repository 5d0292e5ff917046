//! What all tests share: calling on memory that is not zero and has a surplus,
//! and reading rows and terms back strictly. Every call made through here is
//! tested for what the lent memory holds afterwards.

// Each test file uses its own part of this.
#![allow(dead_code)]

use reference::layout::{
    self, word, ANSWER_BYTES, HEADER_BYTES, INPUT_BYTES, POOL_BYTES, ROW_BYTES, TABLE_BYTES,
};

pub const STEPS: u32 = 1_024;
pub const BRANCHES: u32 = 16;

const FILL: u8 = 0xA5;
const SURPLUS: usize = 40;

/// A value: constant or term.
#[derive(Clone, Copy, PartialEq, Eq, Debug)]
pub enum V {
    Nothing,
    Num(u32),
    Bool(bool),
    Loc(u32),
    NumTerm(u32),
    BoolTerm(u32),
}

#[derive(Clone, Copy, PartialEq, Eq, Debug)]
pub enum End {
    Returned(V),
    Failed(V),
    Vanished,
    Error(u32),
    CutSteps,
    CutBranches,
}

#[derive(Clone, PartialEq, Eq, Debug)]
pub struct Row {
    pub end: End,
    pub steps: u32,
    pub procedure: u32,
    pub command: u32,
    pub inputs: u32,
    pub conditions: Vec<(u32, bool)>,
    pub variables: Vec<V>,
    pub cells: Vec<(u32, u32, V)>,
}

impl Row {
    pub fn at(&self) -> (u32, u32) {
        (self.procedure, self.command)
    }
}

/// Kind, left operand, right operand.
pub type Term = (u32, V, V);

#[derive(Clone, PartialEq, Eq, Debug)]
pub struct Table {
    pub rows: Vec<Row>,
    pub terms: Vec<Term>,
}

fn value(tag: u32, word: u32) -> V {
    match (tag, word) {
        (0, 0) => V::Nothing,
        (1, n) => V::Num(n),
        (2, 0) => V::Bool(false),
        (2, 1) => V::Bool(true),
        (3, k) => V::Loc(k),
        (4, i) => V::NumTerm(i),
        (5, i) => V::BoolTerm(i),
        _ => panic!("no value: tag {tag}, word {word}"),
    }
}

fn words(bytes: &[u8]) -> Vec<u32> {
    (0..bytes.len() / 4).map(|at| word(bytes, at)).collect()
}

fn assert_zero(words: &[u32]) {
    assert!(words.iter().all(|&w| w == 0), "words that hold nothing are zero");
}

/// Reads a row by the numbers of the layout, not by the library's names for
/// them, and demands zero wherever nothing stands.
pub fn decode_row(bytes: &[u8]) -> Row {
    let w = words(bytes);
    assert_eq!(w.len(), 256);
    let end = match (w[0], w[1], w[2]) {
        (1, tag, word) => End::Returned(value(tag, word)),
        (2, tag, word) => End::Failed(value(tag, word)),
        (3, 0, 0) => End::Vanished,
        (4, 0, error @ 1..=7) => End::Error(error),
        (5, 0, 1) => End::CutSteps,
        (5, 0, 2) => End::CutBranches,
        other => panic!("no outcome: {other:?}"),
    };
    let (conditions, variables, cells) = (w[7] as usize, w[8] as usize, w[9] as usize);
    assert_zero(&w[10..16]);
    assert_zero(&w[16 + 2 * conditions..48]);
    assert_zero(&w[48 + 2 * variables..80]);
    assert_zero(&w[80 + 4 * cells..256]);
    Row {
        end,
        steps: w[3],
        procedure: w[4],
        command: w[5],
        inputs: w[6],
        conditions: w[16..16 + 2 * conditions]
            .chunks(2)
            .map(|c| (c[0], [false, true][c[1] as usize]))
            .collect(),
        variables: w[48..48 + 2 * variables].chunks(2).map(|v| value(v[0], v[1])).collect(),
        cells: w[80..80 + 4 * cells].chunks(4).map(|c| (c[0], c[1], value(c[2], c[3]))).collect(),
    }
}

pub fn decode_table(table: &[u8], pool: &[u8]) -> Table {
    let header = words(&table[..HEADER_BYTES]);
    let (rows, terms) = (header[0] as usize, header[1] as usize);
    assert_zero(&header[2..]);
    assert_zero(&words(&table[HEADER_BYTES + rows * ROW_BYTES..]));
    assert_zero(&words(&pool[terms * 20..]));
    Table {
        rows: (0..rows).map(|n| decode_row(layout::row_at(table, n))).collect(),
        terms: words(&pool[..terms * 20])
            .chunks(5)
            .map(|t| (t[0], value(t[1], t[2]), value(t[3], t[4])))
            .collect(),
    }
}

/// Memory as a caller may lend it: with old content, and longer than needed.
fn lent(needed: usize) -> Vec<u8> {
    vec![FILL; needed + SURPLUS]
}

fn is_filled(bytes: &[u8]) -> bool {
    bytes.iter().all(|&b| b == FILL)
}

/// The needed part, after a look at the surplus.
fn used(bytes: &[u8], needed: usize) -> &[u8] {
    assert!(is_filled(&bytes[needed..]), "the surplus is kept");
    &bytes[..needed]
}

fn after_refusal(refusal: u32, memory: &[(&[u8], usize)]) {
    for &(bytes, needed) in memory {
        let used = used(bytes, needed);
        match refusal {
            9 | 10 => assert!(used.iter().all(|&b| b == 0), "all zero after {refusal}"),
            _ => assert!(is_filled(used), "untouched after {refusal}"),
        }
    }
}

pub fn input_bytes(inputs: &[u32]) -> Vec<u8> {
    let mut bytes = vec![0; INPUT_BYTES];
    for (at, &input) in inputs.iter().enumerate() {
        layout::put(&mut bytes, at, input);
    }
    bytes
}

pub fn explore(text: impl AsRef<[u8]>, steps: u32, branches: u32) -> Result<Table, u32> {
    let (mut table, mut pool) = (lent(TABLE_BYTES), lent(POOL_BYTES));
    match reference::explore(text.as_ref(), steps, branches, &mut table, &mut pool) {
        0 => Ok(decode_table(used(&table, TABLE_BYTES), used(&pool, POOL_BYTES))),
        refusal => {
            after_refusal(refusal, &[(&table, TABLE_BYTES), (&pool, POOL_BYTES)]);
            Err(refusal)
        }
    }
}

/// The row's number; the table must be that of an exploration.
pub fn place(
    text: impl AsRef<[u8]>,
    inputs: &[u32],
    steps: u32,
    branches: u32,
) -> Result<u32, u32> {
    let (mut table, mut pool) = (lent(TABLE_BYTES), lent(POOL_BYTES));
    let inputs = input_bytes(inputs);
    let text = text.as_ref();
    match reference::place(text, &inputs, steps, branches, &mut table, &mut pool) {
        placed @ 256.. => {
            let found = decode_table(used(&table, TABLE_BYTES), used(&pool, POOL_BYTES));
            assert_eq!(Ok(found), explore(text, steps, branches));
            Ok(placed - 256)
        }
        refusal => {
            after_refusal(refusal, &[(&table, TABLE_BYTES), (&pool, POOL_BYTES)]);
            Err(refusal)
        }
    }
}

pub fn plain(text: impl AsRef<[u8]>, inputs: &[u32], steps: u32) -> Result<Row, u32> {
    let mut answer = lent(ANSWER_BYTES);
    match reference::plain_run(text.as_ref(), &input_bytes(inputs), steps, &mut answer) {
        0 => {
            let row = decode_row(used(&answer, ANSWER_BYTES));
            assert!(row.conditions.is_empty());
            Ok(row)
        }
        refusal => {
            after_refusal(refusal, &[(&answer, ANSWER_BYTES)]);
            Err(refusal)
        }
    }
}

/// The text whose `main(x)` has this body.
pub fn main(body: &str) -> String {
    format!("main(x){{ {body} }}")
}

/// The exploration of an accepted body with the full budgets.
pub fn table(body: &str) -> Table {
    explore(main(body), STEPS, BRANCHES).unwrap()
}

/// The one row of a body without a branch. Where it has no input either, the
/// plain run must give the same row.
pub fn only(body: &str) -> Row {
    only_of(&main(body))
}

/// As [`only`], of a whole text.
pub fn only_of(text: &str) -> Row {
    let found = explore(text, STEPS, BRANCHES).unwrap();
    assert_eq!(found.rows.len(), 1);
    let row = found.rows[0].clone();
    if found.terms.is_empty() {
        assert_eq!(plain(text, &[], STEPS), Ok(row.clone()));
    }
    row
}

pub fn check(text: impl AsRef<[u8]>) -> u32 {
    reference::check(text.as_ref())
}
