//! What is measured: each a call on a text, the same for both sides.

use crate::texts;
use reference::layout::{row, row_at, word, ANSWER_BYTES, INPUT_BYTES, POOL_BYTES, TABLE_BYTES};
use reference::limits;

#[derive(Clone, Copy, PartialEq, Eq)]
pub enum Side {
    Archive,
    Reference,
}

#[derive(Clone, Copy, PartialEq, Eq)]
pub enum Call {
    Check,
    PlainRun,
    Explore,
    Place,
}

/// The buffers that both sides are lent, one after the other.
#[derive(Clone, PartialEq, Eq)]
pub struct Buffers {
    answer: Vec<u8>,
    table: Vec<u8>,
    pool: Vec<u8>,
}

impl Buffers {
    pub fn new() -> Buffers {
        Buffers {
            answer: vec![0; ANSWER_BYTES],
            table: vec![0; TABLE_BYTES],
            pool: vec![0; POOL_BYTES],
        }
    }

    pub fn clear(&mut self) {
        self.answer.fill(0);
        self.table.fill(0);
        self.pool.fill(0);
    }
}

pub struct Workload {
    /// What grows from one to the next, or `calls` for the main table.
    pub group: &'static str,
    pub name: String,
    pub call: Call,
    pub text: String,
    pub steps: u32,
    /// Whether the buffers are cleared before each call, outside the time
    /// measured; else each call finds there what the one before it left.
    pub cleared: bool,
}

impl Workload {
    /// Makes the call once.
    pub fn run(&self, side: Side, buffers: &mut Buffers) -> u32 {
        const INPUTS: [u8; INPUT_BYTES] = [3; INPUT_BYTES];
        let branches = limits::BRANCHES as u32;
        let (text, steps) = (self.text.as_bytes(), self.steps);
        let Buffers { answer, table, pool } = buffers;
        match (self.call, side) {
            (Call::Check, Side::Archive) => archive::check(text),
            (Call::Check, Side::Reference) => reference::check(text),
            (Call::PlainRun, Side::Archive) => archive::plain_run(text, &INPUTS, steps, answer),
            (Call::PlainRun, Side::Reference) => reference::plain_run(text, &INPUTS, steps, answer),
            (Call::Explore, Side::Archive) => archive::explore(text, steps, branches, table, pool),
            (Call::Explore, Side::Reference) => {
                reference::explore(text, steps, branches, table, pool)
            }
            (Call::Place, Side::Archive) => {
                archive::place(text, &INPUTS, steps, branches, table, pool)
            }
            (Call::Place, Side::Reference) => {
                reference::place(text, &INPUTS, steps, branches, table, pool)
            }
        }
    }

    /// Runs it once on each side; gives what the time is divided by: bytes of
    /// the text for check, else commands, which are the steps of all rows (what
    /// several rows begin with is counted in each).
    pub fn units(&self) -> u32 {
        let (mut ours, mut theirs) = (Buffers::new(), Buffers::new());
        let returned = self.run(Side::Archive, &mut ours);
        assert_eq!(returned, self.run(Side::Reference, &mut theirs), "{}", self.name);
        assert!(returned == 0 || returned >= 256, "{} is refused by {returned}", self.name);
        assert!(ours == theirs, "{}: the two sides do not agree", self.name);
        let rows = word(&ours.table, 0) as usize;
        match self.call {
            Call::Check => self.text.len() as u32,
            Call::PlainRun => word(&ours.answer, row::STEPS),
            _ => (0..rows).map(|number| word(row_at(&ours.table, number), row::STEPS)).sum(),
        }
    }
}

fn call(name: &str, call: Call, text: &str) -> Workload {
    let (name, text) = (name.to_string(), text.to_string());
    Workload { group: "calls", name, call, text, steps: limits::STEPS, cleared: false }
}

/// One of a group in which one thing grows.
fn growing(group: &'static str, size: usize, text: String, steps: u32) -> Workload {
    let name = size.to_string();
    Workload { group, name, call: Call::Explore, text, steps, cleared: false }
}

/// A small body for the texts of which only the length matters.
const SMALL: &str = "a := iSym_0; ifgoto (a < 5) 3; return 1; fail a;";

pub fn all() -> Vec<Workload> {
    let handler = "explore, a handler of 8 rows";
    let mut all = vec![
        call("check, 16,384 bytes", Call::Check, &texts::padded(SMALL, limits::TEXT_BYTES)),
        call("plain run, arithmetic and jumps", Call::PlainRun, texts::ARITHMETIC),
        call("plain run, calls", Call::PlainRun, texts::CALLS),
        call("plain run, cells", Call::PlainRun, texts::CELLS),
        call("explore, 64 rows of 988 steps", Call::Explore, &texts::rows(6, 490)),
        call(handler, Call::Explore, texts::HANDLER),
        Workload { cleared: true, ..call(handler, Call::Explore, texts::HANDLER) },
        call("place, the same handler", Call::Place, texts::HANDLER),
        call("explore, 32 cells, 8 rows of 1,024 steps", Call::Explore, &texts::cells(32)),
    ];
    for count in 0..=6 {
        all.push(growing("rows", 1 << count, texts::rows(count, 1), limits::STEPS));
    }
    for steps in [64, 128, 256, 512, 1024] {
        all.push(growing("steps", steps, texts::ARITHMETIC.to_string(), steps as u32));
    }
    for cells in [2, 4, 8, 16, 32] {
        all.push(growing("cells", cells, texts::cells(cells as u32), 400));
    }
    for length in [1 << 10, 1 << 11, 1 << 12, 1 << 13, limits::TEXT_BYTES] {
        all.push(growing("text bytes", length, texts::padded(SMALL, length), limits::STEPS));
    }
    all
}
