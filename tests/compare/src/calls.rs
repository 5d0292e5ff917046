//! One call, made to the archive and to the reference with the same arguments
//! and the same memory: what they return and every byte after it must agree.

use crate::lent::Lent;
use reference::layout::{
    word, ANSWER_BYTES, HEADER_BYTES, POOL_BYTES, ROW_BYTES, TABLE_BYTES, TERM_BYTES, WORD,
};
use std::fmt;

type Check = fn(&[u8]) -> u32;
type PlainRun = fn(&[u8], &[u8], u32, &mut [u8]) -> u32;
type Explore = fn(&[u8], u32, u32, &mut [u8], &mut [u8]) -> u32;
type Place = fn(&[u8], &[u8], u32, u32, &mut [u8], &mut [u8]) -> u32;

/// The four calls of one implementation.
struct Side {
    check: Check,
    plain_run: PlainRun,
    explore: Explore,
    place: Place,
}

const ARCHIVE: Side = Side {
    check: archive::check,
    plain_run: archive::plain_run,
    explore: archive::explore,
    place: archive::place,
};

const REFERENCE: Side = Side {
    check: reference::check,
    plain_run: reference::plain_run,
    explore: reference::explore,
    place: reference::place,
};

/// A call's arguments but for the text, with the memory that it is lent.
#[derive(Clone)]
pub enum Call {
    Check,
    PlainRun { inputs: Vec<u8>, steps: u32, answer: Lent },
    Explore { steps: u32, branches: u32, table: Lent, pool: Lent },
    Place { inputs: Vec<u8>, steps: u32, branches: u32, table: Lent, pool: Lent },
}

/// The names of the calls, by [`Call::number`].
pub const NAMES: [&str; 4] = ["check", "plain run", "explore", "place"];

impl Call {
    pub fn number(&self) -> usize {
        match self {
            Call::Check => 0,
            Call::PlainRun { .. } => 1,
            Call::Explore { .. } => 2,
            Call::Place { .. } => 3,
        }
    }

    fn made_to(&mut self, side: &Side, text: &[u8]) -> u32 {
        match self {
            Call::Check => (side.check)(text),
            Call::PlainRun { inputs, steps, answer } => {
                (side.plain_run)(text, inputs, *steps, answer.part())
            }
            Call::Explore { steps, branches, table, pool } => {
                (side.explore)(text, *steps, *branches, table.part(), pool.part())
            }
            Call::Place { inputs, steps, branches, table, pool } => {
                (side.place)(text, inputs, *steps, *branches, table.part(), pool.part())
            }
        }
    }

    fn memory(&self) -> Vec<(&Lent, &'static Shape)> {
        match self {
            Call::Check => vec![],
            Call::PlainRun { answer, .. } => vec![(answer, &ANSWER)],
            Call::Explore { table, pool, .. } | Call::Place { table, pool, .. } => {
                vec![(table, &TABLE), (pool, &POOL)]
            }
        }
    }

    /// Makes the call to both; gives what both returned, or what differs.
    pub fn compare(&self, text: &[u8]) -> Result<u32, String> {
        let (mut ours, mut theirs) = (self.clone(), self.clone());
        let lent_text = text.to_vec();
        let returned = ours.made_to(&ARCHIVE, &lent_text);
        let wanted = theirs.made_to(&REFERENCE, text);
        if lent_text != text {
            return Err(format!("{self}: the text is no longer what it was"));
        }
        if returned != wanted {
            return Err(format!("{self}: returned {returned}, the reference {wanted}"));
        }
        for ((ours, shape), (theirs, _)) in ours.memory().iter().zip(theirs.memory()) {
            if let Some((at, one, two)) = ours.difference(theirs) {
                let place = shape.place(at, ours.length());
                return Err(format!("{self}: {place} is {one}, the reference's {two}"));
            }
        }
        Ok(returned)
    }
}

impl fmt::Display for Call {
    fn fmt(&self, to: &mut fmt::Formatter) -> fmt::Result {
        write!(to, "{}", NAMES[self.number()])?;
        match self {
            Call::Check => {}
            Call::PlainRun { inputs, steps, .. } => {
                write!(to, ", {steps} steps, {}", Inputs(inputs))?;
            }
            Call::Explore { steps, branches, .. } => {
                write!(to, ", {steps} steps, {branches} branches")?;
            }
            Call::Place { inputs, steps, branches, .. } => {
                write!(to, ", {steps} steps, {branches} branches, {}", Inputs(inputs))?;
            }
        }
        for (lent, shape) in self.memory() {
            write!(to, ", {} of {} bytes", shape.name, lent.length())?;
        }
        Ok(())
    }
}

/// An input list as words, with what is left over.
pub struct Inputs<'a>(pub &'a [u8]);

impl fmt::Display for Inputs<'_> {
    fn fmt(&self, to: &mut fmt::Formatter) -> fmt::Result {
        let words: Vec<u32> = (0..self.0.len() / WORD).map(|at| word(self.0, at)).collect();
        match self.0.len() % WORD {
            0 => write!(to, "inputs {words:?}"),
            left => write!(to, "inputs {words:?} and {left} bytes"),
        }
    }
}

/// How a buffer is divided, to say where in it a byte stands.
struct Shape {
    name: &'static str,
    needed: usize,
    heading: usize,
    part: &'static str,
    part_bytes: usize,
}

const ANSWER: Shape =
    Shape { name: "answer", needed: ANSWER_BYTES, heading: 0, part: "row", part_bytes: ROW_BYTES };

const TABLE: Shape = Shape {
    name: "table",
    needed: TABLE_BYTES,
    heading: HEADER_BYTES,
    part: "row",
    part_bytes: ROW_BYTES,
};

const POOL: Shape =
    Shape { name: "pool", needed: POOL_BYTES, heading: 0, part: "term", part_bytes: TERM_BYTES };

impl Shape {
    fn place(&self, at: isize, length: usize) -> String {
        let Shape { name, needed, heading, part, part_bytes } = *self;
        let Ok(at) = usize::try_from(at) else {
            return format!("{name}: the guard, {} before it,", -at);
        };
        if at >= length {
            return format!("{name}: the guard, {} behind it,", at - length);
        }
        if at >= needed {
            return format!("{name}: byte {at}, in the surplus,");
        }
        if at < heading {
            return format!("{name}: byte {at} (word {} of the heading)", at / WORD);
        }
        let number = (at - heading) / part_bytes;
        let word = (at - heading) % part_bytes / WORD;
        format!("{name}: byte {at} (word {word} of {part} {number})")
    }
}
