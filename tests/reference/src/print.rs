//! The printed table: CSV after RFC 4180. No field ever holds a comma, a
//! quote or a line's end, so none is quoted.

use crate::explore::{explore, Budget};
use crate::layout::{self, header, outcome, row};
use crate::limits;
use crate::program::{unpack, Program};
use crate::text;
use crate::value::{tag, Kind};

/// The longest text of a term that is printed as it is.
const TERM_TEXT: usize = 200;

const HEADER: &[u8] = b"row,outcome,value,steps,procedure,command,conditions\r\n";

/// What the program prints for a text.
pub fn printed_table(text: &[u8]) -> Vec<u8> {
    let budget = Budget { steps: limits::STEPS, branches: limits::BRANCHES as u32 };
    let mut table = vec![0; layout::TABLE_BYTES];
    let mut pool = vec![0; layout::POOL_BYTES];
    let explored = text::read(text).and_then(|program| {
        explore(&program, budget, &mut table, &mut pool)?;
        Ok(program)
    });
    match explored {
        Ok(program) => rows(&program, &table, &pool),
        Err(refusal) => format!("refused,{}\r\n", refusal as u32).into_bytes(),
    }
}

fn rows(program: &Program, table: &[u8], pool: &[u8]) -> Vec<u8> {
    let terms = Terms::new(pool, layout::word(table, header::TERMS) as usize);
    let mut out = HEADER.to_vec();
    for number in 0..layout::word(table, header::ROWS) as usize {
        let row = layout::row_at(table, number);
        let procedure = layout::word(row, row::PROCEDURE) as usize;
        put_number(&mut out, number as u32);
        out.push(b',');
        put_outcome(&mut out, row, &terms);
        out.push(b',');
        put_number(&mut out, layout::word(row, row::STEPS));
        out.push(b',');
        out.extend(unpack(program.procedures[procedure].name));
        out.push(b',');
        put_number(&mut out, layout::word(row, row::COMMAND));
        out.push(b',');
        put_conditions(&mut out, row, &terms);
        out.extend(b"\r\n");
    }
    out
}

fn put_number(out: &mut Vec<u8>, number: u32) {
    out.extend(number.to_string().as_bytes());
}

fn put_outcome(out: &mut Vec<u8>, row: &[u8], terms: &Terms) {
    let value = (layout::word(row, row::VALUE), layout::word(row, row::VALUE + 1));
    match layout::word(row, row::OUTCOME) {
        outcome::RETURNED => {
            out.extend(b"returned,");
            terms.put(out, value);
        }
        outcome::FAILED => {
            out.extend(b"failed,");
            terms.put(out, value);
        }
        outcome::VANISHED => out.extend(b"vanished,"),
        outcome::ERROR => {
            out.extend(b"error,");
            put_number(out, value.1);
        }
        outcome::CUT if value.1 == 1 => out.extend(b"cut,steps"),
        outcome::CUT => out.extend(b"cut,branches"),
        _ => unreachable!("a row has one of five outcomes"),
    }
}

fn put_conditions(out: &mut Vec<u8>, row: &[u8], terms: &Terms) {
    let count = layout::word(row, row::CONDITION_COUNT) as usize;
    if count == 0 {
        out.extend(b"true");
    }
    for number in 0..count {
        let at = row::CONDITIONS + 2 * number;
        if number > 0 {
            out.extend(b"; ");
        }
        if layout::word(row, at + 1) == 0 {
            out.extend(b"not ");
        }
        terms.put(out, (tag::BOOLEAN_TERM, layout::word(row, at)));
    }
}

/// A pool with the length of each term's text, or one more than [`TERM_TEXT`]
/// where it is longer. With the lengths known beforehand no term is printed in
/// vain, however large a tree it would be.
struct Terms<'a> {
    pool: &'a [u8],
    lengths: Vec<usize>,
}

/// A tag and a word.
type Stored = (u32, u32);

impl<'a> Terms<'a> {
    fn new(pool: &'a [u8], count: usize) -> Self {
        let mut terms = Terms { pool, lengths: Vec::with_capacity(count) };
        for number in 0..count {
            let length = terms.term_length(number).min(TERM_TEXT + 1);
            terms.lengths.push(length);
        }
        terms
    }

    fn parts(&self, number: usize) -> (u32, Stored, Stored) {
        let term = layout::term_at(self.pool, number);
        let word = |at| layout::word(term, at);
        (word(0), (word(1), word(2)), (word(3), word(4)))
    }

    fn term_length(&self, number: usize) -> usize {
        let (kind, left, right) = self.parts(number);
        match sign(kind) {
            "#" => 1 + self.length(left),
            "not" => 4 + self.length(left),
            sign => 4 + sign.len() + self.length(left) + self.length(right),
        }
    }

    fn length(&self, (tag, word): Stored) -> usize {
        match tag {
            tag::NUMBER => decimal_length(word),
            tag::BOOLEAN if word == 1 => "true".len(),
            tag::BOOLEAN => "false".len(),
            tag::LOCATION => 1 + decimal_length(word),
            _ => self.lengths[word as usize],
        }
    }

    /// Writes a value, with a term's text or `large` for it.
    fn put(&self, out: &mut Vec<u8>, value: Stored) {
        if self.length(value) > TERM_TEXT {
            out.extend(b"large");
        } else {
            self.put_text(out, value);
        }
    }

    fn put_text(&self, out: &mut Vec<u8>, (tag, word): Stored) {
        match tag {
            tag::NUMBER => put_number(out, word),
            tag::BOOLEAN if word == 1 => out.extend(b"true"),
            tag::BOOLEAN => out.extend(b"false"),
            tag::LOCATION => {
                out.push(b'$');
                put_number(out, word);
            }
            _ => self.put_term(out, word as usize),
        }
    }

    fn put_term(&self, out: &mut Vec<u8>, number: usize) {
        let (kind, left, right) = self.parts(number);
        match sign(kind) {
            "#" => {
                out.push(b'#');
                self.put_text(out, left);
            }
            "not" => {
                out.extend(b"not ");
                self.put_text(out, left);
            }
            sign => {
                out.push(b'(');
                self.put_text(out, left);
                out.push(b' ');
                out.extend(sign.as_bytes());
                out.push(b' ');
                self.put_text(out, right);
                out.push(b')');
            }
        }
    }
}

fn sign(kind: u32) -> &'static str {
    const SIGNS: [(Kind, &str); 8] = [
        (Kind::Input, "#"),
        (Kind::Not, "not"),
        (Kind::Add, "+"),
        (Kind::Subtract, "-"),
        (Kind::Equal, "="),
        (Kind::Less, "<"),
        (Kind::And, "and"),
        (Kind::Or, "or"),
    ];
    SIGNS
        .iter()
        .find(|&&(k, _)| k as u32 == kind)
        .map(|&(_, sign)| sign)
        .expect("the pool holds no other kind")
}

fn decimal_length(number: u32) -> usize {
    number.checked_ilog10().map_or(1, |log| log as usize + 1)
}
