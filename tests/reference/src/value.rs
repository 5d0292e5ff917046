//! Values and operators, over constants and terms alike.

use crate::program::Operator;

/// The numbers are those of the layout.
#[derive(Clone, Copy, PartialEq, Eq, Debug)]
#[repr(u32)]
pub enum Tag {
    /// An unbound variable; no expression ever has this value.
    Nothing = 0,
    Number = 1,
    Boolean = 2,
    Location = 3,
    /// A term of the pool, by its index, whose value will be a number.
    NumberTerm = 4,
    /// A term of the pool whose value will be a boolean.
    BooleanTerm = 5,
}

/// What a variable, a cell or an operand holds, as it will stand in a row. Two
/// whole words move through registers as one, which an enum of a number and a
/// boolean would not.
#[derive(Clone, Copy, PartialEq, Eq, Debug)]
pub struct Value {
    pub tag: Tag,
    pub word: u32,
}

impl Value {
    pub const NOTHING: Value = Value { tag: Tag::Nothing, word: 0 };
    pub const TRUE: Value = Value { tag: Tag::Boolean, word: 1 };
    pub const FALSE: Value = Value { tag: Tag::Boolean, word: 0 };

    pub fn number(n: u32) -> Value {
        Value { tag: Tag::Number, word: n }
    }

    pub fn boolean(b: bool) -> Value {
        Value { tag: Tag::Boolean, word: u32::from(b) }
    }

    pub fn location(k: u32) -> Value {
        Value { tag: Tag::Location, word: k }
    }

    pub fn number_term(index: u32) -> Value {
        Value { tag: Tag::NumberTerm, word: index }
    }

    pub fn boolean_term(index: u32) -> Value {
        Value { tag: Tag::BooleanTerm, word: index }
    }
}

/// The tags as they are read back from stored words.
pub mod tag {
    use super::Tag;

    pub const NUMBER: u32 = Tag::Number as u32;
    pub const BOOLEAN: u32 = Tag::Boolean as u32;
    pub const LOCATION: u32 = Tag::Location as u32;
    pub const NUMBER_TERM: u32 = Tag::NumberTerm as u32;
    pub const BOOLEAN_TERM: u32 = Tag::BooleanTerm as u32;
}

/// A tag without the difference of constant and term.
fn sort(tag: Tag) -> Tag {
    match tag {
        Tag::NumberTerm => Tag::Number,
        Tag::BooleanTerm => Tag::Boolean,
        other => other,
    }
}

/// Why a command did not go through.
#[derive(Clone, Copy, PartialEq, Eq, Debug)]
pub enum Stop {
    Error(ErrorNumber),
    /// A 2,049th term would be made.
    PoolFull,
}

#[derive(Clone, Copy, PartialEq, Eq, Debug)]
pub enum ErrorNumber {
    Unbound = 1,
    WrongSort = 2,
    NoCell = 3,
    Frames = 4,
    Inputs = 5,
    Locations = 6,
    Cells = 7,
}

impl From<ErrorNumber> for Stop {
    fn from(error: ErrorNumber) -> Stop {
        Stop::Error(error)
    }
}

/// The kinds of a term; the numbers are those of the pool's layout.
#[derive(Clone, Copy, PartialEq, Eq, Debug)]
pub enum Kind {
    Input = 1,
    Not = 2,
    Add = 3,
    Subtract = 4,
    Equal = 5,
    Less = 6,
    And = 7,
    Or = 8,
}

impl From<Operator> for Kind {
    fn from(operator: Operator) -> Kind {
        match operator {
            Operator::Add => Kind::Add,
            Operator::Subtract => Kind::Subtract,
            Operator::Equal => Kind::Equal,
            Operator::Less => Kind::Less,
            Operator::And => Kind::And,
            Operator::Or => Kind::Or,
        }
    }
}

/// The two things in which a plain run and an exploration differ below the
/// level of commands.
pub trait World {
    /// The value of the path's input `number`, 0 to 15.
    fn input(&mut self, number: u32) -> Result<Value, Stop>;
    /// Makes a term and gives its index.
    fn term(&mut self, kind: Kind, left: Value, right: Value) -> Result<u32, Stop>;
}

pub fn not<W: World>(operand: Value, world: &mut W) -> Result<Value, Stop> {
    match operand.tag {
        Tag::Boolean => Ok(Value::boolean(operand.word == 0)),
        Tag::BooleanTerm => {
            let term = world.term(Kind::Not, operand, Value::NOTHING)?;
            Ok(Value::boolean_term(term))
        }
        _ => Err(ErrorNumber::WrongSort.into()),
    }
}

/// Sorts first; then constants are worked out, and all else is a term.
#[inline]
pub fn binary<W: World>(
    operator: Operator,
    left: Value,
    right: Value,
    world: &mut W,
) -> Result<Value, Stop> {
    let needed = match operator {
        Operator::Add | Operator::Subtract | Operator::Less => Tag::Number,
        Operator::And | Operator::Or => Tag::Boolean,
        Operator::Equal => return equal(left, right, world),
    };
    if left.tag == needed && right.tag == needed {
        return Ok(fold(operator, left.word, right.word));
    }
    if sort(left.tag) != needed || sort(right.tag) != needed {
        return Err(ErrorNumber::WrongSort.into());
    }
    let term = world.term(operator.into(), left, right)?;
    Ok(match operator {
        Operator::Add | Operator::Subtract => Value::number_term(term),
        _ => Value::boolean_term(term),
    })
}

fn fold(operator: Operator, left: u32, right: u32) -> Value {
    match operator {
        Operator::Add => Value::number(left.wrapping_add(right)),
        Operator::Subtract => Value::number(left.wrapping_sub(right)),
        Operator::Equal => Value::boolean(left == right),
        Operator::Less => Value::boolean(left < right),
        Operator::And => Value::boolean(left & right != 0),
        Operator::Or => Value::boolean(left | right != 0),
    }
}

/// `=` takes all sorts, and is false at once across two of them.
fn equal<W: World>(left: Value, right: Value, world: &mut W) -> Result<Value, Stop> {
    let common = sort(left.tag);
    if common != sort(right.tag) {
        return Ok(Value::FALSE);
    }
    if left.tag == common && right.tag == common {
        return Ok(fold(Operator::Equal, left.word, right.word));
    }
    let term = world.term(Kind::Equal, left, right)?;
    Ok(Value::boolean_term(term))
}
