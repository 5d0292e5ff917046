//! A text once it is read: flat arrays and small numbers, no names but those
//! of the procedures (the printed table wants them).

use crate::value::Value;

/// An identifier or a property: its at most sixteen bytes, the last one
/// lowest. No byte of a name is zero, so that two names are the same exactly
/// if their numbers are.
pub type Name = u128;

#[derive(Clone, Copy, PartialEq, Eq, Debug)]
pub enum Operator {
    Add,
    Subtract,
    Equal,
    Less,
    And,
    Or,
}

/// One place of an expression in postfix order. Postfix is evaluation order:
/// both operands in full, the left one first, and only then the operator.
#[derive(Clone, Copy, Debug)]
pub enum Node {
    Constant(Value),
    Variable(u8),
    Not,
    Binary(Operator),
}

/// A part of [`Program::nodes`].
#[derive(Clone, Copy, Debug)]
pub struct Expression {
    pub start: u16,
    pub end: u16,
}

#[derive(Clone, Copy, Debug)]
pub enum Command {
    Assign {
        target: u8,
        value: Expression,
    },
    /// `to` is as written while reading, and counts from the first command of
    /// the whole text afterwards.
    Jump {
        condition: Expression,
        to: u32,
    },
    Call {
        target: u8,
        callee: u8,
        argument: Expression,
    },
    Lookup {
        target: u8,
        object: Expression,
        property: u8,
    },
    Mutate {
        target: u8,
        object: Expression,
        property: u8,
        value: Expression,
    },
    Dispose {
        target: u8,
        object: Expression,
    },
    FreshLocation {
        target: u8,
    },
    FreshInput {
        target: u8,
    },
    Return(Expression),
    Fail(Expression),
    Vanish,
}

#[derive(Clone, Copy, Debug)]
pub struct Procedure {
    pub name: Name,
    /// Its first command, counted over the whole text.
    pub first: u16,
    pub count: u16,
    pub variables: u8,
}

#[derive(Debug)]
pub struct Program {
    pub procedures: Vec<Procedure>,
    pub commands: Vec<Command>,
    pub nodes: Vec<Node>,
    pub main: u8,
}

impl Program {
    pub fn nodes(&self, part: Expression) -> &[Node] {
        &self.nodes[part.start as usize..part.end as usize]
    }
}

/// The number that stands for a name of at most sixteen bytes.
pub fn pack(bytes: &[u8]) -> Name {
    bytes.iter().fold(0, |name, &byte| name << 8 | Name::from(byte))
}

/// The bytes that [`pack`] was given.
pub fn unpack(name: Name) -> Vec<u8> {
    let bytes = name.to_be_bytes();
    bytes.into_iter().skip_while(|&byte| byte == 0).collect()
}
