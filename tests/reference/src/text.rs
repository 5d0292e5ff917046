//! Reading a text: one pass over its tokens (refusal 4), then its counts (5);
//! what its names and numbers refer to is looked at last (6 to 8).

use crate::limits;
use crate::program::{Command, Expression, Name, Node, Operator, Procedure, Program};
use crate::resolve;
use crate::tokens::{Fault, Reserved, Tokens, Word};
use crate::value::Value;
use crate::Refusal;

/// Names by first appearance. Past its room it only notes that there were
/// more: the text is refused by 5 then, but not before it is read to its end.
struct Names<const ROOM: usize> {
    names: [Name; ROOM],
    count: usize,
    over: bool,
}

impl<const ROOM: usize> Names<ROOM> {
    fn new() -> Self {
        Names { names: [0; ROOM], count: 0, over: false }
    }

    fn number_of(&mut self, name: Name) -> u8 {
        if let Some(at) = self.names[..self.count].iter().position(|&n| n == name) {
            return at as u8;
        }
        if self.count == ROOM {
            self.over = true;
            return 0;
        }
        self.names[self.count] = name;
        self.count += 1;
        (self.count - 1) as u8
    }
}

struct Reader<'a> {
    tokens: Tokens<'a>,
    program: Program,
    variables: Names<{ limits::VARIABLES }>,
    properties: Names<{ limits::PROPERTIES }>,
    /// Some procedure had a seventeenth variable.
    variables_over: bool,
    /// Call commands and whom they call; procedures may come after their calls.
    calls: Vec<(u16, Name)>,
}

/// Reads a text, or says which of 3 to 8 refuses it.
pub fn read(text: &[u8]) -> Result<Program, Refusal> {
    if text.len() > limits::TEXT_BYTES {
        return Err(Refusal::LongText);
    }
    let mut reader = Reader::new(text);
    reader.whole().map_err(|Fault| Refusal::Form)?;
    reader.check_counts()?;
    let mut program = reader.program;
    resolve::names(&mut program, &reader.calls)?;
    resolve::jumps(&mut program)?;
    resolve::ends(&program)?;
    Ok(program)
}

impl<'a> Reader<'a> {
    fn new(text: &'a [u8]) -> Self {
        Reader {
            tokens: Tokens::new(text),
            program: Program {
                procedures: Vec::with_capacity(limits::PROCEDURES),
                commands: Vec::with_capacity(text.len() / 8),
                nodes: Vec::with_capacity(text.len() / 4),
                main: 0,
            },
            variables: Names::new(),
            properties: Names::new(),
            variables_over: false,
            calls: Vec::new(),
        }
    }

    /// Refusal 5.
    fn check_counts(&self) -> Result<(), Refusal> {
        let over = self.program.procedures.len() > limits::PROCEDURES
            || self.program.commands.len() > limits::COMMANDS
            || self.variables_over
            || self.properties.over;
        if over {
            Err(Refusal::Counts)
        } else {
            Ok(())
        }
    }
}

// The grammar, a function for each of its parts.
impl Reader<'_> {
    fn whole(&mut self) -> Result<(), Fault> {
        loop {
            self.procedure()?;
            if self.tokens.peek().is_none() {
                return Ok(());
            }
        }
    }

    fn procedure(&mut self) -> Result<(), Fault> {
        let name = self.tokens.name()?;
        self.variables = Names::new();
        self.tokens.expect(b'(')?;
        let parameter = self.tokens.name()?;
        self.variables.number_of(parameter);
        self.tokens.expect(b')')?;
        self.tokens.expect(b'{')?;
        let first = self.program.commands.len();
        loop {
            let command = self.command()?;
            self.tokens.expect(b';')?;
            self.program.commands.push(command);
            if self.tokens.take(b'}') {
                break;
            }
        }
        self.program.procedures.push(Procedure {
            name,
            first: first as u16,
            count: (self.program.commands.len() - first) as u16,
            variables: self.variables.count as u8,
        });
        self.variables_over |= self.variables.over;
        Ok(())
    }

    fn command(&mut self) -> Result<Command, Fault> {
        match self.tokens.word()? {
            Word::Name(target) => {
                let target = self.variables.number_of(target);
                self.tokens.expect_assign()?;
                self.assignment(target)
            }
            Word::Reserved(Reserved::Ifgoto) => {
                let condition = self.expression()?;
                match self.tokens.word()? {
                    Word::Number(to) => Ok(Command::Jump { condition, to }),
                    _ => Err(Fault),
                }
            }
            Word::Reserved(Reserved::Return) => Ok(Command::Return(self.expression()?)),
            Word::Reserved(Reserved::Fail) => Ok(Command::Fail(self.expression()?)),
            Word::Reserved(Reserved::Vanish) => Ok(Command::Vanish),
            _ => Err(Fault),
        }
    }

    /// What stands after `v :=`.
    fn assignment(&mut self, target: u8) -> Result<Command, Fault> {
        if self.tokens.peek() == Some(b'(') {
            let value = self.expression()?;
            return Ok(Command::Assign { target, value });
        }
        match self.tokens.word()? {
            Word::Reserved(Reserved::LocationSite) => Ok(Command::FreshLocation { target }),
            Word::Reserved(Reserved::InputSite) => Ok(Command::FreshInput { target }),
            Word::Reserved(Reserved::Lookup) => self.lookup(target),
            Word::Reserved(Reserved::Mutate) => self.mutate(target),
            Word::Reserved(Reserved::Dispose) => {
                let object = self.in_brackets()?;
                Ok(Command::Dispose { target, object })
            }
            Word::Name(callee) if self.tokens.peek() == Some(b'(') => {
                let argument = self.in_brackets()?;
                self.calls.push((self.program.commands.len() as u16, callee));
                Ok(Command::Call { target, callee: 0, argument })
            }
            word => {
                let start = self.program.nodes.len();
                self.simple_expression(word, limits::DEPTH)?;
                Ok(Command::Assign { target, value: self.since(start) })
            }
        }
    }

    fn lookup(&mut self, target: u8) -> Result<Command, Fault> {
        self.tokens.expect(b'(')?;
        self.tokens.expect(b'[')?;
        let object = self.expression()?;
        self.tokens.expect(b',')?;
        let property = self.property()?;
        self.tokens.expect(b']')?;
        self.tokens.expect(b')')?;
        Ok(Command::Lookup { target, object, property })
    }

    fn mutate(&mut self, target: u8) -> Result<Command, Fault> {
        self.tokens.expect(b'(')?;
        self.tokens.expect(b'[')?;
        let object = self.expression()?;
        self.tokens.expect(b',')?;
        let property = self.property()?;
        self.tokens.expect(b',')?;
        let value = self.expression()?;
        self.tokens.expect(b']')?;
        self.tokens.expect(b')')?;
        Ok(Command::Mutate { target, object, property, value })
    }

    fn property(&mut self) -> Result<u8, Fault> {
        let name = self.tokens.property()?;
        Ok(self.properties.number_of(name))
    }

    fn in_brackets(&mut self) -> Result<Expression, Fault> {
        self.tokens.expect(b'(')?;
        let inside = self.expression()?;
        self.tokens.expect(b')')?;
        Ok(inside)
    }

    fn expression(&mut self) -> Result<Expression, Fault> {
        let start = self.program.nodes.len();
        self.nested(limits::DEPTH)?;
        Ok(self.since(start))
    }

    fn since(&self, start: usize) -> Expression {
        Expression { start: start as u16, end: self.program.nodes.len() as u16 }
    }

    /// An expression that may be `depth` deep.
    fn nested(&mut self, depth: usize) -> Result<(), Fault> {
        if depth == 0 {
            return Err(Fault);
        }
        if !self.tokens.take(b'(') {
            let word = self.tokens.word()?;
            return self.simple_expression(word, depth);
        }
        self.nested(depth - 1)?;
        let operator = self.operator()?;
        self.nested(depth - 1)?;
        self.tokens.expect(b')')?;
        self.program.nodes.push(Node::Binary(operator));
        Ok(())
    }

    /// An expression that begins with a word, which is read already.
    fn simple_expression(&mut self, word: Word, depth: usize) -> Result<(), Fault> {
        let node = match word {
            Word::Number(n) => Node::Constant(Value::number(n)),
            Word::Name(name) => Node::Variable(self.variables.number_of(name)),
            Word::Reserved(Reserved::True) => Node::Constant(Value::TRUE),
            Word::Reserved(Reserved::False) => Node::Constant(Value::FALSE),
            Word::Reserved(Reserved::Not) => {
                self.nested(depth - 1)?;
                Node::Not
            }
            Word::Reserved(_) => return Err(Fault),
        };
        self.program.nodes.push(node);
        Ok(())
    }

    fn operator(&mut self) -> Result<Operator, Fault> {
        let operator = match self.tokens.peek() {
            Some(b'+') => Operator::Add,
            Some(b'-') => Operator::Subtract,
            Some(b'=') => Operator::Equal,
            Some(b'<') => Operator::Less,
            _ => {
                return match self.tokens.word()? {
                    Word::Reserved(Reserved::And) => Ok(Operator::And),
                    Word::Reserved(Reserved::Or) => Ok(Operator::Or),
                    _ => Err(Fault),
                }
            }
        };
        self.tokens.skip();
        Ok(operator)
    }
}
