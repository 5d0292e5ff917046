//! One path: its state, one command of it, and the plain run.

use crate::cells::Cells;
use crate::limits;
use crate::program::{Command, Expression, Node, Program};
use crate::value::{binary, not, ErrorNumber, Kind, Stop, Tag, Value, World};

#[derive(Clone, Copy)]
pub struct Frame {
    pub variables: [Value; limits::VARIABLES],
    pub procedure: u8,
    /// Where a return goes on, and what it assigns to, in the frame below.
    /// Without meaning in the first frame.
    back: u32,
    target: u8,
}

/// A boolean term and the truth it must have.
#[derive(Clone, Copy)]
pub struct Condition {
    pub term: u32,
    pub truth: bool,
}

/// All that one path is. It has no pointer, so that a fork is one plain copy.
#[derive(Clone, Copy)]
pub struct State {
    frames: [Frame; limits::FRAMES],
    top: usize,
    /// The next command, counted over the whole text.
    pub next: u32,
    pub steps: u32,
    pub inputs: u32,
    locations: u32,
    conditions: [Condition; limits::BRANCHES],
    condition_count: usize,
    pub cells: Cells,
}

#[derive(Clone, Copy, PartialEq, Eq, Debug)]
pub enum Reason {
    Steps = 1,
    Branches = 2,
}

#[derive(Clone, Copy, PartialEq, Eq, Debug)]
pub enum Outcome {
    Returned(Value),
    Failed(Value),
    Vanished,
    Error(ErrorNumber),
    Cut(Reason),
}

/// What came of a command that did not err.
pub enum Event {
    /// The path goes on at `next`.
    Next,
    /// The path is over; `next` is still the command that ended it.
    Ended(Outcome),
    /// A jump on a term, of which nothing but the evaluation has happened:
    /// the driver decides whether there is a branch left for it.
    Branch { term: u32, to: u32 },
}

impl State {
    pub fn start(program: &Program) -> State {
        let first = Frame {
            variables: parameter_only(Value::number(0)),
            procedure: program.main,
            back: 0,
            target: 0,
        };
        State {
            frames: [first; limits::FRAMES],
            top: 0,
            next: u32::from(program.procedures[program.main as usize].first),
            steps: 0,
            inputs: 0,
            locations: 0,
            conditions: [Condition { term: 0, truth: false }; limits::BRANCHES],
            condition_count: 0,
            cells: Cells::EMPTY,
        }
    }

    pub fn frame(&self) -> &Frame {
        &self.frames[self.top]
    }

    pub fn conditions(&self) -> &[Condition] {
        &self.conditions[..self.condition_count]
    }

    /// Follows one branch of a jump on a term.
    pub fn take_branch(&mut self, term: u32, truth: bool, next: u32) {
        self.conditions[self.condition_count] = Condition { term, truth };
        self.condition_count += 1;
        self.next = next;
    }

    fn variable(&self, number: u8) -> Result<Value, Stop> {
        let value = self.frames[self.top].variables[number as usize];
        match value.tag {
            Tag::Nothing => Err(ErrorNumber::Unbound.into()),
            _ => Ok(value),
        }
    }

    /// Most expressions are a single leaf, and need no list of open values.
    #[inline(always)]
    fn evaluate<W: World>(
        &self,
        program: &Program,
        expression: Expression,
        world: &mut W,
    ) -> Result<Value, Stop> {
        match *program.nodes(expression) {
            [Node::Constant(value)] => Ok(value),
            [Node::Variable(number)] => self.variable(number),
            ref nodes => self.evaluate_nested(nodes, world),
        }
    }

    fn evaluate_nested<W: World>(&self, nodes: &[Node], world: &mut W) -> Result<Value, Stop> {
        // The last value is kept at hand and those before it are set aside.
        // The first one sets nothing aside but NOTHING, and an expression of
        // depth eight never has more than eight values open: the room is
        // never used up, and the mask only tells the compiler so.
        const MASK: usize = limits::DEPTH - 1;
        let mut aside = [Value::NOTHING; limits::DEPTH];
        let mut count = 0usize;
        let mut last = Value::NOTHING;
        for node in nodes {
            match *node {
                Node::Constant(value) => {
                    aside[count & MASK] = last;
                    count += 1;
                    last = value;
                }
                Node::Variable(number) => {
                    aside[count & MASK] = last;
                    count += 1;
                    last = self.variable(number)?;
                }
                Node::Not => last = not(last, world)?,
                Node::Binary(operator) => {
                    count -= 1;
                    last = binary(operator, aside[count & MASK], last, world)?;
                }
            }
        }
        Ok(last)
    }

    fn assign(&mut self, target: u8, value: Value) -> Result<Event, Stop> {
        self.frames[self.top].variables[target as usize] = value;
        self.next += 1;
        Ok(Event::Next)
    }

    /// Executes the next command. Nothing of the state has changed where it
    /// errs, nor where it is a [`Event::Branch`]. Steps are the driver's.
    pub fn step<W: World>(&mut self, program: &Program, world: &mut W) -> Result<Event, Stop> {
        match program.commands[self.next as usize] {
            Command::Assign { target, value } => {
                let value = self.evaluate(program, value, world)?;
                self.assign(target, value)
            }
            Command::Jump { condition, to } => {
                let condition = self.evaluate(program, condition, world)?;
                match condition.tag {
                    Tag::Boolean if condition.word == 1 => self.next = to,
                    Tag::Boolean => self.next += 1,
                    Tag::BooleanTerm => return Ok(Event::Branch { term: condition.word, to }),
                    _ => return Err(ErrorNumber::WrongSort.into()),
                }
                Ok(Event::Next)
            }
            Command::Call { target, callee, argument } => {
                let argument = self.evaluate(program, argument, world)?;
                self.call(program, target, callee, argument)
            }
            Command::Lookup { target, object, property } => {
                let object = self.evaluate(program, object, world)?;
                let value = self.cells.get(location(object)?, property)?;
                self.assign(target, value)
            }
            Command::Mutate { target, object, property, value } => {
                // The sort of the object is tested after both are evaluated.
                let object = self.evaluate(program, object, world)?;
                let value = self.evaluate(program, value, world)?;
                self.cells.set(location(object)?, property, value)?;
                self.assign(target, Value::TRUE)
            }
            Command::Dispose { target, object } => {
                let object = self.evaluate(program, object, world)?;
                self.cells.dispose(location(object)?);
                self.assign(target, Value::TRUE)
            }
            Command::FreshLocation { target } => {
                if self.locations == limits::LOCATIONS {
                    return Err(ErrorNumber::Locations.into());
                }
                self.locations += 1;
                self.assign(target, Value::location(self.locations - 1))
            }
            Command::FreshInput { target } => {
                if self.inputs == limits::INPUTS as u32 {
                    return Err(ErrorNumber::Inputs.into());
                }
                let value = world.input(self.inputs)?;
                self.inputs += 1;
                self.assign(target, value)
            }
            Command::Return(value) => {
                let value = self.evaluate(program, value, world)?;
                if self.top == 0 {
                    return Ok(Event::Ended(Outcome::Returned(value)));
                }
                let Frame { back, target, .. } = self.frames[self.top];
                self.top -= 1;
                self.frames[self.top].variables[target as usize] = value;
                self.next = back;
                Ok(Event::Next)
            }
            Command::Fail(value) => {
                let value = self.evaluate(program, value, world)?;
                Ok(Event::Ended(Outcome::Failed(value)))
            }
            Command::Vanish => Ok(Event::Ended(Outcome::Vanished)),
        }
    }

    fn call(
        &mut self,
        program: &Program,
        target: u8,
        callee: u8,
        argument: Value,
    ) -> Result<Event, Stop> {
        if self.top + 1 == limits::FRAMES {
            return Err(ErrorNumber::Frames.into());
        }
        self.top += 1;
        self.frames[self.top] = Frame {
            variables: parameter_only(argument),
            procedure: callee,
            back: self.next + 1,
            target,
        };
        self.next = u32::from(program.procedures[callee as usize].first);
        Ok(Event::Next)
    }
}

fn parameter_only(parameter: Value) -> [Value; limits::VARIABLES] {
    let mut variables = [Value::NOTHING; limits::VARIABLES];
    variables[0] = parameter;
    variables
}

/// What an action's first operand must be. No term is ever a location.
fn location(object: Value) -> Result<u32, ErrorNumber> {
    match object.tag {
        Tag::Location => Ok(object.word),
        _ => Err(ErrorNumber::WrongSort),
    }
}

/// The world of a plain run: all inputs are known, and nothing is a term.
struct Known<'a>(&'a [u32; limits::INPUTS]);

impl World for Known<'_> {
    fn input(&mut self, number: u32) -> Result<Value, Stop> {
        Ok(Value::number(self.0[number as usize]))
    }

    fn term(&mut self, _: Kind, _: Value, _: Value) -> Result<u32, Stop> {
        unreachable!("an operator on constants is worked out at once")
    }
}

/// Runs a text on its inputs until it ends or its steps are used up.
pub fn plain_run(
    program: &Program,
    inputs: &[u32; limits::INPUTS],
    steps: u32,
) -> (State, Outcome) {
    let mut world = Known(inputs);
    let mut state = State::start(program);
    while state.steps < steps {
        let event = state.step(program, &mut world);
        state.steps += 1;
        match event {
            Ok(Event::Next) => {}
            Ok(Event::Ended(outcome)) => return (state, outcome),
            Err(Stop::Error(error)) => return (state, Outcome::Error(error)),
            Ok(Event::Branch { .. }) | Err(Stop::PoolFull) => {
                unreachable!("a plain run has no terms")
            }
        }
    }
    (state, Outcome::Cut(Reason::Steps))
}
