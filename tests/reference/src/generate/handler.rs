//! Random handlers of the right form.
//!
//! A variable's and a property's name fix the sort it is meant to hold, so
//! that most expressions are of right sorts without any tracking; a small
//! share is made wrong on purpose.

use super::tokens::{split, Tokens};
use super::Random;

/// Numbers at which sums, differences and comparisons turn.
pub const EDGES: [u32; 6] = [0, 1, 255, 0x7FFF_FFFF, 0x8000_0000, 0xFFFF_FFFF];

#[derive(Clone, Copy, PartialEq, Eq)]
enum Sort {
    Number,
    Boolean,
    Location,
}

const SORTS: [Sort; 3] = [Sort::Number, Sort::Boolean, Sort::Location];

impl Sort {
    /// `i` counts the loops and stands in no list.
    fn variables(self) -> &'static [&'static str] {
        match self {
            Sort::Number => &["x", "a", "n", "len", "k_1"],
            Sort::Boolean => &["p", "q", "True"],
            Sort::Location => &["o", "dev"],
        }
    }

    fn properties(self) -> &'static [&'static str] {
        match self {
            Sort::Number => &["\"mac\"", "\"0\"", "\"_n\""],
            Sort::Boolean => &["\"up\""],
            Sort::Location => &["\"next\"", "\"ifgoto\""],
        }
    }
}

/// A command, or a jump whose place is chosen when all commands are there.
enum Draft {
    Ready(String),
    Forward(String),
    Anywhere(String),
}

/// A handler: `main` and up to three more procedures, in any order.
pub fn handler(random: &mut Random) -> Tokens {
    let helpers: &[&str] = &["f", "main2", "uSym"][..random.index(4)];
    let mut procedures = vec![procedure("main", random.between(3, 9), helpers, random)];
    for name in helpers {
        let size = random.between(1, 3);
        procedures.push(procedure(name, size, helpers, random));
    }
    let from = random.index(procedures.len());
    procedures.rotate_left(from);
    procedures.concat()
}

fn procedure(name: &str, size: u32, helpers: &[&str], random: &mut Random) -> Tokens {
    let mut body = Body { random, drafts: Vec::new(), helpers };
    body.bind(name == "main");
    for _ in 0..size {
        body.gesture();
    }
    body.end();
    let commands = body.finish();
    split(&format!("{name}(x) {{ {} }}", commands.join(" ")))
}

struct Body<'a> {
    random: &'a mut Random,
    drafts: Vec<Draft>,
    helpers: &'a [&'a str],
}

// Expressions.
impl Body<'_> {
    fn target(&mut self, sort: Sort) -> &'static str {
        self.random.pick(sort.variables())
    }

    fn property(&mut self, sort: Sort) -> &'static str {
        self.random.pick(sort.properties())
    }

    fn some_sort(&mut self) -> Sort {
        self.random.pick(&SORTS)
    }

    fn literal(&mut self) -> String {
        match self.random.chance(85) {
            true => self.random.below(10).to_string(),
            false => self.random.pick(&EDGES).to_string(),
        }
    }

    /// An expression at most `depth` deep, almost always of the sort asked.
    fn expression(&mut self, sort: Sort, depth: u32) -> String {
        let sort = match self.random.chance(1) {
            true => self.some_sort(),
            false => sort,
        };
        let leaf = depth <= 1 || self.random.chance(30);
        match sort {
            Sort::Location => self.target(sort).to_string(),
            Sort::Number if leaf => match self.random.chance(40) {
                true => self.literal(),
                false => self.target(sort).to_string(),
            },
            Sort::Boolean if leaf => match self.random.chance(20) {
                true => self.random.pick(&["true", "false"]).to_string(),
                false => self.target(sort).to_string(),
            },
            Sort::Number => {
                let operator = self.random.pick(&["+", "-"]);
                self.operation(operator, Sort::Number, Sort::Number, depth)
            }
            Sort::Boolean => match self.random.below(8) {
                0 | 1 => format!("not {}", self.expression(sort, depth - 1)),
                2 => self.operation("and", sort, sort, depth),
                3 => self.operation("or", sort, sort, depth),
                4 | 5 => self.operation("<", Sort::Number, Sort::Number, depth),
                6 => self.operation("=", Sort::Number, Sort::Number, depth),
                _ => {
                    let (left, right) = (self.some_sort(), self.some_sort());
                    self.operation("=", left, right, depth)
                }
            },
        }
    }

    fn operation(&mut self, operator: &str, left: Sort, right: Sort, depth: u32) -> String {
        let left = self.expression(left, depth - 1);
        let right = self.expression(right, depth - 1);
        format!("({left} {operator} {right})")
    }

    /// Mostly small, now and then as deep as can be.
    fn any_depth(&mut self) -> u32 {
        match self.random.below(30) {
            0 => 8,
            n => 1 + n % 4,
        }
    }

    fn value(&mut self, sort: Sort) -> String {
        let depth = self.any_depth();
        self.expression(sort, depth)
    }

    /// A condition, most often on an input.
    fn condition(&mut self) -> String {
        match self.random.chance(60) {
            true => {
                let operator = self.random.pick(&["<", "="]);
                format!("(a {operator} {})", self.literal())
            }
            false => self.value(Sort::Boolean),
        }
    }
}

// Commands.
impl Body<'_> {
    fn command(&mut self, text: String) {
        self.drafts.push(Draft::Ready(text));
    }

    fn site(&mut self) -> u32 {
        self.random.below(256)
    }

    fn input(&mut self, target: &str) {
        let site = self.site();
        self.command(format!("{target} := iSym_{site}"));
    }

    fn location(&mut self, target: &str) {
        let site = self.site();
        self.command(format!("{target} := uSym_{site}"));
    }

    /// Binds most variables, so that not every path ends in error 1.
    fn bind(&mut self, in_main: bool) {
        match self.random.below(20) {
            0 => {}
            1..=9 if !in_main => self.command("a := x".to_string()),
            _ => self.input("a"),
        }
        for variable in ["n", "len", "k_1"] {
            if self.random.chance(98) {
                let literal = self.literal();
                self.command(format!("{variable} := {literal}"));
            }
        }
        for variable in Sort::Boolean.variables() {
            match self.random.below(50) {
                0 => {}
                1..=24 => self.command(format!("{variable} := (a < 7)")),
                _ => self.command(format!("{variable} := (x < 1)")),
            }
        }
        if self.random.chance(95) {
            self.location("o");
            self.mutate("o", Sort::Number);
            self.command("dev := o".to_string());
        }
    }

    fn mutate(&mut self, object: &str, sort: Sort) {
        let property = self.property(sort);
        let value = self.value(sort);
        let target = self.target(Sort::Boolean);
        self.command(format!("{target} := mutate([{object}, {property}, {value}])"));
    }

    /// One thing a handler does.
    fn gesture(&mut self) {
        match self.random.below(26) {
            0..=2 => self.one_assignment(),
            3 | 4 => self.one_input(),
            5 => {
                let target = self.target(Sort::Location);
                self.location(target);
            }
            6..=8 => self.cell_work(),
            9..=12 => {
                let condition = self.condition();
                self.drafts.push(Draft::Forward(format!("ifgoto {condition}")));
            }
            13..=15 => self.guarded_end(),
            16 | 17 => self.counted_loop(),
            18 => self.input_loop(),
            19..=21 => self.call(),
            22 => self.rare(),
            23 => {
                let condition = self.condition();
                self.drafts.push(Draft::Anywhere(format!("ifgoto {condition}")));
            }
            _ => {
                self.one_input();
                self.guarded_end();
            }
        }
    }

    fn one_assignment(&mut self) {
        let sort = self.some_sort();
        let (target, value) = (self.target(sort), self.value(sort));
        self.command(format!("{target} := {value}"));
    }

    fn one_input(&mut self) {
        let target = self.target(Sort::Number);
        self.input(target);
    }

    fn cell_work(&mut self) {
        let sort = self.some_sort();
        let object = self.value(Sort::Location);
        match self.random.below(8) {
            0..=4 => self.mutate(&object, sort),
            5 | 6 => {
                // A cell that is not there ends the path, so most often one
                // that was just written is read.
                if self.random.chance(70) {
                    let value = self.value(sort);
                    let property = self.property(sort);
                    self.command(format!("p := mutate([{object}, {property}, {value}])"));
                    let target = self.target(sort);
                    self.command(format!("{target} := lookup([{object}, {property}])"));
                } else {
                    let (target, property) = (self.target(sort), self.property(sort));
                    self.command(format!("{target} := lookup([{object}, {property}])"));
                }
            }
            _ => {
                let target = self.target(Sort::Boolean);
                self.command(format!("{target} := dispose({object})"));
            }
        }
    }

    /// A jump over the end of a path.
    fn guarded_end(&mut self) {
        let condition = self.condition();
        let over = self.drafts.len() + 2;
        self.command(format!("ifgoto {condition} {over}"));
        self.end();
    }

    fn end(&mut self) {
        let sort = match self.random.chance(80) {
            true => Sort::Number,
            false => self.some_sort(),
        };
        let value = self.value(sort);
        match self.random.below(8) {
            0 => self.command("vanish".to_string()),
            1 | 2 => self.command(format!("fail {value}")),
            _ => self.command(format!("return {value}")),
        }
    }

    fn counted_loop(&mut self) {
        self.command("i := 0".to_string());
        let again = self.drafts.len();
        for _ in 0..self.random.between(1, 3) {
            match self.random.below(4) {
                0 => self.cell_work(),
                1 => self.one_input(),
                _ => self.one_assignment(),
            }
        }
        self.command("i := (i + 1)".to_string());
        let times = match self.random.chance(80) {
            true => self.random.between(1, 6),
            false => self.random.between(7, 400),
        };
        self.command(format!("ifgoto (i < {times}) {again}"));
    }

    fn input_loop(&mut self) {
        let again = self.drafts.len();
        self.input("a");
        if self.random.chance(30) {
            self.one_assignment();
        }
        let condition = self.condition();
        self.command(format!("ifgoto {condition} {again}"));
    }

    /// Calls of `main` itself and of oneself end in a ninth frame, unless a
    /// jump gets past them.
    fn call(&mut self) {
        if self.random.chance(30) {
            self.drafts.push(Draft::Forward("ifgoto (x < 1)".to_string()));
        }
        let callee = match self.random.chance(5) || self.helpers.is_empty() {
            true => "main",
            false => self.random.pick(self.helpers),
        };
        let argument = match self.random.chance(40) {
            true => "(x - 1)".to_string(),
            false => self.value(Sort::Number),
        };
        let target = self.target(Sort::Number);
        self.command(format!("{target} := {callee}({argument})"));
    }

    /// Loops that run into one of the limits of a path or of the pool.
    fn rare(&mut self) {
        let again = self.drafts.len();
        match self.random.below(4) {
            0 => {
                self.location("dev");
                for property in &Sort::Number.properties()[self.random.index(3)..] {
                    self.command(format!("q := mutate([dev, {property}, x])"));
                }
            }
            1 => self.one_input(),
            2 => {
                let value = self.expression(Sort::Number, 5);
                self.command(format!("a := ((((a + a) - x) + {value}) + a)"));
            }
            _ => self.command("x := (x + 1)".to_string()),
        }
        self.command(format!("ifgoto true {again}"));
    }

    fn finish(self) -> Vec<String> {
        let count = self.drafts.len();
        let mut commands = Vec::new();
        for (at, draft) in self.drafts.into_iter().enumerate() {
            let command = match draft {
                Draft::Ready(text) => text,
                Draft::Forward(jump) => {
                    let to = self.random.between(at as u32 + 1, count as u32 - 1);
                    format!("{jump} {to}")
                }
                Draft::Anywhere(jump) => format!("{jump} {}", self.random.index(count)),
            };
            commands.push(command + ";");
        }
        commands
    }
}
