//! The words on the command line.

use std::env;

/// The texts of the fixed part, which is what no words ask for.
pub const TEXTS: u64 = 4_000;

pub enum Until {
    Texts(u64),
    Seconds(u64),
}

pub struct Arguments {
    pub seed: u64,
    pub until: Until,
    pub verbose: bool,
}

pub fn read() -> Result<Arguments, String> {
    let mut arguments = Arguments { seed: 1, until: Until::Texts(TEXTS), verbose: false };
    let mut words = env::args().skip(1);
    while let Some(word) = words.next() {
        let mut number = || {
            let number = words.next().and_then(|number| number.parse().ok());
            number.ok_or(format!("a number must follow {word}"))
        };
        match word.as_str() {
            "--seed" => arguments.seed = number()?,
            "--texts" => arguments.until = Until::Texts(number()?),
            "--seconds" => arguments.until = Until::Seconds(number()?),
            "--verbose" => arguments.verbose = true,
            _ => return Err(format!("{word} is not known")),
        }
    }
    Ok(arguments)
}
