//! The tokens of a text, taken from its bytes one after the other.

use crate::limits;
use crate::program::{pack, Name};

/// The text is not of the form of document 01. Where it fails does not matter.
pub struct Fault;

#[derive(Clone, Copy, PartialEq, Eq)]
pub enum Reserved {
    Ifgoto,
    Return,
    Fail,
    Vanish,
    True,
    False,
    Not,
    And,
    Or,
    Lookup,
    Mutate,
    Dispose,
    LocationSite,
    InputSite,
}

/// A run of letters, digits and underscores, told apart.
pub enum Word {
    Name(Name),
    Number(u32),
    Reserved(Reserved),
}

/// The one list of reserved words. An identifier that begins as a site does
/// is reserved too; without a site number after it, it has no place anywhere.
fn reserved(run: &[u8]) -> Result<Option<Reserved>, Fault> {
    Ok(Some(match run {
        b"ifgoto" => Reserved::Ifgoto,
        b"return" => Reserved::Return,
        b"fail" => Reserved::Fail,
        b"vanish" => Reserved::Vanish,
        b"true" => Reserved::True,
        b"false" => Reserved::False,
        b"not" => Reserved::Not,
        b"and" => Reserved::And,
        b"or" => Reserved::Or,
        b"lookup" => Reserved::Lookup,
        b"mutate" => Reserved::Mutate,
        b"dispose" => Reserved::Dispose,
        [b'u', b'S', b'y', b'm', b'_', site @ ..] => site_word(site, Reserved::LocationSite)?,
        [b'i', b'S', b'y', b'm', b'_', site @ ..] => site_word(site, Reserved::InputSite)?,
        _ => return Ok(None),
    }))
}

/// The site number changes nothing, but it has to be one.
fn site_word(site: &[u8], word: Reserved) -> Result<Reserved, Fault> {
    if number(site)? <= limits::LAST_SITE {
        Ok(word)
    } else {
        Err(Fault)
    }
}

fn number(run: &[u8]) -> Result<u32, Fault> {
    // Ten digits are enough for every number, and few enough for u64.
    if run.is_empty() || run.len() > 10 || (run[0] == b'0' && run.len() > 1) {
        return Err(Fault);
    }
    let mut sum = 0u64;
    for &byte in run {
        match byte {
            b'0'..=b'9' => sum = sum * 10 + u64::from(byte - b'0'),
            _ => return Err(Fault),
        }
    }
    u32::try_from(sum).map_err(|_| Fault)
}

fn is_run_byte(byte: u8) -> bool {
    matches!(byte, b'A'..=b'Z' | b'a'..=b'z' | b'0'..=b'9' | b'_')
}

pub struct Tokens<'a> {
    text: &'a [u8],
    at: usize,
}

impl<'a> Tokens<'a> {
    pub fn new(text: &'a [u8]) -> Self {
        Tokens { text, at: 0 }
    }

    /// The first byte of the next token, or nothing at the end of the text.
    pub fn peek(&mut self) -> Option<u8> {
        while let Some(&byte) = self.text.get(self.at) {
            match byte {
                b' ' | b'\t' | b'\r' | b'\n' => self.at += 1,
                _ => return Some(byte),
            }
        }
        None
    }

    /// Passes the byte that [`Tokens::peek`] has shown.
    pub fn skip(&mut self) {
        self.at += 1;
    }

    pub fn take(&mut self, mark: u8) -> bool {
        let there = self.peek() == Some(mark);
        self.at += usize::from(there);
        there
    }

    pub fn expect(&mut self, mark: u8) -> Result<(), Fault> {
        if self.take(mark) {
            Ok(())
        } else {
            Err(Fault)
        }
    }

    /// `:=` is one token: nothing may stand inside it.
    pub fn expect_assign(&mut self) -> Result<(), Fault> {
        self.expect(b':')?;
        if self.text.get(self.at) != Some(&b'=') {
            return Err(Fault);
        }
        self.at += 1;
        Ok(())
    }

    /// The unbroken run that begins right here; it may be empty.
    fn run(&mut self) -> &'a [u8] {
        let rest = &self.text[self.at..];
        let length = rest.iter().position(|&b| !is_run_byte(b)).unwrap_or(rest.len());
        self.at += length;
        &rest[..length]
    }

    pub fn word(&mut self) -> Result<Word, Fault> {
        self.peek();
        let run = self.run();
        match run.first() {
            Some(b'0'..=b'9') => Ok(Word::Number(number(run)?)),
            Some(b'A'..=b'Z' | b'a'..=b'z') if run.len() <= limits::NAME_BYTES => {
                Ok(match reserved(run)? {
                    Some(word) => Word::Reserved(word),
                    None => Word::Name(pack(run)),
                })
            }
            _ => Err(Fault),
        }
    }

    pub fn name(&mut self) -> Result<Name, Fault> {
        match self.word()? {
            Word::Name(name) => Ok(name),
            _ => Err(Fault),
        }
    }

    /// White space inside the quotes is a fault as any other byte is.
    pub fn property(&mut self) -> Result<Name, Fault> {
        self.expect(b'"')?;
        let run = self.run();
        if run.is_empty() || run.len() > limits::NAME_BYTES {
            return Err(Fault);
        }
        if self.text.get(self.at) != Some(&b'"') {
            return Err(Fault);
        }
        self.at += 1;
        Ok(pack(run))
    }
}
