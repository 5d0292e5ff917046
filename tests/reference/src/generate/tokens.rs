//! Texts as lists of tokens, and tokens as text.

use super::Random;

pub type Tokens = Vec<String>;

/// Splits what the generator writes itself: words, properties, `:=`, marks.
pub fn split(text: &str) -> Tokens {
    let is_word = |c: char| c.is_ascii_alphanumeric() || c == '_' || c == '"';
    let mut tokens = Tokens::new();
    let mut rest = text.trim_start();
    while let Some(first) = rest.chars().next() {
        let length = if rest.starts_with(":=") {
            2
        } else if is_word(first) {
            rest.find(|c| !is_word(c)).unwrap_or(rest.len())
        } else {
            first.len_utf8()
        };
        tokens.push(rest[..length].to_string());
        rest = rest[length..].trim_start();
    }
    tokens
}

fn ends_in_run(text: &[u8]) -> bool {
    text.last().is_some_and(|&b| b.is_ascii_alphanumeric() || b == b'_')
}

fn begins_run(token: &str) -> bool {
    token.starts_with(|c: char| c.is_ascii_alphanumeric() || c == '_')
}

/// Writes tokens with as little white space as can be, or one space each, or
/// any, by the luck of the text.
pub fn join(tokens: &[String], random: &mut Random) -> Vec<u8> {
    let style = random.below(4);
    let mut text = Vec::new();
    for token in tokens {
        let white: &[u8] = match style {
            0 => b"",
            1 | 2 => b" ",
            _ => random.pick(&[&b""[..], b" ", b"\n", b"\t", b"\r\n", b"  "]),
        };
        text.extend(white);
        if ends_in_run(&text) && begins_run(token) {
            text.push(b' ');
        }
        text.extend(token.as_bytes());
    }
    if style == 3 {
        text.push(b'\n');
    }
    text
}
