//! What may go wrong with a text: on its tokens, in its sense, on its bytes.

use super::tokens::Tokens;
use super::Random;

/// Tokens that are at or past the edge of a rule, or seldom in place.
const NASTY: [&str; 48] = [
    "main",
    "x",
    "a",
    "p",
    "o",
    "f",
    "ifgoto",
    "return",
    "fail",
    "vanish",
    "true",
    "false",
    "not",
    "and",
    "or",
    "lookup",
    "mutate",
    "dispose",
    "uSym_0",
    "iSym_255",
    "uSym_256",
    "iSym_01",
    "uSym_",
    "iSym_x",
    "uSym",
    "iSym0",
    "sixteen_letters_",
    "seventeen_letters",
    "_a",
    "5a",
    "0",
    "00",
    "01",
    "4294967295",
    "4294967296",
    "\"p\"",
    "\"\"",
    "\"_\"",
    "\"a b\"",
    "(",
    ")",
    "{",
    "}",
    ";",
    ",",
    "[",
    "]",
    ":=",
];

/// Bytes that stand in no text, or change what stands next to them.
const BYTES: [u8; 16] =
    [0, 9, 10, 11, 12, 13, b' ', b'"', b'_', b'0', b'-', b';', b':', 127, 128, 255];

/// Damage that most often makes a fault of the form.
pub fn form(tokens: &mut Tokens, random: &mut Random) {
    if tokens.is_empty() {
        return;
    }
    let at = random.index(tokens.len());
    match random.below(5) {
        0 => drop(tokens.remove(at)),
        1 => tokens.insert(at, tokens[at].clone()),
        2 => tokens[at] = random.pick(&NASTY).to_string(),
        3 => tokens.insert(at, random.pick(&NASTY).to_string()),
        _ => {
            let other = random.index(tokens.len());
            tokens.swap(at, other);
        }
    }
}

/// Damage that most often leaves a text of the right form that does something
/// else, or meets a later refusal.
pub fn sense(tokens: &mut Tokens, random: &mut Random) {
    match random.below(5) {
        0 => rename(tokens, random),
        1 => change_number(tokens, random),
        2 => repeat_part(tokens, ";", random),
        3 => repeat_part(tokens, "}", random),
        _ => drop_last_command(tokens, random),
    }
}

/// One place of a name becomes another name: texts of the right form whose
/// procedures or variables are not there.
fn rename(tokens: &mut Tokens, random: &mut Random) {
    let names: Vec<usize> = (0..tokens.len())
        .filter(|&at| tokens[at].starts_with(|c: char| c.is_ascii_alphabetic()))
        .collect();
    if !names.is_empty() {
        let at = random.pick(&names);
        tokens[at] = random.pick(&["main", "f", "x", "a", "o", "zz"]).to_string();
    }
}

/// Literals and jump numbers alike.
fn change_number(tokens: &mut Tokens, random: &mut Random) {
    let numbers: Vec<usize> = (0..tokens.len())
        .filter(|&at| tokens[at].starts_with(|c: char| c.is_ascii_digit()))
        .collect();
    if !numbers.is_empty() {
        let at = random.pick(&numbers);
        tokens[at] = random.below(40).to_string();
    }
}

/// The places after each `mark`, and the start.
fn places_after(tokens: &Tokens, mark: &str) -> Vec<usize> {
    let marks = (0..tokens.len()).filter(|&at| tokens[at] == mark);
    std::iter::once(0).chain(marks.map(|at| at + 1)).collect()
}

/// Drops or doubles what stands from one `mark` up to the next: a command, or
/// a whole procedure (refusal 6).
fn repeat_part(tokens: &mut Tokens, mark: &str, random: &mut Random) {
    let places = places_after(tokens, mark);
    if places.len() < 2 {
        return;
    }
    let number = random.index(places.len() - 1);
    let part = places[number]..places[number + 1];
    if random.chance(50) {
        tokens.drain(part);
    } else {
        let copy = tokens[part.clone()].to_vec();
        tokens.splice(part.start..part.start, copy);
    }
}

/// Leaves a procedure with another last command (refusal 8, or 7).
fn drop_last_command(tokens: &mut Tokens, random: &mut Random) {
    let ends = places_after(tokens, "}");
    let end = random.pick(&ends);
    let before: Vec<usize> = places_after(tokens, ";");
    let mut last = before.iter().rev().filter(|&&at| at < end);
    if let (Some(&end), Some(&start)) = (last.next(), last.next()) {
        tokens.drain(start..end);
    }
}

pub fn bytes(text: &mut Vec<u8>, random: &mut Random) {
    if text.is_empty() {
        return;
    }
    let at = random.index(text.len());
    match random.below(7) {
        0 | 1 => text[at] ^= 1 << random.below(8),
        2 => text[at] = random.pick(&BYTES),
        3 => text.insert(at, random.pick(&BYTES)),
        4 => drop(text.remove(at)),
        5 => text.truncate(at),
        _ => {
            let end = (at + random.index(20)).min(text.len());
            let copy = text[at..end].to_vec();
            text.splice(at..at, copy);
        }
    }
}
