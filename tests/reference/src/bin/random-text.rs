//! Writes one random text: `random-text valid|damaged|crowded SEED`.

use reference::generate::{crowded_text, damaged_text, valid_text};
use std::io::{self, Write};
use std::process::ExitCode;

fn main() -> ExitCode {
    let arguments: Vec<String> = std::env::args().skip(1).collect();
    let Some(text) = text(&arguments) else {
        eprintln!("usage: random-text valid|damaged|crowded SEED");
        return ExitCode::from(2);
    };
    match io::stdout().lock().write_all(&text) {
        Ok(()) => ExitCode::SUCCESS,
        Err(_) => ExitCode::FAILURE,
    }
}

fn text(arguments: &[String]) -> Option<Vec<u8>> {
    let [kind, seed] = arguments else {
        return None;
    };
    let seed = seed.parse().ok()?;
    match kind.as_str() {
        "valid" => Some(valid_text(seed)),
        "damaged" => Some(damaged_text(seed)),
        "crowded" => Some(crowded_text(seed)),
        _ => None,
    }
}
