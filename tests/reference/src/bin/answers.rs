//! Answers a call on the text at standard input, as numbers on lines: what it returns and, after success, the bytes in use.
//!
//!     answers plain STEPS INPUT..      (sixteen inputs)   the answer's 1,024 bytes
//!     answers explore STEPS BRANCHES   the table's heading and rows, and on the next line the pool's terms

use std::io::{self, Read};
use std::process::ExitCode;

fn main() -> ExitCode {
    let arguments: Vec<String> = std::env::args().skip(1).collect();
    let mut text = Vec::new();
    if io::stdin().lock().read_to_end(&mut text).is_err() {
        return ExitCode::FAILURE;
    }
    let numbers: Option<Vec<u32>> = arguments.iter().skip(1).map(|a| a.parse().ok()).collect();
    match (arguments.first().map(String::as_str), numbers.as_deref()) {
        (Some("plain"), Some([steps, inputs @ ..])) => plain(&text, *steps, inputs),
        (Some("explore"), Some([steps, branches])) => explore(&text, *steps, *branches),
        _ => {
            eprintln!("usage: answers plain STEPS INPUT.. | answers explore STEPS BRANCHES");
            return ExitCode::from(2);
        }
    }
    ExitCode::SUCCESS
}

fn plain(text: &[u8], steps: u32, inputs: &[u32]) {
    let list: Vec<u8> = inputs.iter().flat_map(|n| n.to_le_bytes()).collect();
    let mut answer = vec![7; 1024];
    let returned = reference::plain_run(text, &list, steps, &mut answer);
    println!("{returned}");
    if returned == 0 {
        show(&answer);
    }
}

fn explore(text: &[u8], steps: u32, branches: u32) {
    let (mut table, mut pool) = (vec![7; 65_600], vec![7; 40_960]);
    let returned = reference::explore(text, steps, branches, &mut table, &mut pool);
    println!("{returned}");
    if returned == 0 {
        let rows = usize::from(table[0]);
        let terms = usize::from(table[4]) + 256 * usize::from(table[5]);
        show(&table[..64 + 1024 * rows]);
        show(&pool[..20 * terms]);
    }
}

fn show(bytes: &[u8]) {
    let numbers: Vec<String> = bytes.iter().map(u8::to_string).collect();
    println!("{}", numbers.join(" "));
}
