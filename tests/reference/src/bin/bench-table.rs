//! Prints the table of the text on standard input (document 01).

use std::io::{self, Read, Write};

fn main() -> io::Result<()> {
    // One byte over the limit is enough to see that a text is too long.
    let most = reference::limits::TEXT_BYTES as u64 + 1;
    let mut text = Vec::new();
    io::stdin().lock().take(most).read_to_end(&mut text)?;
    io::stdout().lock().write_all(&reference::printed_table(&text))
}
