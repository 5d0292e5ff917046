//! The texts that are measured.

/// A text of exactly `length` bytes: `main` with this body, and behind it
/// procedures of all kinds of commands that are never reached.
pub fn padded(body: &str, length: usize) -> String {
    const COMMANDS: [&str; 8] = [
        "total := ((total + step) - 4095);",
        "ifgoto ((total < 70000) and done) 3;",
        "found := lookup([peer, \"sequence\"]);",
        "done := mutate([peer, \"vtep\", (total + 1)]);",
        "peer := uSym_17;",
        "ifgoto not ((total = found) or done) 5;",
        "step := handler_0((total - found));",
        "step := iSym_200;",
    ];
    const IN_EACH: usize = 32;
    let mut text = format!("main(x) {{ {body} }}\n");
    for number in 0.. {
        let commands: Vec<&str> = COMMANDS.into_iter().cycle().take(IN_EACH).collect();
        let next = format!("handler_{number}(total) {{ {} return 0; }}\n", commands.join(" "));
        if text.len() + next.len() > length {
            break;
        }
        text += &next;
    }
    // What is left is shorter than one of those procedures.
    text += &" ".repeat(length.saturating_sub(text.len()));
    text
}

/// Arithmetic and jumps, without end.
pub const ARITHMETIC: &str = "main(x) { n := 0; a := 1; a := ((a + n) - 3); n := (n + 1); \
    ifgoto ((n < 100000) and not (a < 0)) 2; vanish; }";

/// Calls two deep and their returns, without end.
pub const CALLS: &str = "main(x) { x := f(x); ifgoto true 0; vanish; } \
    f(n) { m := g((n + 1)); return m; } g(n) { return (n - 2); }";

/// Reads and writes of two locations' cells, without end.
pub const CELLS: &str = "main(x) { o := uSym_0; p := uSym_1; k := mutate([o, \"seq\", 0]); \
    k := mutate([p, \"peer\", o]); q := lookup([p, \"peer\"]); v := lookup([q, \"seq\"]); \
    k := mutate([q, \"seq\", (v + 1)]); ifgoto true 4; vanish; }";

/// A handler of 8 rows and about 16 steps in each.
pub const HANDLER: &str = "main(x) { host := uSym_0; seq := iSym_0; vtep := iSym_1; \
    ok := mutate([host, \"seq\", seq]); ok := mutate([host, \"vtep\", vtep]); \
    new := iSym_2; best := lookup([host, \"seq\"]); ifgoto (best < new) 9; x := 1; \
    ifgoto (vtep = 0) 11; x := (x + 2); at := lookup([host, \"vtep\"]); ifgoto (at < new) 14; \
    ok := mutate([host, \"seq\", new]); ok := mutate([host, \"vtep\", (at - x)]); return x; }";

/// Jumps on an input to the very next command, from command `first`: each
/// doubles the rows.
fn doublings(first: usize, count: u32) -> String {
    let jump = |at: usize| format!("ifgoto (a < {at}) {}; ", at + 1);
    (first..first + count as usize).map(jump).collect()
}

/// 2 to the power of `count` rows, which then loop `times` times.
pub fn rows(count: u32, times: u32) -> String {
    let (jumps, again) = (doublings(1, count), count + 1);
    format!(
        "main(x) {{ a := iSym_0; {jumps}x := (x + 1); ifgoto (x < {times}) {again}; return x; }}"
    )
}

/// `cells` cells in use, two at a location, and then 8 rows that write and
/// read the last one without end.
pub fn cells(cells: u32) -> String {
    let locations = cells / 2;
    format!(
        "main(x) {{ o := uSym_0; k := mutate([o, \"p\", 1]); k := mutate([o, \"q\", x]); \
         x := (x + 1); ifgoto (x < {locations}) 0; a := iSym_0; {}\
         k := mutate([o, \"q\", k]); v := lookup([o, \"q\"]); ifgoto true 9; vanish; }}",
        doublings(6, 3)
    )
}
