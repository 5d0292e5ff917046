//! The texts, each made from one seed: those of the reference's generator, and
//! besides texts without any sense, texts of mixed sorts, and texts that run
//! into the limits of a path or of an exploration.

use reference::generate::{crowded_text, damaged_text, valid_text, Random};

/// A text with the name of its kind.
pub fn text(seed: u64) -> (&'static str, Vec<u8>) {
    // The kind must not be tied to what the generator does with the seed.
    let random = &mut Random::new(seed ^ 0x5EED);
    match random.below(10) {
        0..=2 => ("valid", valid_text(seed)),
        3 | 4 => ("damaged", damaged_text(seed)),
        5 => ("crowded", crowded_text(seed)),
        6 => ("random", senseless(seed, random)),
        7 => ("mixed", mixed(random).into_bytes()),
        _ => ("full", full(random).into_bytes()),
    }
}

// ------------------------------------------------------------------- no sense

const TOKENS: &str = "main(x){ f(x){ { } ( ) [ ] , ; := + - = < and or not true false x y f \
    ifgoto return fail vanish lookup mutate dispose uSym_0 iSym_0 0 7 \"p\" x:=1; return(x+1); vanish;";

/// Bytes, tokens, or the beginning of a right text.
fn senseless(seed: u64, random: &mut Random) -> Vec<u8> {
    let length = random.index(120);
    match random.below(3) {
        0 => (0..length).map(|_| random.bits() as u8).collect(),
        1 => {
            let tokens: Vec<&str> = TOKENS.split(' ').collect();
            let some: Vec<&str> = (0..length / 2).map(|_| random.pick(&tokens)).collect();
            let beginning = random.pick(&["", "main(x){", "main(x){ x := "]);
            (beginning.to_string() + &some.join(random.pick(&["", " "]))).into_bytes()
        }
        _ => {
            let mut text = valid_text(seed);
            text.truncate(random.index(text.len()));
            text
        }
    }
}

// ---------------------------------------------------------------- mixed sorts

/// An expression on operands of all sorts, constant or term, bound or not.
fn operand(depth: u32, random: &mut Random) -> String {
    if depth == 1 || random.chance(40) {
        let leaves = ["a", "a", "c", "c", "o", "u", "x", "7", "true", "false"];
        return random.pick(&leaves).to_string();
    }
    let left = operand(depth - 1, random);
    match random.pick(&["not", "+", "-", "<", "and", "or", "=", "=", "="]) {
        "not" => format!("not {left}"),
        operator => format!("({left} {operator} {})", operand(depth - 1, random)),
    }
}

/// Which error comes first, and which terms were made before it.
fn mixed(random: &mut Random) -> String {
    let mut body = String::from("a := iSym_0; c := (a < 5); o := uSym_0; ");
    for number in 0..random.between(1, 4) {
        let (one, two) = (operand(3, random), operand(3, random));
        body += &match random.below(8) {
            0 => format!("y := mutate([{one}, \"p\", {two}]); "),
            1 => format!("y := mutate([o, \"p\", {two}]); "),
            2 => format!("y := lookup([{one}, \"p\"]); "),
            3 => format!("y := dispose({one}); "),
            4 => format!("y := f({one}); "),
            5 => format!("ifgoto {one} {}; ", number + 4),
            _ => format!("y := ({one} = {two}); "),
        };
    }
    format!(
        "{}f(y) {{ return (y = {}); }}",
        main(&(body + last(random) + " vanish; ")),
        operand(2, random)
    )
}

// ----------------------------------------------------------------- full texts

fn full(random: &mut Random) -> String {
    match random.below(6) {
        0 => many_rows(random),
        1 => many_terms(random),
        2 => many_rows_and_terms(random),
        3 => many_frames(random),
        4 => many_symbols(random),
        _ => many_cells(random),
    }
}

fn main(body: &str) -> String {
    format!("main(x) {{ {body}}}")
}

/// A command that ends, or may end, a path whose variable `a` is an input.
fn last(random: &mut Random) -> &'static str {
    random.pick(&[
        "return (a + 1);",
        "return a;",
        "fail (a - a);",
        "fail true;",
        "vanish;",
        "a := ((a + 1) + true);",
        "a := (a + true);",
        "a := (b + (a + 1));",
        "a := ((a + 1) and b);",
        "ifgoto ((a + 1) < a) 0;",
        "ifgoto (a + 1) 0;",
        "a := iSym_9;",
        "o := lookup([a, \"p\"]);",
        "a := (a = true);",
        "ifgoto (a = true) 0;",
    ])
}

/// Jumps to the very next command, and then jumps to the end: about 64 rows,
/// some cut for branches where there are more than 16 jumps.
fn many_rows(random: &mut Random) -> String {
    let doubled = random.between(2, 6) as usize;
    let single = (64 >> doubled) + random.index(3);
    let mut body = String::from("a := iSym_0; ");
    for number in 0..doubled {
        body += &format!("ifgoto (a < {number}) {}; ", number + 2);
    }
    let end = 1 + doubled + single.saturating_sub(2);
    for number in 0..end - doubled - 1 {
        body += &format!("ifgoto (a = {number}) {end}; ");
    }
    main(&format!("{body}{} vanish; ", last(random)))
}

/// Seven terms in one expression, the deepest there is.
const SEVEN: &str = "a := (((((((a + a) + a) + a) + a) + a) + a) + a); ";

/// About 2,048 terms: 1, 292 times 7, and some.
fn many_terms(random: &mut Random) -> String {
    let some = "a := (a - 1); ".repeat(random.index(6));
    let again = "x := (x + 1); ifgoto (x < 292) 1; ";
    main(&format!("a := iSym_0; {SEVEN}{again}{some}{} vanish; ", last(random)))
}

/// About 64 rows, and then a path that makes the last terms there are.
fn many_rows_and_terms(random: &mut Random) -> String {
    let some = "a := (a + 1); ".repeat(random.index(5));
    let first = 5 + some.matches(';').count() + 2;
    let jumps: String =
        (first..first + 6).map(|at| format!("ifgoto (a < 5) {}; ", at + 1)).collect();
    main(&format!(
        "a := iSym_0; ifgoto (a < 5) {first}; {SEVEN}x := (x + 1); ifgoto (x < 283) 2; \
         {some}{} vanish; {jumps}return 0; ",
        last(random)
    ))
}

/// About eight frames, of which each has its own variables, ended at the
/// bottom or on the way back.
fn many_frames(random: &mut Random) -> String {
    let depth = random.between(5, 8);
    let condition = random.pick(&["(x < 1)", "(a < 1)", "((x = 0) or (a = 3))"]);
    let (bottom, back) = (last(random), last(random));
    format!(
        "f(x) {{ a := iSym_0; ifgoto {condition} 5; y := f((x - 1)); a := (a + y); {back} {bottom} \
         return x; }} main(a) {{ z := f({depth}); {back} return z; }}"
    )
}

/// About sixteen inputs or locations on one path.
fn many_symbols(random: &mut Random) -> String {
    let (symbol, times) = (random.pick(&["a := iSym_1", "o := uSym_1"]), random.between(14, 17));
    let work = random.pick(&["p := mutate([o, \"n\", a]);", "y := (a + x);", "y := (a < x);"]);
    let last = last(random);
    main(&format!(
        "a := iSym_0; o := uSym_0; {symbol}; {work} x := (x + 1); ifgoto (x < {times}) 2; \
         ifgoto (a < 4) 8; {last} vanish; "
    ))
}

/// Writes, reads and removals of cells in any order, mostly about 32 in use.
fn many_cells(random: &mut Random) -> String {
    const PROPERTIES: [&str; 5] = ["seq", "mac", "0", "vtep", "_"];
    let locations = random.between(7, 11);
    let mut body = String::from("a := iSym_0; ");
    for number in 0..locations {
        body += &format!("o{number} := uSym_0; ");
    }
    let mut there: Vec<(u32, usize)> = Vec::new();
    for step in 0..random.between(40, 120) {
        let cell = (random.below(locations), random.index(PROPERTIES.len()));
        match random.below(40) {
            0 => {
                there.retain(|&(location, _)| location != cell.0);
                body += &format!("b := dispose(o{}); ", cell.0);
            }
            1..=8 if !there.is_empty() => {
                let (location, property) = random.pick(&there);
                body += &format!("c := lookup([o{location}, \"{}\"]); ", PROPERTIES[property]);
            }
            // Seldom the thirty-third, which ends the path.
            _ if there.contains(&cell) || there.len() < 32 || random.chance(2) => {
                there.push(cell);
                there.sort_unstable();
                there.dedup();
                let value = random.pick(&["a", "true", "o1", "(a < 3)", "7"]);
                let (location, property) = (cell.0, PROPERTIES[cell.1]);
                body += &format!("b := mutate([o{location}, \"{property}\", {value}]); ");
            }
            _ => body += &format!("ifgoto (a < {step}) {}; ", body.matches(';').count() + 1),
        }
    }
    main(&format!("{body}{} vanish; ", last(random)))
}
