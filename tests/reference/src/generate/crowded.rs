//! Texts next to the limits of refusals 3 to 5.

use super::Random;
use crate::limits;

/// Something close to `limit`, on either side.
fn around(limit: usize, random: &mut Random) -> usize {
    limit - 2 + random.index(5)
}

pub fn text(random: &mut Random) -> Vec<u8> {
    let text = match random.below(6) {
        0 => procedures(random),
        1 => commands(random),
        2 => variables(random),
        3 => properties(random),
        4 => depth(random),
        _ => return length(random),
    };
    besides(text, random).into_bytes()
}

/// Reasons for the later refusals, to see which one is given.
fn besides(mut text: String, random: &mut Random) -> String {
    if random.chance(20) {
        text.push_str(" last(x) { y := x; }");
    }
    if random.chance(20) {
        text.push_str(" far(x) { ifgoto true 2; vanish; }");
    }
    if random.chance(20) {
        text.push_str(" calls(x) { y := nobody(x); vanish; }");
    }
    if random.chance(10) {
        text.push_str(" main(x) { vanish; }");
    }
    if random.chance(10) {
        text.push_str(" fault(x) { vanish }");
    }
    text
}

fn procedures(random: &mut Random) -> String {
    let count = around(limits::PROCEDURES, random);
    let main = random.index(count);
    (0..count)
        .map(|at| match at == main {
            true => "main(x) { vanish; } ".to_string(),
            false => format!("p{at}(x) {{ return x; }} "),
        })
        .collect()
}

/// Split over two procedures: commands are counted over the whole text.
fn commands(random: &mut Random) -> String {
    let count = around(limits::COMMANDS, random);
    let first = random.between(1, count as u32 - 2) as usize;
    let body = |count: usize| "x := (x + 1); ".repeat(count - 1);
    format!("main(x) {{ {} return x; }} f(x) {{ {} vanish; }}", body(first), body(count - first))
}

/// Names of all lengths up to the longest, some only read, some never reached.
fn variables(random: &mut Random) -> String {
    let count = around(limits::VARIABLES, random) - 1;
    let name = |at: usize| format!("v{at}{}", "_".repeat(13)[..at % 13].to_owned());
    let mut body = String::new();
    for at in 0..count {
        let name = name(at);
        body.push_str(&match random.below(3) {
            0 => format!("{name} := {at}; "),
            1 => format!("x := (true or {name}); "),
            _ => format!("ifgoto not {name} 0; "),
        });
    }
    format!("f(x) {{ {body} vanish; }} main(x) {{ return x; }}")
}

fn properties(random: &mut Random) -> String {
    let count = around(limits::PROPERTIES, random);
    let half = random.index(count + 1);
    let body = |from: usize, to: usize| -> String {
        (from..to).map(|at| format!("a := mutate([o, \"{at}\", {at}]); ")).collect()
    };
    format!(
        "main(x) {{ o := uSym_0; {} return a; }} f(o) {{ {} vanish; }}",
        body(0, half),
        body(half, count)
    )
}

fn depth(random: &mut Random) -> String {
    let mut expression = random.pick(&["x", "7", "true"]).to_string();
    for _ in 1..around(limits::DEPTH, random) {
        expression = match random.below(3) {
            0 => format!("not {expression}"),
            1 => format!("({expression} = x)"),
            _ => format!("(x = {expression})"),
        };
    }
    format!("main(x) {{ x := {expression}; return x; }}")
}

/// White space is part of a text's length.
fn length(random: &mut Random) -> Vec<u8> {
    let body = match random.chance(80) {
        true => "main(x) { return x; }",
        false => "main(x) { return; }",
    };
    let mut text = body.as_bytes().to_vec();
    text.resize(around(limits::TEXT_BYTES, random), b'\n');
    text
}
