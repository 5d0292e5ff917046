//! Refusals 1 to 8: their order, both sides of each limit, and the memory
//! after them. Readings 13 to 18.

mod common;

use common::*;
use reference::layout::{ANSWER_BYTES, INPUT_BYTES, POOL_BYTES, TABLE_BYTES};

const GOOD: &str = "main(x){ vanish; }";

#[test]
fn the_needed_lengths() {
    assert_eq!(TABLE_BYTES, 65_600);
    assert_eq!(POOL_BYTES, 40_960);
    assert_eq!(ANSWER_BYTES, 1_024);
    assert_eq!(INPUT_BYTES, 64);
}

#[test]
fn budgets_of_explore_and_place() {
    for (steps, branches, expected) in [
        (1, 0, 0),
        (1, 16, 0),
        (1_024, 0, 0),
        (1_024, 16, 0),
        (0, 0, 1),
        (0, 16, 1),
        (1_025, 16, 1),
        (1_024, 17, 1),
        (u32::MAX, 16, 1),
        (1_024, u32::MAX, 1),
    ] {
        let explored = explore(GOOD, steps, branches);
        assert_eq!(explored.err().unwrap_or(0), expected, "{steps} {branches}");
        let placed = place(GOOD, &[], steps, branches);
        assert_eq!(placed, if expected == 0 { Ok(0) } else { Err(1) });
    }
}

#[test]
fn budget_of_the_plain_run() {
    for (steps, accepted) in [(0, true), (1_024, true), (1_025, false), (u32::MAX, false)] {
        assert_eq!(plain(GOOD, &[], steps).is_ok(), accepted);
    }
    assert_eq!(plain(GOOD, &[], 1_025), Err(1));
}

/// Calls with buffers of exactly these lengths; all must come back untouched
/// from a refusal below 9.
fn explore_lengths(text: &str, steps: u32, table: usize, pool: usize) -> u32 {
    let (mut table, mut pool) = (vec![7; table], vec![7; pool]);
    let refusal = reference::explore(text.as_bytes(), steps, 16, &mut table, &mut pool);
    if refusal != 0 {
        assert!(table.iter().chain(&pool).all(|&b| b == 7));
    }
    refusal
}

fn place_lengths(text: &str, inputs: usize, steps: u32, table: usize, pool: usize) -> u32 {
    let (mut table, mut pool) = (vec![7; table], vec![7; pool]);
    let inputs = vec![0; inputs];
    let refusal = reference::place(text.as_bytes(), &inputs, steps, 16, &mut table, &mut pool);
    if refusal < 256 {
        assert!(table.iter().chain(&pool).all(|&b| b == 7));
    }
    refusal
}

fn plain_lengths(text: &str, inputs: usize, steps: u32, answer: usize) -> u32 {
    let mut answer = vec![7; answer];
    let inputs = vec![0; inputs];
    let refusal = reference::plain_run(text.as_bytes(), &inputs, steps, &mut answer);
    if refusal != 0 {
        assert!(answer.iter().all(|&b| b == 7));
    }
    refusal
}

#[test]
fn lengths_of_lent_buffers() {
    assert_eq!(explore_lengths(GOOD, 1, 65_600, 40_960), 0);
    assert_eq!(explore_lengths(GOOD, 1, 65_599, 40_960), 2);
    assert_eq!(explore_lengths(GOOD, 1, 65_600, 40_959), 2);
    assert_eq!(explore_lengths(GOOD, 1, 0, 0), 2);
    assert_eq!(place_lengths(GOOD, 64, 1, 65_600, 40_960), 256);
    assert_eq!(place_lengths(GOOD, 64, 1, 65_599, 40_960), 2);
    assert_eq!(place_lengths(GOOD, 64, 1, 65_600, 40_959), 2);
    assert_eq!(plain_lengths(GOOD, 64, 1, 1_024), 0);
    assert_eq!(plain_lengths(GOOD, 64, 1, 1_023), 2);
    assert_eq!(plain_lengths(GOOD, 64, 1, 0), 2);
}

#[test]
fn the_input_list_is_exactly_sixteen_words() {
    for inputs in [0, 60, 63, 65, 68, 128] {
        assert_eq!(place_lengths(GOOD, inputs, 1, 65_600, 40_960), 2);
        assert_eq!(plain_lengths(GOOD, inputs, 1, 1_024), 2);
    }
}

#[test]
fn one_then_two_then_three() {
    let long = format!("{}{GOOD}", " ".repeat(16_384));
    assert_eq!(explore_lengths(&long, 0, 0, 0), 1);
    assert_eq!(explore_lengths(&long, 1, 0, 0), 2);
    assert_eq!(explore_lengths(&long, 1, 65_600, 40_960), 3);
    assert_eq!(place_lengths(&long, 0, 1_025, 0, 0), 1);
    assert_eq!(place_lengths(&long, 0, 1, 65_600, 40_960), 2);
    assert_eq!(place_lengths(&long, 64, 1, 65_600, 0), 2);
    assert_eq!(place_lengths(&long, 64, 1, 65_600, 40_960), 3);
    assert_eq!(plain_lengths(&long, 0, 1_025, 0), 1);
    assert_eq!(plain_lengths(&long, 63, 1, 1_024), 2);
    assert_eq!(plain_lengths(&long, 64, 1, 0), 2);
    assert_eq!(plain_lengths(&long, 64, 1, 1_024), 3);
}

#[test]
fn text_length() {
    let of_length = |length: usize| format!("{GOOD}{}", " ".repeat(length - GOOD.len()));
    assert_eq!(check(of_length(16_384)), 0);
    assert_eq!(check(of_length(16_385)), 3);
    // Form is not looked at where the text is too long, and is where it fits.
    assert_eq!(check("(".repeat(16_385)), 3);
    assert_eq!(check("(".repeat(16_384)), 4);
    assert_eq!(reference::check(&[255; 100_000]), 3);
}

fn procedures(count: usize) -> String {
    let others: String = (1..count).map(|n| format!("p{n}(x){{ vanish; }} ")).collect();
    others + GOOD
}

#[test]
fn sixteen_procedures() {
    assert_eq!(check(procedures(16)), 0);
    assert_eq!(check(procedures(17)), 5);
    // Procedures are counted, not names.
    assert_eq!(check(GOOD.repeat(16)), 6);
    assert_eq!(check(GOOD.repeat(17)), 5);
}

#[test]
fn five_hundred_and_twelve_commands_in_all() {
    let body = |count: usize| "x := 1; ".repeat(count - 1) + "vanish;";
    assert_eq!(check(main(&body(512))), 0);
    assert_eq!(check(main(&body(513))), 5);
    let two = |first, second| format!("f(x){{ {} }} {}", body(first), main(&body(second)));
    assert_eq!(check(two(256, 256)), 0);
    assert_eq!(check(two(1, 512)), 5);
    // The last command can be reached.
    let jump = format!("ifgoto true 511; {} return 3;", "vanish; ".repeat(510));
    assert_eq!(only(&jump).at(), (0, 511));
}

#[test]
fn sixteen_variables_in_a_procedure() {
    let targets = |count: usize| -> String { (0..count).map(|n| format!("v{n} := 1; ")).collect() };
    let of = |count| main(&(targets(count) + "vanish;"));
    // The parameter is one of them.
    assert_eq!(check(of(15)), 0);
    assert_eq!(check(of(16)), 5);
    // One only read, one in a command never reached, one that is an operand.
    for last in ["return y;", "vanish; y := 1; vanish;", "z := lookup([y, \"p\"]); vanish;"] {
        let extra = if last.contains('z') { 1 } else { 0 };
        assert_eq!(check(main(&(targets(14 - extra) + last))), 0, "{last}");
        assert_eq!(check(main(&(targets(15 - extra) + last))), 5, "{last}");
    }
    // Each procedure has its own sixteen, and a name used again is one.
    let full = targets(15) + &targets(15) + "vanish;";
    assert_eq!(check(format!("f(x){{ {full} }} {}", main(&full))), 0);
    // In any procedure, also one before the last.
    let over = format!("f(x){{ {} vanish; }} {GOOD}", targets(16));
    assert_eq!(check(&over), 5);
    // Procedure names and properties are no variables.
    let others = "v0 := f(x); v0 := mutate([x, \"p\", 1]); vanish;";
    assert_eq!(check(format!("f(x){{ vanish; }} {}", main(&(targets(15) + others)))), 0);
}

#[test]
fn thirty_two_distinct_properties() {
    let of = |from: usize, to: usize| -> String {
        (from..to).map(|n| format!("a := lookup([o, \"p{n}\"]); ")).collect()
    };
    assert_eq!(check(main(&(of(0, 32) + "vanish;"))), 0);
    assert_eq!(check(main(&(of(0, 33) + "vanish;"))), 5);
    // Over the whole text, each once, and also where they are never reached.
    let two =
        |to| format!("f(x){{ vanish; {} vanish; }} {}", of(0, 20), main(&(of(0, to) + "vanish;")));
    assert_eq!(check(two(32)), 0);
    assert_eq!(check(two(33)), 5);
}

#[test]
fn names_of_procedures() {
    assert_eq!(check("main(x){ vanish; } main(x){ vanish; }"), 6);
    assert_eq!(check("f(x){ vanish; } f(y){ return y; } main(x){ vanish; }"), 6);
    assert_eq!(check("main(x){ vanish; } f(x){ vanish; }"), 0);
    assert_eq!(check("f(x){ vanish; } main(x){ vanish; }"), 0);
    assert_eq!(check("f(x){ vanish; }"), 6);
    assert_eq!(check("main1(x){ vanish; }"), 6);
    // A call of a later one, of itself, of none; never reached is no excuse.
    assert_eq!(check("main(x){ y := f(1); vanish; } f(x){ vanish; }"), 0);
    assert_eq!(check("main(x){ y := main(1); vanish; }"), 0);
    assert_eq!(check("main(x){ vanish; y := f(1); vanish; }"), 6);
    assert_eq!(check("g(x){ y := f(1); vanish; } main(x){ vanish; }"), 6);
    // A variable of that name is no procedure.
    assert_eq!(check("main(f){ f := f(1); vanish; }"), 6);
}

#[test]
fn jumps_stay_in_their_procedure() {
    assert_eq!(check(main("ifgoto true 1; vanish;")), 0);
    assert_eq!(check(main("ifgoto true 2; vanish;")), 7);
    assert_eq!(check(main("vanish; ifgoto true 3; vanish;")), 7);
    let long = "f(x){ x := 1; x := 1; x := 1; vanish; }";
    assert_eq!(check(format!("{long} {}", main("ifgoto true 3; vanish;"))), 7);
    assert_eq!(check(format!("{} {long}", main("ifgoto true 3; vanish;"))), 7);
    assert_eq!(check(format!("{long} {}", main("ifgoto true 0; vanish;"))), 0);
    assert_eq!(check(main("ifgoto true 65536; vanish;")), 7);
}

#[test]
fn last_commands() {
    for last in ["return x", "fail x", "vanish"] {
        assert_eq!(check(main(&format!("{last};"))), 0);
    }
    for last in ["x := 1", "ifgoto true 0", "x := main(1)", "x := uSym_0", "x := dispose(x)"] {
        assert_eq!(check(main(&format!("{last};"))), 8);
        assert_eq!(check(main(&format!("vanish; {last};"))), 8);
        // In any procedure, called or not.
        assert_eq!(check(format!("f(x){{ {last}; }} {GOOD}")), 8);
        assert_eq!(check(format!("{GOOD} f(x){{ {last}; }}")), 8);
    }
}

/// Each of 3 to 8 is tested on the whole text before the next: the reason for
/// the lower number comes last in the text.
#[test]
fn three_to_eight_in_order() {
    let eight = "a(x){ x := 1; }";
    let seven = "b(x){ ifgoto true 9; vanish; }";
    let six = "c(x){ y := nobody(1); vanish; }";
    let five: String = (0..33).map(|n| format!("y := lookup([x, \"p{n}\"]); ")).collect();
    let five = format!("d(x){{ {five} vanish; }}");
    let four = "e(x){ vanish }";
    let three = " ".repeat(16_384);
    let mut text = GOOD.to_string();
    for (part, expected) in
        [(eight, 8), (seven, 7), (six, 6), (five.as_str(), 5), (four, 4), (three.as_str(), 3)]
    {
        text += part;
        assert_eq!(check(&text), expected);
        assert_eq!(plain(&text, &[], 5), Err(expected));
        assert_eq!(explore(&text, 5, 5), Err(expected));
        assert_eq!(place(&text, &[], 5, 5), Err(expected));
    }
}

/// All three reasons for 6 come before any for 7.
#[test]
fn each_six_before_seven() {
    let seven = "b(x){ ifgoto true 9; vanish; }";
    assert_eq!(check(format!("{seven} {GOOD}")), 7);
    assert_eq!(check(seven), 6);
    assert_eq!(check(format!("{seven} {GOOD} {GOOD}")), 6);
    assert_eq!(check(format!("{seven} {GOOD} c(x){{ x := d(x); vanish; }}")), 6);
}
