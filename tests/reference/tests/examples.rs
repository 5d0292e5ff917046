//! The examples of document 01, in its order.

mod common;

use common::*;

const A: &str = "main(x){ s := iSym_0; w := iSym_1; ifgoto (s < w) 5; r := 1; return r; fail w; }";

#[test]
fn example_1_explored() {
    let found = explore(A, STEPS, BRANCHES).unwrap();
    let failed = Row {
        end: End::Failed(V::NumTerm(1)),
        steps: 4,
        procedure: 0,
        command: 5,
        inputs: 2,
        conditions: vec![(2, true)],
        variables: vec![V::Num(0), V::NumTerm(0), V::NumTerm(1), V::Nothing],
        cells: vec![],
    };
    let returned = Row {
        end: End::Returned(V::Num(1)),
        steps: 5,
        command: 4,
        conditions: vec![(2, false)],
        variables: vec![V::Num(0), V::NumTerm(0), V::NumTerm(1), V::Num(1)],
        ..failed.clone()
    };
    assert_eq!(found.rows, [failed, returned]);
    assert_eq!(
        found.terms,
        [(1, V::Num(0), V::Nothing), (1, V::Num(1), V::Nothing), (6, V::NumTerm(0), V::NumTerm(1)),]
    );
}

#[test]
fn example_1_run() {
    let row = plain(A, &[3, 8], STEPS).unwrap();
    assert_eq!((row.end, row.steps, row.command), (End::Failed(V::Num(8)), 4, 5));
    assert_eq!(place(A, &[3, 8], STEPS, BRANCHES), Ok(0));
    let row = plain(A, &[5, 5], STEPS).unwrap();
    assert_eq!((row.end, row.steps, row.command), (End::Returned(V::Num(1)), 5, 4));
    assert_eq!(place(A, &[5, 5], STEPS, BRANCHES), Ok(1));
}

#[test]
fn example_1_printed() {
    let expected = "row,outcome,value,steps,procedure,command,conditions\r\n\
                    0,failed,#1,4,main,5,(#0 < #1)\r\n\
                    1,returned,1,5,main,4,not (#0 < #1)\r\n";
    assert_eq!(reference::printed_table(A.as_bytes()), expected.as_bytes());
}

#[test]
fn example_2() {
    let body = "a := iSym_0; return (a + 1);";
    let row = plain(main(body), &[4_294_967_295], STEPS).unwrap();
    assert_eq!((row.end, row.steps), (End::Returned(V::Num(0)), 2));
    let found = table(body);
    assert_eq!(found.rows[0].end, End::Returned(V::NumTerm(1)));
    assert_eq!(found.terms[1], (3, V::NumTerm(0), V::Num(1)));
}

#[test]
fn example_3() {
    let found = table("a := iSym_0; ifgoto (a = true) 3; return a; fail a;");
    assert_eq!(found.rows.len(), 1);
    let row = &found.rows[0];
    assert_eq!((row.end, row.steps, row.command), (End::Returned(V::NumTerm(0)), 3, 2));
    assert_eq!(row.conditions, []);
    assert_eq!(found.terms, [(1, V::Num(0), V::Nothing)]);
}

#[test]
fn example_4() {
    let row = only("x := (x + 1); ifgoto true 0; vanish;");
    assert_eq!((row.end, row.steps, row.command), (End::CutSteps, 1_024, 0));
    assert_eq!(row.variables, [V::Num(512)]);
}

#[test]
fn example_5() {
    let row = only(
        "o := uSym_0; a := mutate([o, \"mac\", 7]); a := dispose(o); \
         a := mutate([o, \"mac\", 9]); b := lookup([o, \"mac\"]); return b;",
    );
    assert_eq!((row.end, row.steps, row.command), (End::Returned(V::Num(9)), 6, 5));
    assert_eq!(row.cells, [(0, 0, V::Num(9))]);
    assert_eq!(row.variables, [V::Num(0), V::Loc(0), V::Bool(true), V::Num(9)]);
}

#[test]
fn example_6() {
    let row = only("o := uSym_0; b := lookup([o, \"mac\"]); return b;");
    assert_eq!((row.end, row.steps, row.command), (End::Error(3), 2, 1));
    assert_eq!(row.variables, [V::Num(0), V::Loc(0), V::Nothing]);
}

#[test]
fn example_7() {
    let row = only("a := b; vanish;");
    assert_eq!((row.end, row.steps, row.command), (End::Error(1), 1, 0));
    let row = only("a := (1 + true); vanish;");
    assert_eq!((row.end, row.steps, row.command), (End::Error(2), 1, 0));
}

#[test]
fn example_8() {
    let row = only("vanish;");
    assert_eq!((row.end, row.steps, row.command), (End::Vanished, 1, 0));
    let row = plain(main("vanish;"), &[], 0).unwrap();
    assert_eq!((row.end, row.steps, row.command), (End::CutSteps, 0, 0));
    assert_eq!(row.variables, [V::Num(0)]);
}

const NINE: &str = "a := iSym_0; ifgoto (a < 5) 0; return a;";

#[test]
fn example_9() {
    let found = table(NINE);
    assert_eq!((found.rows.len(), found.terms.len()), (17, 32));
    let row = &found.rows[0];
    assert_eq!((row.end, row.steps, row.command), (End::Error(5), 33, 0));
    assert_eq!((row.inputs, row.conditions.len()), (16, 16));
    // Row n leaves the loop after 17 - n inputs, and term 2k is input k.
    for (n, row) in found.rows.iter().enumerate().skip(1) {
        let inputs = 17 - n as u32;
        assert_eq!((row.inputs, row.steps, row.command), (inputs, 2 * inputs + 1, 2));
        assert_eq!(row.end, End::Returned(V::NumTerm(2 * (inputs - 1))));
        assert_eq!(row.conditions.len(), inputs as usize);
        assert_eq!(row.conditions.last(), Some(&(2 * inputs - 1, false)));
    }
    assert_eq!(found.rows[16].steps, 3);
}

#[test]
fn example_9_with_fifteen_branches() {
    let found = explore(main(NINE), STEPS, 15).unwrap();
    // The jump that is cut has made its term.
    assert_eq!((found.rows.len(), found.terms.len()), (16, 32));
    let row = &found.rows[0];
    assert_eq!((row.end, row.steps, row.command), (End::CutBranches, 31, 1));
    assert_eq!((row.inputs, row.conditions.len()), (16, 15));
    // Inputs that stay in the loop fall in the cut row.
    assert_eq!(place(main(NINE), &[0; 16], STEPS, 15), Ok(0));
    assert_eq!(place(main(NINE), &[5; 16], STEPS, 15), Ok(15));
}

fn inputs_and_jumps(times: u32) -> String {
    let mut body = String::new();
    for at in 0..times {
        body += &format!("a := iSym_0; ifgoto (a < 5) {}; ", 2 * at + 2);
    }
    body + "return 0;"
}

#[test]
fn example_10() {
    let found = table(&inputs_and_jumps(6));
    assert_eq!((found.rows.len(), found.terms.len()), (64, 126));
    assert!(found.rows.iter().all(|row| row.steps == 13 && row.inputs == 6));
    assert_eq!(explore(main(&inputs_and_jumps(7)), STEPS, BRANCHES), Err(9));
}

#[test]
fn example_11() {
    let text = main("a := iSym_0; a := ((((a + a) + a) + a) + a); ifgoto true 1; vanish;");
    assert_eq!(explore(&text, 1_024, BRANCHES), Err(10));
    let found = explore(&text, 1_023, BRANCHES).unwrap();
    assert_eq!((found.rows.len(), found.terms.len()), (1, 2_045));
    assert_eq!((found.rows[0].end, found.rows[0].steps), (End::CutSteps, 1_023));
    // An odd count of steps: the jump is done, the assignment is next.
    assert_eq!(found.rows[0].command, 1);
}

#[test]
fn example_12() {
    assert_eq!(check(""), 4);
    assert_eq!(check("main(x){ ifgoto true 1; }"), 7);
    assert_eq!(check("main(x){ ifgoto true 0; }"), 8);
    assert_eq!(check("f(x){ vanish; }"), 6);
}
