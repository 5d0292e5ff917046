//! The printed table: readings 30 to 32.

mod common;

use common::*;

fn printed(text: &str) -> String {
    String::from_utf8(reference::printed_table(text.as_bytes())).unwrap()
}

/// The lines after the header, of a body of `main`.
fn lines(body: &str) -> Vec<String> {
    lines_of(&main(body))
}

fn lines_of(text: &str) -> Vec<String> {
    let printed = printed(text);
    let rest =
        printed.strip_prefix("row,outcome,value,steps,procedure,command,conditions\r\n").unwrap();
    let body = rest.strip_suffix("\r\n").unwrap();
    body.split("\r\n").map(str::to_string).collect()
}

#[test]
fn a_refusal_prints_one_line_and_no_header() {
    assert_eq!(printed(""), "refused,4\r\n");
    assert_eq!(printed(&" ".repeat(16_385)), "refused,3\r\n");
    assert_eq!(printed("f(x){ vanish; }"), "refused,6\r\n");
    assert_eq!(printed(&main("ifgoto true 2; vanish;")), "refused,7\r\n");
    assert_eq!(printed(&main("x := 1;")), "refused,8\r\n");
    let terms = "a := iSym_0; a := ((((a + a) + a) + a) + a); ifgoto true 1; vanish;";
    assert_eq!(printed(&main(terms)), "refused,10\r\n");
    let mut rows = "a := iSym_0; ".to_string();
    for at in 1..=7 {
        rows += &format!("ifgoto (a < 5) {}; ", at + 1);
    }
    assert_eq!(printed(&main(&(rows + "vanish;"))), "refused,9\r\n");
}

#[test]
fn values() {
    for (e, text) in [("7", "7"), ("4294967295", "4294967295"), ("true", "true"), ("o", "$1")] {
        let setup = "o := uSym_0; o := uSym_0; a := iSym_0;";
        assert_eq!(
            lines(&format!("{setup} return {e};")),
            [format!("0,returned,{text},4,main,3,true")]
        );
        assert_eq!(
            lines(&format!("{setup} fail {e};")),
            [format!("0,failed,{text},4,main,3,true")]
        );
    }
    assert_eq!(lines("return false;"), ["0,returned,false,1,main,0,true"]);
    assert_eq!(lines("return (0 = 0);"), ["0,returned,true,1,main,0,true"]);
}

#[test]
fn outcomes() {
    assert_eq!(lines("vanish;"), ["0,vanished,,1,main,0,true"]);
    assert_eq!(lines("x := y; vanish;"), ["0,error,1,1,main,0,true"]);
    assert_eq!(lines("x := (x + 1); ifgoto true 0; vanish;"), ["0,cut,steps,1024,main,0,true"]);
    let row = lines_of("f(x){ y := f(x); vanish; } main(x){ x := f(x); vanish; }");
    assert_eq!(row, ["0,error,4,8,f,0,true"]);
    let body = "i := iSym_0; b := (i < 5); ifgoto b 2; vanish;";
    let conditions = vec!["(#0 < 5)"; 16].join("; ");
    assert_eq!(lines(body)[0], format!("0,cut,branches,18,main,2,{conditions}"));
    assert_eq!(lines(body)[16], "16,vanished,,4,main,3,not (#0 < 5)");
}

#[test]
fn terms_print_as_in_the_text() {
    let value = |e: &str| {
        let line = lines(&format!("a := iSym_9; b := iSym_9; t := (a = b); return {e};"));
        line[0].split(',').nth(2).unwrap().to_string()
    };
    for e in ["#1", "(#0 + 1)", "(1 - #1)", "(#0 = #1)", "(#0 < 10)", "not (#0 = #1)"] {
        assert_eq!(value(&e.replace("#0", "a").replace("#1", "b")), e);
    }
    assert_eq!(value("(t and not t)"), "((#0 = #1) and not (#0 = #1))");
    assert_eq!(value("((a<b)or(t=false))"), "((#0 < #1) or ((#0 = #1) = false))");
    assert_eq!(value("not not t"), "not not (#0 = #1)");
    assert_eq!(value("(a + (1 + 2))"), "(#0 + 3)");
    assert_eq!(value("((0 - 1) - a)"), "(4294967295 - #0)");
}

#[test]
fn conditions_joined() {
    let rows = lines("a := iSym_0; b := iSym_1; ifgoto not (a = b) 3; ifgoto (a < 2) 4; return 0;");
    assert_eq!(
        rows,
        [
            "0,returned,0,5,main,4,not (#0 = #1); (#0 < 2)",
            "1,returned,0,5,main,4,not (#0 = #1); not (#0 < 2)",
            "2,returned,0,5,main,4,not not (#0 = #1); (#0 < 2)",
            "3,returned,0,5,main,4,not not (#0 = #1); not (#0 < 2)",
        ]
    );
}

/// `#0` has two bytes and each `( + 1)` around it six: 33 of them make 200.
fn sums(count: usize) -> String {
    let one = "a := (a + 1); ";
    format!("a := iSym_0; {}", one.repeat(count))
}

#[test]
fn two_hundred_bytes_print_and_one_more_are_large() {
    let text = "(".repeat(33) + "#0" + &" + 1)".repeat(33);
    assert_eq!(text.len(), 200);
    let row = lines(&(sums(33) + "return a;"));
    assert_eq!(row, [format!("0,returned,{text},35,main,34,true")]);
    // With 10 in the place of the last 1 it is 201.
    let row = lines(&(sums(32) + "fail (a + 10);"));
    assert_eq!(row, ["0,failed,large,34,main,33,true"]);
    // A larger one around a large one is large as a whole.
    let row = lines(&(sums(34) + "return (a < a);"));
    assert_eq!(row, ["0,returned,large,36,main,35,true"]);
}

#[test]
fn a_conditions_own_not_does_not_count() {
    let text = "(".repeat(33) + "#0" + &" + 1)".repeat(32) + " < 1)";
    assert_eq!(text.len(), 200);
    let rows = lines(&(sums(32) + "ifgoto (a < 1) 34; vanish;"));
    assert_eq!(rows[0], format!("0,vanished,,35,main,34,{text}"));
    assert_eq!(rows[1], format!("1,vanished,,35,main,34,not {text}"));
    let rows = lines(&(sums(32) + "ifgoto (a < 10) 34; vanish;"));
    assert_eq!(rows, ["0,vanished,,35,main,34,large", "1,vanished,,35,main,34,not large"]);
    // A term's own `not ` does: 4 + 196 and 4 + 197.
    let inner = "(".repeat(32) + "#0" + &" + 1)".repeat(31);
    let rows = lines(&(sums(31) + "ifgoto not (a < 123) 33; vanish;"));
    assert_eq!(rows[0], format!("0,vanished,,34,main,33,not {inner} < 123)"));
    assert_eq!(rows[1], format!("1,vanished,,34,main,33,not not {inner} < 123)"));
    let rows = lines(&(sums(31) + "ifgoto not (a < 1234) 33; vanish;"));
    assert_eq!(rows, ["0,vanished,,34,main,33,large", "1,vanished,,34,main,33,not large"]);
}

/// As a tree this term has two to the 341st leaves.
#[test]
fn doubling_is_no_tree() {
    let row = lines("a := iSym_0; a := (a + a); x := (x + 1); ifgoto (x < 340) 1; return (a + a);");
    assert_eq!(row, ["0,returned,large,1022,main,4,true"]);
    let text = main(
        "a := iSym_0; a := (a + a); x := (x + 1); ifgoto (x < 32) 1; ifgoto (a = 0) 5; vanish;",
    );
    // The input is taken 2^32 times, which is nought.
    assert_eq!(place(&text, &[12_345], STEPS, BRANCHES), Ok(0));
}
