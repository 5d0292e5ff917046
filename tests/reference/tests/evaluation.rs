//! Values, operators and the order of evaluation: readings 19 to 22.

mod common;

use common::*;

/// The value of a closed expression, the same in both kinds of run.
fn value(expression: &str) -> V {
    match only(&format!("return {expression};")).end {
        End::Returned(value) => value,
        other => panic!("{expression}: {other:?}"),
    }
}

/// The error of a first command. `b` is never bound.
fn error(command: &str) -> u32 {
    let row = only(&format!("{command}; vanish;"));
    assert_eq!((row.steps, row.command), (1, 0));
    // A command that errs changes no variable and no cell.
    assert_eq!(row.variables[0], V::Num(0));
    assert!(row.variables[1..].iter().all(|&v| v == V::Nothing));
    assert_eq!(row.cells, []);
    match row.end {
        End::Error(number) => number,
        other => panic!("{command}: {other:?}"),
    }
}

#[test]
fn numbers_are_modulo_two_to_the_thirty_second() {
    assert_eq!(value("(4294967295 + 1)"), V::Num(0));
    assert_eq!(value("(4294967295 + 4294967295)"), V::Num(4_294_967_294));
    assert_eq!(value("(2147483648 + 2147483647)"), V::Num(4_294_967_295));
    assert_eq!(value("(0 - 1)"), V::Num(4_294_967_295));
    assert_eq!(value("(0 - 4294967295)"), V::Num(1));
    assert_eq!(value("(7 - 7)"), V::Num(0));
    assert_eq!(value("((1 - 2) + 3)"), V::Num(2));
}

#[test]
fn less_is_unsigned() {
    assert_eq!(value("(0 < 4294967295)"), V::Bool(true));
    assert_eq!(value("(4294967295 < 0)"), V::Bool(false));
    assert_eq!(value("(2147483647 < 2147483648)"), V::Bool(true));
    assert_eq!(value("(5 < 5)"), V::Bool(false));
}

#[test]
fn truth_tables() {
    for (a, b) in [(false, false), (false, true), (true, false), (true, true)] {
        assert_eq!(value(&format!("({a} and {b})")), V::Bool(a && b));
        assert_eq!(value(&format!("({a} or {b})")), V::Bool(a || b));
        assert_eq!(value(&format!("({a} = {b})")), V::Bool(a == b));
        assert_eq!(value(&format!("not {a}")), V::Bool(!a));
    }
    assert_eq!(value("not not not true"), V::Bool(false));
    assert_eq!(value("(not true or true)"), V::Bool(true));
}

#[test]
fn equality_takes_all_values() {
    assert_eq!(value("(3 = 3)"), V::Bool(true));
    assert_eq!(value("(3 = 4)"), V::Bool(false));
    assert_eq!(value("(1 = true)"), V::Bool(false));
    assert_eq!(value("(false = 0)"), V::Bool(false));
    let two = "o := uSym_0; l := uSym_0; ";
    for (expression, truth) in [
        ("(o = o)", true),
        ("(o = l)", false),
        ("(o = 0)", false),
        ("(l = 1)", false),
        ("(true = l)", false),
    ] {
        let row = only(&format!("{two} return {expression};"));
        assert_eq!(row.end, End::Returned(V::Bool(truth)), "{expression}");
    }
}

#[test]
fn operators_need_their_sorts() {
    for operator in ["+", "-", "<"] {
        assert_eq!(error(&format!("a := (1 {operator} true)")), 2);
        assert_eq!(error(&format!("a := (false {operator} 1)")), 2);
        assert_eq!(error(&format!("a := (true {operator} true)")), 2);
    }
    for operator in ["and", "or"] {
        assert_eq!(error(&format!("a := (1 {operator} true)")), 2);
        assert_eq!(error(&format!("a := (false {operator} 1)")), 2);
        assert_eq!(error(&format!("a := (1 {operator} 0)")), 2);
    }
    assert_eq!(error("a := not 1"), 2);
    for expression in ["(o + 1)", "(1 - o)", "(o < o)", "(o and true)", "(false or o)", "not o"] {
        let row = only(&format!("o := uSym_0; a := {expression}; vanish;"));
        assert_eq!((row.end, row.command), (End::Error(2), 1), "{expression}");
    }
}

#[test]
fn both_operands_are_always_evaluated() {
    assert_eq!(error("a := (false and b)"), 1);
    assert_eq!(error("a := (true or b)"), 1);
    assert_eq!(error("a := (b and false)"), 1);
    assert_eq!(error("a := (1 = b)"), 1);
    assert_eq!(error("a := (false and (1 + true))"), 2);
    assert_eq!(error("a := (true or not 1)"), 2);
}

#[test]
fn sorts_are_tested_inside_out() {
    assert_eq!(error("a := (true + b)"), 1);
    assert_eq!(error("a := (1 and b)"), 1);
    assert_eq!(error("a := ((1 + true) + b)"), 2);
    assert_eq!(error("a := (b + (1 + true))"), 1);
    assert_eq!(error("a := (not 1 and b)"), 2);
    assert_eq!(error("a := (true + (1 and b))"), 1);
    assert_eq!(error("a := (true + not 1)"), 2);
    assert_eq!(error("a := ((true = b) + 1)"), 1);
}

#[test]
fn a_commands_own_sorts_come_after_all_its_operands() {
    assert_eq!(error("a := mutate([1, \"p\", b])"), 1);
    assert_eq!(error("a := mutate([(1 + true), \"p\", b])"), 2);
    assert_eq!(error("a := mutate([b, \"p\", (1 + true)])"), 1);
    assert_eq!(error("a := mutate([1, \"p\", 1])"), 2);
    assert_eq!(error("a := mutate([true, \"p\", not 1])"), 2);
    assert_eq!(error("a := lookup([1, \"p\"])"), 2);
    assert_eq!(error("a := lookup([b, \"p\"])"), 1);
    assert_eq!(error("a := dispose(0)"), 2);
    assert_eq!(error("a := dispose(b)"), 1);
    assert_eq!(error("ifgoto 1 0"), 2);
    assert_eq!(error("ifgoto b 0"), 1);
    assert_eq!(error("return b"), 1);
    assert_eq!(error("fail (1 + true)"), 2);
    assert_eq!(error("a := main(b)"), 1);
    let row = only("o := uSym_0; ifgoto o 0; vanish;");
    assert_eq!(row.end, End::Error(2));
}

#[test]
fn return_and_fail_take_any_value() {
    for (e, v) in [("o", V::Loc(0)), ("true", V::Bool(true)), ("7", V::Num(7))] {
        assert_eq!(only(&format!("o := uSym_0; return {e};")).end, End::Returned(v));
        assert_eq!(only(&format!("o := uSym_0; fail {e};")).end, End::Failed(v));
    }
}

/// The terms an expression makes after two inputs (terms 0 and 1, `a` and
/// `c`) and a comparison (term 2, `t`), and its value.
fn made(expression: &str) -> (Vec<Term>, End) {
    let found = table(&format!(
        "a := iSym_0; c := iSym_1; t := (a < c); o := uSym_0; return {expression};"
    ));
    (found.terms[3..].to_vec(), found.rows[0].end)
}

#[test]
fn an_operator_on_a_term_makes_one_term() {
    use V::{Bool, BoolTerm, Num, NumTerm};
    for (expression, term, value) in [
        ("(a + 1)", (3, NumTerm(0), Num(1)), NumTerm(3)),
        ("(2 - a)", (4, Num(2), NumTerm(0)), NumTerm(3)),
        ("(a = c)", (5, NumTerm(0), NumTerm(1)), BoolTerm(3)),
        ("(a = 5)", (5, NumTerm(0), Num(5)), BoolTerm(3)),
        ("(5 < c)", (6, Num(5), NumTerm(1)), BoolTerm(3)),
        ("(t and true)", (7, BoolTerm(2), Bool(true)), BoolTerm(3)),
        ("(false or t)", (8, Bool(false), BoolTerm(2)), BoolTerm(3)),
        ("not t", (2, BoolTerm(2), V::Nothing), BoolTerm(3)),
        ("(true = t)", (5, Bool(true), BoolTerm(2)), BoolTerm(3)),
        // Nothing is simplified.
        ("(t and false)", (7, BoolTerm(2), Bool(false)), BoolTerm(3)),
        ("(a - a)", (4, NumTerm(0), NumTerm(0)), NumTerm(3)),
        ("(t = t)", (5, BoolTerm(2), BoolTerm(2)), BoolTerm(3)),
        ("(a + 0)", (3, NumTerm(0), Num(0)), NumTerm(3)),
        ("(a < 0)", (6, NumTerm(0), Num(0)), BoolTerm(3)),
        // The constant part is worked out at once.
        ("(a + (1 + 2))", (3, NumTerm(0), Num(3)), NumTerm(3)),
        ("(t or not true)", (8, BoolTerm(2), Bool(false)), BoolTerm(3)),
    ] {
        assert_eq!(made(expression), (vec![term], End::Returned(value)), "{expression}");
    }
}

#[test]
fn equality_across_sorts_is_the_constant_false() {
    for expression in ["(a = true)", "(t = 1)", "(a = t)", "(o = a)", "(t = o)", "(t = a)"] {
        let expected = (vec![], End::Returned(V::Bool(false)));
        assert_eq!(made(expression), expected, "{expression}");
    }
    // And it is a constant for what stands around it.
    assert_eq!(made("not (a = t)"), (vec![], End::Returned(V::Bool(true))));
}

#[test]
fn terms_stand_in_the_order_made_and_are_not_shared() {
    use V::{BoolTerm, Num, NumTerm};
    let (terms, end) = made("((a + 1) < (c - (a + 1)))");
    assert_eq!(
        terms,
        [
            (3, NumTerm(0), Num(1)),
            (3, NumTerm(0), Num(1)),
            (4, NumTerm(1), NumTerm(4)),
            (6, NumTerm(3), NumTerm(5)),
        ]
    );
    assert_eq!(end, End::Returned(BoolTerm(6)));
}

#[test]
fn terms_of_an_erring_command_stay_made() {
    let terms = |body: &str| {
        let found = table(&format!("a := iSym_0; {body} vanish;"));
        (found.terms.len(), found.rows[0].end)
    };
    assert_eq!(terms("a := ((a + 1) + true);"), (2, End::Error(2)));
    assert_eq!(terms("a := (a + true);"), (1, End::Error(2)));
    assert_eq!(terms("a := (true + (a + 1));"), (2, End::Error(2)));
    assert_eq!(terms("a := ((a + 1) + b);"), (2, End::Error(1)));
    assert_eq!(terms("a := (b + (a + 1));"), (1, End::Error(1)));
    assert_eq!(terms("a := not (a + 1);"), (2, End::Error(2)));
    assert_eq!(terms("a := mutate([(a + 1), \"p\", (a - 1)]);"), (3, End::Error(2)));
    assert_eq!(terms("a := dispose((a < 1));"), (2, End::Error(2)));
    assert_eq!(terms("ifgoto (a + 1) 0;"), (2, End::Error(2)));
}

#[test]
fn operators_on_terms_need_their_sorts_too() {
    for expression in ["(a + t)", "(t - a)", "(t < t)", "(a and t)", "(t or a)", "not a", "(o + a)"]
    {
        let expected = (vec![], End::Error(2));
        assert_eq!(made(expression), expected, "{expression}");
    }
}

#[test]
fn no_term_is_a_location() {
    for action in ["lookup([a, \"p\"])", "mutate([a, \"p\", 1])", "dispose(a)", "dispose((a = 1))"]
    {
        let found = table(&format!("a := iSym_0; v := {action}; vanish;"));
        assert_eq!(found.rows[0].end, End::Error(2), "{action}");
        assert_eq!(found.rows[0].steps, 2);
    }
}

/// Also where the branches are used up, and it is a step.
#[test]
fn a_number_term_is_no_condition() {
    for branches in [0, 1, 16] {
        let text = main("a := iSym_0; ifgoto a 0; vanish;");
        let row = explore(&text, STEPS, branches).unwrap().rows.remove(0);
        assert_eq!((row.end, row.steps, row.command), (End::Error(2), 2, 1));
        let text = main("a := iSym_0; ifgoto (b and (a < 1)) 0; vanish;");
        let row = explore(&text, STEPS, branches).unwrap().rows.remove(0);
        assert_eq!((row.end, row.steps, row.command), (End::Error(1), 2, 1));
    }
}

/// Terms mean the same numbers as the plain run's operators do.
#[test]
fn place_works_terms_out_modulo_and_unsigned() {
    let sum = main("a := iSym_0; c := iSym_1; ifgoto ((a + c) = 0) 4; fail 0; return 0;");
    assert_eq!(place(&sum, &[4_294_967_295, 1], STEPS, BRANCHES), Ok(0));
    assert_eq!(place(&sum, &[4_294_967_295, 2], STEPS, BRANCHES), Ok(1));
    let difference = main("a := iSym_0; c := iSym_1; ifgoto ((a - c) < 5) 4; fail 0; return 0;");
    assert_eq!(place(&difference, &[7, 3], STEPS, BRANCHES), Ok(0));
    assert_eq!(place(&difference, &[3, 7], STEPS, BRANCHES), Ok(1));
    let logic = main(
        "a := iSym_0; ifgoto ((not (a = 1) and (a < 3)) or ((a = 9) = true)) 3; fail 0; return 0;",
    );
    for (input, row) in [(0, 0), (1, 1), (2, 0), (3, 1), (9, 0), (u32::MAX, 1)] {
        assert_eq!(place(&logic, &[input], STEPS, BRANCHES), Ok(row), "{input}");
    }
}
