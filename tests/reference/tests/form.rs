//! The form of a text: readings 1 to 12, both sides of each rule.

mod common;

use common::*;

/// Texts of the right form; a later refusal may still meet them.
fn right(texts: &[&str]) {
    for text in texts {
        assert_ne!(check(text), 4, "{text}");
    }
}

fn faults(texts: &[&str]) {
    for text in texts {
        assert_eq!(check(text), 4, "{text}");
    }
}

fn right_commands(commands: &[&str]) {
    for command in commands {
        right(&[&main(&format!("{command}; vanish;"))]);
    }
}

fn faulty_commands(commands: &[&str]) {
    for command in commands {
        faults(&[&main(&format!("{command}; vanish;"))]);
    }
}

fn right_expressions(expressions: &[&str]) {
    for e in expressions {
        right_commands(&[&format!("v := {e}"), &format!("return {e}"), &format!("ifgoto {e} 0")]);
        right_commands(&[&format!("v := f({e})"), &format!("v := mutate([o, \"p\", {e}])")]);
    }
}

fn faulty_expressions(expressions: &[&str]) {
    for e in expressions {
        faulty_commands(&[&format!("fail {e}"), &format!("v := lookup([{e}, \"p\"])")]);
        faulty_commands(&[&format!("v := f({e})"), &format!("ifgoto {e} 0")]);
    }
}

#[test]
fn only_two_runs_need_white_space_between_them() {
    right_commands(&["ifgoto(a<b)5", "x:=1", "return(x+1)", "x:=not(a=b)", "fail((a=b)and(c=d))"]);
    right_commands(&["ifgoto not a 5", "ifgoto not(a=b)5", "x:=f(1)", "x:=mutate([o,\"p\",1])"]);
    faulty_commands(&["ifgoto true5", "x := (1and 2)", "x := notnot x", "returnx", "ifgoto1 0"]);
    right_commands(&["x := nottrue", "x := (a and(b or c))", "x := ((a = b)and c)"]);
    assert_eq!(check("main(x){vanish;}f(x){vanish;}"), 0);
    assert_eq!(check("\r\n\tmain ( x ) { vanish ; } f\n(\nx\n)\n{\nvanish\n;\n}\t\r\n "), 0);
}

#[test]
fn assign_is_one_token_and_numbers_have_no_sign() {
    faulty_commands(&["a : = 1", "a :\n= 1", "a = 1", "a : 1", "a :== 1", "a := := 1"]);
    right_commands(&["a := (a-1)", "a := (a- 1)", "a := (a -1)", "a:=(1-1)"]);
    faulty_expressions(&["-1", "(a - -1)", "+1", "(a + +1)", "(a -)", "(- a)"]);
}

#[test]
fn white_space_is_space_tab_cr_lf_only() {
    for byte in 0..=255u8 {
        let white = matches!(byte, b' ' | b'\t' | b'\r' | b'\n');
        let expected = if white { 0 } else { 4 };
        let before = [&[byte], &b"main(x){vanish;}"[..]].concat();
        let after = [&b"main(x){vanish;}"[..], &[byte]].concat();
        let inside = [&b"main(x){"[..], &[byte], &b"vanish;}"[..]].concat();
        assert_eq!(reference::check(&after), expected, "{byte}");
        // A letter or digit before a word becomes part of it.
        let joins = byte.is_ascii_alphanumeric() || byte == b'_';
        if joins {
            assert_ne!(reference::check(&before), 0, "{byte}");
        } else {
            assert_eq!(reference::check(&before), expected, "{byte}");
        }
        assert_eq!(reference::check(&inside), expected, "{byte}");
    }
    faulty_commands(&["vanish // end", "vanish /* end */", "# vanish", "a := 1 \u{b}", "a := é"]);
}

#[test]
fn properties_have_no_first_place_rule() {
    for property in ["_", "_a", "0a", "00", "ifgoto", "a", "Z9_", "sixteen_letters_", "uSym_x"] {
        right_commands(&[&format!("v := lookup([o, \"{property}\"])")]);
        right_commands(&[&format!("v := mutate([o,\"{property}\",1])")]);
    }
    for property in ["", " ", "a b", " a", "a ", "a-b", "é", "seventeen_letters", "a\nb"] {
        faulty_commands(&[&format!("v := lookup([o, \"{property}\"])")]);
    }
    faulty_commands(&["v := lookup([o, p])", "v := lookup([o, 'p'])", "v := lookup([o, \"p])"]);
    faulty_commands(&["v := lookup([o, p\"])", "v := \"p\"", "return \"p\"", "ifgoto true \"p\""]);
    faulty_commands(&["v := lookup([o, \"p\" \"q\"])", "v := lookup([\"p\", \"p\"])"]);
}

#[test]
fn case_counts() {
    // "p" and "P" are two properties, x and X two variables.
    let row = only("o := uSym_0; X := mutate([o, \"P\", 1]); X := mutate([o, \"p\", 2]); vanish;");
    assert_eq!(row.cells, [(0, 0, V::Num(1)), (0, 1, V::Num(2))]);
    assert_eq!(row.variables, [V::Num(0), V::Loc(0), V::Bool(true)]);
    right_commands(&["True := NOT", "Return := Ifgoto", "v := Lookup(1)", "usym_0 := USYM_0"]);
    assert_eq!(check("Main(x){ vanish; }"), 6);
}

#[test]
fn a_run_is_never_split() {
    faulty_expressions(&["seventeen_letters", "_a", "_", "5a", "5_", "00", "01", "4294967296"]);
    faulty_expressions(&["99999999999999999999999999", "0x1", "1true", "10000000000"]);
    right_expressions(&["sixteen_letters_", "a_", "a5", "A", "0", "10", "4294967295", "a__"]);
    faults(&["_main(x){vanish;}", "main(_x){vanish;}", "main(5){vanish;}", "5(x){vanish;}"]);
    faults(&["seventeen_letters(x){vanish;}", "main(seventeen_letters){vanish;}"]);
    right(&["sixteen_letters_(sixteen_letters_){vanish;}"]);
    faulty_commands(&["seventeen_letters := 1", "_a := 1", "5a := 1", "5 := 1", "ifgoto true 00"]);
    faulty_commands(&["ifgoto true 01", "ifgoto true a", "ifgoto true", "ifgoto true (0)"]);
    assert_eq!(check(main("ifgoto true 4294967296; vanish;")), 4);
    assert_eq!(check(main("ifgoto true 4294967295; vanish;")), 7);
}

#[test]
fn sites() {
    for j in ["0", "1", "9", "10", "99", "100", "255"] {
        right_commands(&[&format!("a := uSym_{j}"), &format!("a := iSym_{j}")]);
    }
    for j in ["256", "00", "01", "", "x", "1x", " 0", "_1", "1_", "1000", "4294967296", "-1"] {
        faulty_commands(&[&format!("a := uSym_{j}"), &format!("a := iSym_{j}")]);
    }
    for name in ["uSym", "iSym", "uSymx", "iSym0", "usym_0", "xuSym_0", "ISym_0", "u_Sym_0"] {
        right_expressions(&[name]);
        right(&[&format!("{name}({name}){{ {name} := {name}({name}); vanish; }}")]);
    }
    // `uSym` is a free name, so this is a call of it, of which there is none.
    assert_eq!(check(main("a := uSym(0); vanish;")), 6);
    assert_eq!(check("uSym(x){ return x; } main(x){ a := uSym(0); vanish; }"), 0);
    // Sites are commands: no targets, operands, names or parameters.
    faulty_commands(&["uSym_0 := 1", "iSym_0", "ifgoto uSym_0 0", "a := uSym_0(1)"]);
    faulty_commands(&["a := not iSym_0", "a := f(iSym_0)", "a := (iSym_0)", "uSym_x := 1"]);
    faulty_expressions(&["iSym_0", "(a + uSym_1)", "not iSym_3"]);
    faults(&["uSym_0(x){ vanish; }", "main(iSym_0){ vanish; }", "main(uSym_){ vanish; }"]);
}

#[test]
fn reserved_words_are_no_names() {
    let words = [
        "ifgoto", "return", "fail", "vanish", "true", "false", "not", "and", "or", "lookup",
        "mutate", "dispose",
    ];
    for word in words {
        faults(&[&format!("{word}(x){{ vanish; }}"), &format!("main({word}){{ vanish; }}")]);
        faulty_commands(&[&format!("{word} := 1"), &format!("a := {word}(1 2)")]);
        if !["true", "false"].contains(&word) {
            faulty_commands(&[&format!("a := ({word} + {word})"), &format!("return {word}")]);
        }
        // With one letter more it is a name as any other.
        right(&[&format!("{word}_({word}1){{ x{word} := {word}_({word}1); vanish; }}")]);
    }
    faulty_commands(&["a := true(1)", "a := ifgoto(1)", "a := not(1)", "a := and(1)"]);
}

#[test]
fn brackets_stand_around_an_operator_only() {
    faulty_expressions(&["(a)", "not(a)", "(x)", "((x))", "(not x)", "()", "(a + b + c)", "a + b"]);
    faulty_expressions(&[
        "(a + b",
        "a + b)",
        "(a + (b)",
        "(a b)",
        "(a + )",
        "(+)",
        "not",
        "((a + b))",
    ]);
    right_expressions(&["(not x and y)", "not not x", "(not x = not y)", "not (a = b)"]);
    faulty_commands(&["return(x)", "v := f((x))", "v := f()", "v := f(x, y)", "v := f(x) + 1"]);
    faulty_expressions(&["(a * b)", "(a > b)", "(a == b)", "(a <= b)", "(a && b)", "(a AND b)"]);
    faulty_expressions(&["(a nor b)", "(a not b)", "(a true b)", "(a := b)", "[a]", "{a}"]);
}

#[test]
fn actions_have_their_own_forms_only() {
    right_commands(&["v := lookup([e, \"p\"])", "v := mutate([e, \"p\", e])", "v := dispose(e)"]);
    right_commands(&[
        "v := lookup([(a + b), \"p\"])",
        "v := dispose(not a)",
        "v := lookup([1,\"p\"])",
    ]);
    faulty_commands(&["v := lookup(x)", "v := lookup([x])", "v := lookup(x, \"p\")"]);
    faulty_commands(&[
        "v := lookup[x, \"p\"]",
        "v := lookup([x \"p\"])",
        "v := lookup([\"p\", x])",
    ]);
    faulty_commands(&["v := lookup([x, \"p\", 1])", "v := lookup([x, \"p\",])", "v := lookup"]);
    faulty_commands(&["v := mutate([o, \"p\"])", "v := mutate([o, 1, \"p\"])", "v := mutate(o)"]);
    faulty_commands(&["v := mutate([o, \"p\", 1, 2])", "v := mutate([o, \"p\", \"q\"])"]);
    faulty_commands(&[
        "v := dispose([o])",
        "v := dispose(o, \"p\")",
        "v := dispose()",
        "dispose(o)",
    ]);
    // Calls and actions are commands, not expressions.
    faulty_expressions(&["f(x)", "(f(x) + 1)", "not f(x)", "lookup([o, \"p\"])", "dispose(o)"]);
    faulty_commands(&["f(x)", "return f(x)", "v := f(f(x))", "ifgoto f(x) 0", "v := f(x)(x)"]);
}

#[test]
fn three_separate_name_spaces() {
    let text = "p(p){ p := p(p); p := lookup([p, \"p\"]); return p; } main(main){ return main; }";
    assert_eq!(check(text), 0);
}

#[test]
fn procedures_and_commands() {
    faults(&["", " ", "\n\t\r ", ";", "main", "main(x)", "main(x){", "main(x){vanish;"]);
    faults(&[
        "main(x){}",
        "main(x){vanish}",
        "main(x){;}",
        "main(x){vanish;;}",
        "main(x){vanish;};",
    ]);
    faults(&["main(x){;vanish;}", "main{vanish;}", "main(){vanish;}", "main(x,y){vanish;}"]);
    faults(&["main x {vanish;}", "main[x]{vanish;}", "main(x)(vanish;)", "main(x){vanish;}}"]);
    faults(&["main(x){vanish;}f", "main(x){vanish;}f(x){}", "(x){vanish;}", "main(x){{vanish;}}"]);
    faults(&["main(x){0: vanish;}", "proc main(x){vanish;}", "main(x) vanish;", "vanish;"]);
    faulty_commands(&[
        "vanish 1",
        "vanish x",
        "return",
        "fail",
        "return 1 2",
        "ifgoto 5",
        "goto 5",
    ]);
    faulty_commands(&["a", "a :=", ":= 1", "a := b := c", "ifgoto a b 0", "true", "1", "(a + b)"]);
    faulty_commands(&["ifgoto true -1", "ifgoto true 0 0", "return return", "a := return 1"]);
    right_commands(&["ifgoto 1 0", "ifgoto a 0", "fail true", "return o", "a := a"]);
}

#[test]
fn every_start_of_a_text_but_the_whole_is_a_fault() {
    let text = "main(x){ a := lookup([not x, \"p\"]); ifgoto (a < 10) 0; b := f((a and b)); \
                c := uSym_10; fail a; }";
    assert_eq!(check(text), 6);
    for length in 0..text.len() {
        faults(&[&text[..length]]);
    }
}

#[test]
fn depth() {
    let nots = |count: usize| "not ".repeat(count);
    right_expressions(&[&format!("{}x", nots(7)), &format!("{}true", nots(7))]);
    faulty_expressions(&[&format!("{}x", nots(8)), &format!("{}1", nots(8))]);
    // Each operator is one more than the deeper of its operands.
    let left = |count: usize| (0..count).fold("x".to_string(), |e, _| format!("({e} + 1)"));
    let right_deep = |count: usize| (0..count).fold("x".to_string(), |e, _| format!("(1 + {e})"));
    right_expressions(&[&left(7), &right_deep(7), &format!("({} + {})", left(6), right_deep(6))]);
    faulty_expressions(&[&left(8), &right_deep(8), &format!("({} + {})", left(6), right_deep(7))]);
    right_expressions(&[&format!("not {}", left(6)), &format!("(a = {}b)", nots(6))]);
    faulty_expressions(&[&format!("not {}", left(7)), &format!("(a = {}b)", nots(7))]);
    // A command's expressions are counted each by itself.
    right_commands(&[&format!("v := mutate([{}, \"p\", {}])", left(7), right_deep(7))]);
    // The deepest full tree can be worked out.
    let full = (0..7).fold("1".to_string(), |e, _| format!("({e} + {e})"));
    assert_eq!(only(&format!("return {full};")).end, End::Returned(V::Num(128)));
}
