//! Refusals 9 and 10, and which of them comes first: reading 16.

mod common;

use common::*;

/// `count` jumps on `condition` from command `at`, each to the very next.
fn jumps(at: usize, count: usize, condition: &str) -> String {
    (at..at + count).map(|n| format!("ifgoto {condition} {}; ", n + 1)).collect()
}

/// Seven terms in one expression, the deepest there is.
const SEVEN: &str = "a := (((((((a + a) + a) + a) + a) + a) + a) + a); ";

/// A pool with exactly 2,048 terms: 1 + 292 * 7 + 3.
fn full_pool(last: &str) -> String {
    let again = "x := (x + 1); ifgoto (x < 292) 1; ";
    main(&format!("a := iSym_0; {SEVEN}{again}a := (((a + 1) + 1) + 1); {last} vanish;"))
}

#[test]
fn two_thousand_and_forty_eight_terms() {
    let found = explore(full_pool("return a;"), STEPS, BRANCHES).unwrap();
    assert_eq!((found.rows.len(), found.terms.len()), (1, 2_048));
    assert_eq!(found.terms[2_047], (3, V::NumTerm(2_046), V::Num(1)));
    assert_eq!(found.rows[0].end, End::Returned(V::NumTerm(2_047)));
    assert_eq!(place(full_pool("return a;"), &[3], STEPS, BRANCHES), Ok(0));
    for last in ["return (a + 1);", "ifgoto (a < 1) 0;", "a := iSym_1;", "ifgoto not (a = a) 0;"] {
        assert_eq!(explore(full_pool(last), STEPS, BRANCHES), Err(10), "{last}");
        assert_eq!(place(full_pool(last), &[], STEPS, BRANCHES), Err(10));
    }
    // What makes no term goes through, even a jump across sorts.
    for last in ["ifgoto (a = true) 0;", "a := (1 + 1);", "a := uSym_0;", "fail a;"] {
        assert!(explore(full_pool(last), STEPS, BRANCHES).is_ok(), "{last}");
    }
}

/// 64 rows and a waiting path that has made exactly the last of 2,048 terms
/// when it comes to `last`, after 852 steps. Terms: 2 before the branch, 63 in
/// the rows, 283 * 7 + 2 on the waiting path.
fn full_both(last: &str) -> String {
    main(&format!(
        "a := iSym_0; ifgoto (a < 5) 7; {SEVEN}x := (x + 1); ifgoto (x < 283) 2; \
         a := ((a + 1) + 1); {last} {}return 0;",
        jumps(7, 6, "(a < 5)")
    ))
}

#[test]
fn a_command_makes_its_terms_before_it_finishes_a_row() {
    for (last, refusal) in [
        ("return (a + 1);", 10),
        ("return a;", 9),
        ("fail (a + 1);", 10),
        ("fail a;", 9),
        ("vanish;", 9),
        // The operator that errs makes no term; those before it do.
        ("a := ((a + 1) + true);", 10),
        ("a := (a + true);", 9),
        ("a := (b + (a + 1));", 9),
        ("a := ((a + 1) + b);", 10),
        ("a := iSym_0;", 10),
        // Number terms as conditions and as objects are error 2.
        ("ifgoto (a + 1) 0;", 10),
        ("ifgoto a 0;", 9),
        ("a := lookup([(a + 1), \"p\"]);", 10),
        ("a := lookup([a, \"p\"]);", 9),
    ] {
        assert_eq!(explore(full_both(last), STEPS, BRANCHES), Err(refusal), "{last}");
    }
}

#[test]
fn a_cut_for_steps_makes_no_term_first() {
    let text = full_both("return (a + 1);");
    assert_eq!(explore(&text, 852, BRANCHES), Err(9));
    assert_eq!(explore(&text, 853, BRANCHES), Err(10));
}

/// The 65th path has seven conditions, as has each of the 64 before it.
#[test]
fn a_jump_to_be_cut_for_branches_makes_its_terms_first() {
    let text = |last: &str| {
        main(&format!(
            "a := iSym_0; b := (a < 5); ifgoto b 14; {}{SEVEN}x := (x + 1); \
             ifgoto (x < 292) 9; a := ((a + 1) + 1); {last} {}return 0;",
            jumps(3, 6, "b"),
            jumps(14, 6, "b")
        ))
    };
    assert_eq!(explore(text("ifgoto (a < 5) 0;"), STEPS, 7), Err(10));
    assert_eq!(explore(text("ifgoto b 0;"), STEPS, 7), Err(9));
}

/// 64 rows with a branch waiting is not yet 9: the waiting path fills the pool
/// before it would finish a row.
#[test]
fn a_full_table_is_no_refusal_by_itself() {
    assert_eq!(explore(full_both("ifgoto true 2;"), STEPS, BRANCHES), Err(10));
}

#[test]
fn sixty_four_rows() {
    let body = |count| format!("a := iSym_0; b := (a < 5); {}return a;", jumps(2, count, "b"));
    let found = table(&body(6));
    assert_eq!((found.rows.len(), found.terms.len()), (64, 2));
    assert_eq!(found.rows[0].conditions, vec![(1, true); 6]);
    assert_eq!(found.rows[63].conditions, vec![(1, false); 6]);
    // True first on every level: the row's number read as six binary digits.
    for (n, row) in found.rows.iter().enumerate() {
        let expected: Vec<_> = (0..6).map(|bit| (1, n >> (5 - bit) & 1 == 0)).collect();
        assert_eq!(row.conditions, expected);
    }
    assert_eq!(explore(main(&body(7)), STEPS, BRANCHES), Err(9));
    assert_eq!(place(main(&body(7)), &[], STEPS, BRANCHES), Err(9));
    // No branch is dropped for being impossible, but only two are possible.
    assert_eq!(place(main(&body(6)), &[4], STEPS, BRANCHES), Ok(0));
    assert_eq!(place(main(&body(6)), &[5], STEPS, BRANCHES), Ok(63));
}

/// However the 65th path ends, its end is a row.
#[test]
fn every_outcome_is_a_row() {
    for last in ["return 0;", "fail 0;", "vanish;", "a := nobody;", "ifgoto true 2;"] {
        let text = |count| {
            let rows = jumps(4, count, "(a < 6)");
            main(&format!("a := iSym_0; ifgoto (a < 5) 4; {last} vanish; {rows}return 0;"))
        };
        let found = explore(text(5), STEPS, BRANCHES).unwrap();
        assert_eq!(found.rows.len(), 33, "{last}");
        assert_eq!(explore(text(6), STEPS, BRANCHES), Err(9), "{last}");
    }
}
