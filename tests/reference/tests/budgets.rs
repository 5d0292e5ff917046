//! Step and branch budgets, and where a path is cut: readings 27 to 29.

mod common;

use common::*;

const CALL: &str = "f(z){ z := 1; return z; } main(x){ y := f(4); y := (y + 1); return y; }";

#[test]
fn a_cut_stands_at_the_next_command() {
    // Before anything, in the called procedure, after the return, at the end.
    let places = [
        (1, 0, vec![V::Num(0), V::Nothing]),
        (0, 0, vec![V::Num(4)]),
        (0, 1, vec![V::Num(1)]),
        (1, 1, vec![V::Num(0), V::Num(1)]),
        (1, 2, vec![V::Num(0), V::Num(2)]),
    ];
    for (steps, (procedure, command, variables)) in places.into_iter().enumerate() {
        let row = plain(CALL, &[], steps as u32).unwrap();
        assert_eq!((row.end, row.steps), (End::CutSteps, steps as u32));
        assert_eq!((row.at(), &row.variables), ((procedure, command), &variables));
        if steps > 0 {
            assert_eq!(explore(CALL, steps as u32, 0).unwrap().rows, [row]);
        }
    }
}

#[test]
fn a_run_that_ends_on_its_last_step_has_ended() {
    let row = plain(CALL, &[], 5).unwrap();
    assert_eq!((row.end, row.steps, row.at()), (End::Returned(V::Num(2)), 5, (1, 2)));
    assert_eq!(explore(CALL, 5, 0).unwrap().rows, [row]);
    for (body, end) in [
        ("x := 1; fail x;", End::Failed(V::Num(1))),
        ("x := 1; vanish;", End::Vanished),
        ("x := 1; x := y; vanish;", End::Error(1)),
    ] {
        let row = plain(main(body), &[], 2).unwrap();
        assert_eq!((row.end, row.steps, row.command), (end, 2, 1));
        assert_eq!(explore(main(body), 2, 16).unwrap().rows[0].end, end);
        let row = plain(main(body), &[], 1).unwrap();
        assert_eq!((row.end, row.steps, row.command), (End::CutSteps, 1, 1));
    }
}

#[test]
fn after_a_jump_the_next_command_is_where_it_went() {
    let body = |truth| main(&format!("ifgoto {truth} 2; vanish; vanish;"));
    assert_eq!(plain(body("true"), &[], 1).unwrap().command, 2);
    assert_eq!(plain(body("false"), &[], 1).unwrap().command, 1);
}

/// With no step left nothing is evaluated: no error, no term, no branch.
#[test]
fn steps_are_tested_first() {
    let found = explore(main("a := iSym_0; return (a + 1);"), 1, 16).unwrap();
    assert_eq!((found.rows[0].end, found.terms.len()), (End::CutSteps, 1));
    let found = explore(main("x := 1; x := b; vanish;"), 1, 16).unwrap();
    assert_eq!((found.rows[0].end, found.rows[0].command), (End::CutSteps, 1));
    // A jump on a term without steps or branches is cut for steps.
    let text = main("a := iSym_0; ifgoto (a < 5) 0; vanish;");
    let found = explore(&text, 1, 0).unwrap();
    assert_eq!((found.rows[0].end, found.terms.len()), (End::CutSteps, 1));
    let found = explore(&text, 2, 0).unwrap();
    assert_eq!((found.rows[0].end, found.terms.len()), (End::CutBranches, 2));
    assert_eq!((found.rows[0].steps, found.rows[0].command), (1, 1));
}

/// Both branches of a jump on the last step are cut where they would go on.
#[test]
fn a_branch_on_the_last_step() {
    let found = explore(main("a := iSym_0; ifgoto (a < 5) 3; vanish; vanish;"), 2, 1).unwrap();
    let rows: Vec<_> = found.rows.iter().map(|r| (r.end, r.steps, r.command)).collect();
    assert_eq!(rows, [(End::CutSteps, 2, 3), (End::CutSteps, 2, 2)]);
    assert_eq!(found.rows[0].conditions, [(1, true)]);
    assert_eq!(found.rows[1].conditions, [(1, false)]);
}

#[test]
fn no_branches_at_all() {
    let text = main("a := iSym_0; b := (a < 5); ifgoto (b and true) 0; vanish;");
    let found = explore(&text, STEPS, 0).unwrap();
    assert_eq!(found.rows.len(), 1);
    let row = &found.rows[0];
    // The jump keeps its term and is no step.
    assert_eq!((row.end, row.steps, row.command), (End::CutBranches, 2, 2));
    assert_eq!((found.terms.len(), row.conditions.len()), (3, 0));
    // The plain run knows no branches.
    assert_eq!(plain(&text, &[5], STEPS).unwrap().end, End::Vanished);
}

/// A jump on a constant takes no condition and is never cut for branches.
#[test]
fn constant_jumps_are_free() {
    let text = main("ifgoto (x = 0) 1; ifgoto not true 0; ifgoto (x = true) 0; return 5;");
    let found = explore(&text, STEPS, 0).unwrap();
    assert_eq!(found.rows[0].end, End::Returned(V::Num(5)));
    assert_eq!((found.rows[0].steps, found.rows[0].conditions.len()), (4, 0));
}

#[test]
fn a_jump_to_the_very_next_command_branches() {
    let found = table("a := iSym_0; ifgoto (a = a) 2; return a;");
    assert_eq!(found.rows.len(), 2);
    assert_eq!(found.rows[0].conditions, [(1, true)]);
    assert_eq!(found.rows[1].conditions, [(1, false)]);
    assert_eq!(found.rows[0].at(), found.rows[1].at());
}

/// The budget is each path's own: the second branch may branch as often.
#[test]
fn branches_are_counted_on_each_path() {
    let body = "a := iSym_0; b := (a < 5); ifgoto b 4; x := 1; ifgoto b 5; ifgoto b 6; return x;";
    let found = explore(main(body), STEPS, 2).unwrap();
    let rows: Vec<_> = found.rows.iter().map(|r| (r.end, r.conditions.len(), r.command)).collect();
    assert_eq!(rows, [(End::CutBranches, 2, 5); 4]);
    assert_eq!(found.rows[3].variables[0], V::Num(1));
    let found = explore(main(body), STEPS, 3).unwrap();
    assert_eq!(found.rows.len(), 8);
    assert!(found.rows.iter().all(|row| matches!(row.end, End::Returned(_))));
}

/// Sixteen conditions fill a row's part for them.
#[test]
fn sixteen_conditions() {
    let body = "i := iSym_0; b := (i < 5); ifgoto not b 5; x := (x + 1); ifgoto true 2; return x;";
    let found = table(body);
    // 16 paths that leave the loop, and the one that is cut in it. Leaving is
    // the true branch, so that the shortest comes first.
    assert_eq!((found.rows.len(), found.terms.len()), (17, 19));
    let last = &found.rows[16];
    assert_eq!((last.end, last.conditions.len(), last.command), (End::CutBranches, 16, 2));
    assert_eq!((last.steps, last.variables[0]), (50, V::Num(16)));
    assert!(last.conditions.iter().all(|&(_, truth)| !truth));
    assert_eq!((found.rows[0].end, found.rows[0].steps), (End::Returned(V::Num(0)), 4));
    let first_conditions: Vec<_> = last.conditions.iter().map(|&(term, _)| term).collect();
    assert_eq!(first_conditions, (2..18).collect::<Vec<u32>>());
}
