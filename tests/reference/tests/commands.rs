//! Commands, frames and memory: readings 23 to 26.

mod common;

use common::*;

#[test]
fn main_starts_with_its_parameter_at_nought() {
    let row = only_of("main(start){ return start; }");
    assert_eq!((row.end, row.variables), (End::Returned(V::Num(0)), vec![V::Num(0)]));
}

#[test]
fn jumps_on_constants() {
    // True goes to n, false to the next command; backwards too.
    assert_eq!(only("ifgoto true 2; return 1; return 2;").end, End::Returned(V::Num(2)));
    assert_eq!(only("ifgoto false 2; return 1; return 2;").end, End::Returned(V::Num(1)));
    let row = only("x := (x + 1); ifgoto (x < 3) 0; return x;");
    assert_eq!((row.end, row.steps), (End::Returned(V::Num(3)), 7));
}

#[test]
fn mutate_and_dispose_give_true() {
    let row = only("o := uSym_0; m := mutate([o, \"p\", 5]); d := dispose(o); vanish;");
    assert_eq!(row.variables, [V::Num(0), V::Loc(0), V::Bool(true), V::Bool(true)]);
    assert_eq!(row.cells, []);
    // Also where there is nothing to dispose of.
    let row = only("o := uSym_0; d := dispose(o); return d;");
    assert_eq!(row.end, End::Returned(V::Bool(true)));
}

#[test]
fn cells_hold_all_sorts() {
    let row = only(
        "o := uSym_9; m := mutate([o, \"a\", 5]); m := mutate([o, \"b\", true]); \
         m := mutate([o, \"c\", o]); i := iSym_7; m := mutate([o, \"d\", i]); \
         m := mutate([o, \"e\", (i < 5)]); l := lookup([o, \"c\"]); return l;",
    );
    assert_eq!(row.end, End::Returned(V::Loc(0)));
    assert_eq!(
        row.cells,
        [
            (0, 0, V::Num(5)),
            (0, 1, V::Bool(true)),
            (0, 2, V::Loc(0)),
            (0, 3, V::NumTerm(0)),
            (0, 4, V::BoolTerm(1)),
        ]
    );
}

#[test]
fn a_cell_is_of_its_location_and_property() {
    let setup = "o := uSym_0; l := uSym_0; m := mutate([o, \"p\", 1]); ";
    assert_eq!(only(&format!("{setup} v := lookup([l, \"p\"]); vanish;")).end, End::Error(3));
    assert_eq!(only(&format!("{setup} v := lookup([o, \"q\"]); vanish;")).end, End::Error(3));
    // Two names of one location.
    let row = only(&format!("{setup} l := o; v := lookup([l, \"p\"]); return v;"));
    assert_eq!(row.end, End::Returned(V::Num(1)));
    // Writing again replaces.
    let row = only(&format!("{setup} m := mutate([o, \"p\", 2]); vanish;"));
    assert_eq!(row.cells, [(0, 0, V::Num(2))]);
}

#[test]
fn cells_are_in_order_of_location_then_property() {
    // "z" stands first in the text, though in a procedure never called.
    let row = only_of(
        "f(x){ v := lookup([x, \"z\"]); vanish; } \
         main(x){ a := uSym_0; b := uSym_0; c := uSym_0; \
         m := mutate([c, \"m\", 1]); m := mutate([a, \"b\", 2]); m := mutate([c, \"z\", 3]); \
         m := mutate([b, \"b\", 4]); m := mutate([a, \"m\", 5]); m := mutate([a, \"z\", 6]); \
         vanish; }",
    );
    assert_eq!(
        row.cells,
        [
            (0, 0, V::Num(6)),
            (0, 1, V::Num(5)),
            (0, 2, V::Num(2)),
            (1, 2, V::Num(4)),
            (2, 0, V::Num(3)),
            (2, 1, V::Num(1)),
        ]
    );
}

#[test]
fn dispose_removes_all_cells_of_one_location() {
    let setup = "a := uSym_0; b := uSym_0; c := uSym_0; \
         m := mutate([a, \"p\", 1]); m := mutate([b, \"p\", 2]); m := mutate([b, \"q\", 3]); \
         m := mutate([c, \"q\", 4]); ";
    let cells = |end: &str| only(&format!("{setup} {end} vanish;")).cells;
    let (a, b, c) = ((0, 0, V::Num(1)), (1, 0, V::Num(2)), (2, 1, V::Num(4)));
    assert_eq!(cells("m := dispose(b);"), [a, c]);
    assert_eq!(cells("m := dispose(a);"), [b, (1, 1, V::Num(3)), c]);
    assert_eq!(cells("m := dispose(c);"), [a, b, (1, 1, V::Num(3))]);
    assert_eq!(cells("m := dispose(b); m := dispose(b);"), [a, c]);
    assert_eq!(cells("m := dispose(b); m := mutate([b, \"q\", 7]);"), [a, (1, 1, V::Num(7)), c]);
}

/// Fills `count` cells, three for each location.
fn three_each(locations: u32, last: &str) -> String {
    format!(
        "o := uSym_0; m := mutate([o, \"p\", x]); m := mutate([o, \"q\", x]); \
         m := mutate([o, \"r\", x]); x := (x + 1); ifgoto (x < {locations}) 0; {last}"
    )
}

#[test]
fn thirty_two_cells_at_one_time() {
    let two_more = "l := uSym_0; m := mutate([l, \"p\", 1]); m := mutate([l, \"q\", 2]); ";
    let full = three_each(10, two_more);
    assert_eq!(only(&format!("{full} vanish;")).cells.len(), 32);
    let row = only(&format!("{full} n := mutate([l, \"r\", 3]); vanish;"));
    assert_eq!((row.end, row.cells.len(), row.command), (End::Error(7), 32, 9));
    assert_eq!(row.variables.last(), Some(&V::Nothing));
    // Its sorts are tested before the room.
    let row = only(&format!("{full} n := mutate([1, \"r\", 3]); vanish;"));
    assert_eq!(row.end, End::Error(2));
    // A cell that is there may be written, and removed room is used again.
    let row = only(&format!("{full} m := mutate([l, \"p\", 9]); vanish;"));
    assert_eq!((row.end, row.cells[30]), (End::Vanished, (10, 0, V::Num(9))));
    let row = only(&format!(
        "{full} m := dispose(o); m := mutate([l, \"r\", 3]); m := mutate([o, \"p\", 8]); \
         m := mutate([o, \"r\", 9]); vanish;"
    ));
    assert_eq!((row.end, row.cells.len()), (End::Vanished, 32));
    assert_eq!(row.cells[27..29], [(9, 0, V::Num(8)), (9, 2, V::Num(9))]);
    assert_eq!(row.cells[31], (10, 2, V::Num(3)));
}

#[test]
fn sixteen_inputs() {
    let body = |count| format!("i := iSym_0; x := (x + 1); ifgoto (x < {count}) 0; return i;");
    let found = table(&body(16));
    assert_eq!((found.rows[0].inputs, found.terms.len()), (16, 16));
    assert_eq!(found.rows[0].end, End::Returned(V::NumTerm(15)));
    let found = table(&body(17));
    let row = &found.rows[0];
    // The seventeenth makes no term and is not read.
    assert_eq!((row.end, row.inputs, found.terms.len()), (End::Error(5), 16, 16));
    assert_eq!((row.steps, row.command), (49, 0));
    let inputs: Vec<u32> = (100..116).collect();
    assert_eq!(plain(main(&body(16)), &inputs, STEPS).unwrap().end, End::Returned(V::Num(115)));
    let row = plain(main(&body(17)), &inputs, STEPS).unwrap();
    assert_eq!((row.end, row.inputs, row.variables[1]), (End::Error(5), 16, V::Num(115)));
}

#[test]
fn sixteen_locations() {
    let body = |count| {
        format!("o := uSym_0; m := dispose(o); x := (x + 1); ifgoto (x < {count}) 0; return o;")
    };
    assert_eq!(only(&body(16)).end, End::Returned(V::Loc(15)));
    // Dispose gives none back.
    let row = only(&body(17));
    assert_eq!((row.end, row.steps, row.command), (End::Error(6), 65, 0));
    assert_eq!(row.variables, [V::Num(16), V::Loc(15), V::Bool(true)]);
}

#[test]
fn the_site_changes_nothing() {
    let row = only("a := uSym_255; b := uSym_255; c := uSym_3; i := iSym_9; j := iSym_9; vanish;");
    assert_eq!(
        row.variables,
        [V::Num(0), V::Loc(0), V::Loc(1), V::Loc(2), V::NumTerm(0), V::NumTerm(1)]
    );
    assert_eq!(row.inputs, 2);
}

#[test]
fn call_and_return_are_a_step_each() {
    let row = only_of("main(x){ y := f(4); return (y + x); } f(z){ z := (z + 1); return z; }");
    assert_eq!((row.end, row.steps, row.at()), (End::Returned(V::Num(5)), 4, (0, 1)));
    assert_eq!(row.variables, [V::Num(0), V::Num(5)]);
}

#[test]
fn a_frame_binds_its_parameter_only() {
    let row = only_of("main(x){ y := 1; y := f(4); vanish; } f(z){ return (z + y); }");
    assert_eq!((row.end, row.steps, row.at()), (End::Error(1), 3, (1, 0)));
    assert_eq!(row.variables, [V::Num(4), V::Nothing]);
    // A frame opened again is as new.
    let text = "f(z){ ifgoto (z = 1) 3; w := z; return 0; return w; } \
                main(x){ y := f(0); y := f(1); vanish; }";
    let row = only_of(text);
    assert_eq!((row.end, row.at()), (End::Error(1), (0, 3)));
    assert_eq!(row.variables, [V::Num(1), V::Nothing]);
    // The caller's variables are as they were, but for the target.
    let row = only_of("f(x){ x := 9; y := 8; return 7; } main(x){ y := 1; x := f(2); vanish; }");
    assert_eq!(row.variables, [V::Num(7), V::Num(1)]);
}

#[test]
fn cells_inputs_and_locations_are_the_paths_not_the_frames() {
    let row = only_of(
        "f(o){ i := iSym_0; l := uSym_0; m := mutate([o, \"p\", l]); return i; } \
         main(x){ i := iSym_0; o := uSym_0; j := f(o); l := lookup([o, \"p\"]); k := iSym_0; vanish; }",
    );
    assert_eq!(
        row.variables,
        [V::Num(0), V::NumTerm(0), V::Loc(0), V::NumTerm(1), V::Loc(1), V::NumTerm(2)]
    );
    assert_eq!(row.cells, [(0, 0, V::Loc(1))]);
}

#[test]
fn main_called_again_returns_to_its_caller() {
    let row = only("ifgoto (x = 1) 3; y := main(1); return (y + x); return 7;");
    assert_eq!((row.end, row.steps, row.command), (End::Returned(V::Num(7)), 5, 2));
}

#[test]
fn eight_frames() {
    // f(n) has n calls below it, so that main and it have n + 2 frames.
    let text = |n| {
        format!(
            "f(x){{ ifgoto (x = 0) 3; y := f((x - 1)); return (y + 1); return 0; }} \
             main(x){{ y := f({n}); return y; }}"
        )
    };
    // A call, 6 times 3 steps down and up, 2 in the last, and a return.
    let row = only_of(&text(6));
    assert_eq!((row.end, row.steps, row.at()), (End::Returned(V::Num(6)), 22, (1, 1)));
    // The call that errs is the last one's: 1 + 6 * 2 + 2.
    let row = only_of(&text(7));
    assert_eq!((row.end, row.steps, row.at()), (End::Error(4), 15, (0, 1)));
    assert_eq!(row.variables, [V::Num(1), V::Nothing]);
}

#[test]
fn the_argument_comes_before_the_ninth_frame() {
    let text = |argument| {
        format!(
            "f(x){{ ifgoto (x = 7) 2; y := f((x + 1)); y := f({argument}); vanish; }} \
                 main(x){{ y := f(1); vanish; }}"
        )
    };
    assert_eq!(only_of(&text("0")).end, End::Error(4));
    assert_eq!(only_of(&text("b")).end, End::Error(1));
    assert_eq!(only_of(&text("(1 + true)")).end, End::Error(2));
    // Its terms are made before it errs.
    let text = "f(x){ y := f((x + 1)); vanish; } main(x){ i := iSym_0; y := f(i); vanish; }";
    let found = explore(text, STEPS, BRANCHES).unwrap();
    // In the eighth frame x is the input and six more; its call makes a term.
    assert_eq!((found.rows[0].end, found.terms.len()), (End::Error(4), 8));
    assert_eq!(found.rows[0].variables, [V::NumTerm(6), V::Nothing]);
    assert_eq!(found.rows[0].steps, 9);
}

#[test]
fn an_end_in_a_called_frame_shows_that_frame() {
    for (last, end) in [
        ("fail (v + 1)", End::Failed(V::Num(6))),
        ("vanish", End::Vanished),
        ("return w", End::Error(1)),
    ] {
        let row = only_of(&format!(
            "g(x){{ vanish; }} main(x){{ y := f(4); return y; }} f(z){{ v := 5; {last}; vanish; w := 1; vanish; }}"
        ));
        assert_eq!((row.end, row.steps, row.at()), (end, 3, (2, 1)), "{last}");
        assert_eq!(row.variables, [V::Num(4), V::Num(5), V::Nothing]);
    }
}

#[test]
fn variables_are_in_order_of_first_appearance() {
    // A target before its expression's variables; commands never reached too.
    let row = only(
        "d := 1; ifgoto true 3; q := (r + s); c := d; vanish; b := lookup([e, \"p\"]); vanish;",
    );
    let bound: Vec<V> = ["x", "d", "q", "r", "s", "c", "b", "e"]
        .iter()
        .map(|&name| match name {
            "x" => V::Num(0),
            "d" | "c" => V::Num(1),
            _ => V::Nothing,
        })
        .collect();
    assert_eq!(row.variables, bound);
    let row = only("ifgoto false 0; o := uSym_0; m := mutate([o, \"p\", n]); n := 1; vanish;");
    assert_eq!(row.variables, [V::Num(0), V::Loc(0), V::Nothing, V::Nothing]);
}

/// Each path counts its own inputs and locations, and has its own cells.
#[test]
fn paths_do_not_share() {
    let found = table(
        "a := iSym_0; o := uSym_0; m := mutate([o, \"p\", 0]); ifgoto (a < 5) 8; \
         b := iSym_0; l := uSym_0; m := mutate([o, \"p\", 1]); return b; \
         b := iSym_0; l := uSym_0; m := dispose(o); b := iSym_0; return b;",
    );
    // True first: inputs 1 and 2 of that path are terms 2 and 3.
    let first = &found.rows[0];
    assert_eq!((first.end, first.inputs), (End::Returned(V::NumTerm(3)), 3));
    assert_eq!((first.cells.len(), first.variables[5]), (0, V::Loc(1)));
    // The false branch reads input 1 again, which is a term of its own.
    let second = &found.rows[1];
    assert_eq!((second.end, second.inputs), (End::Returned(V::NumTerm(4)), 2));
    assert_eq!((second.cells.clone(), second.variables[5]), (vec![(0, 0, V::Num(1))], V::Loc(1)));
    assert_eq!(found.terms[3], (1, V::Num(2), V::Nothing));
    assert_eq!(found.terms[4], (1, V::Num(1), V::Nothing));
}

/// Branching in a called frame keeps all frames of both branches.
#[test]
fn a_fork_copies_the_frames_below() {
    let found = explore(
        "f(i){ ifgoto (i < 5) 2; return 10; return 20; } \
         main(x){ i := iSym_0; x := (x + 1); y := f(i); x := (x + y); return x; }",
        STEPS,
        BRANCHES,
    )
    .unwrap();
    let ends: Vec<End> = found.rows.iter().map(|row| row.end).collect();
    assert_eq!(ends, [End::Returned(V::Num(21)), End::Returned(V::Num(11))]);
    assert!(found.rows.iter().all(|row| row.steps == 7 && row.at() == (1, 4)));
}
