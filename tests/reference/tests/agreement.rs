//! Demand 3 on random texts: every list of inputs falls in exactly one row,
//! and the plain run that is given the row's steps does what the row says.

mod common;

use common::*;
use reference::generate::{budgets, input_list, valid_text, Random};
use reference::layout::{word, POOL_BYTES, TABLE_BYTES};
use std::collections::BTreeMap;

const TEXTS: u64 = 4_000;
const LISTS: usize = 4;

/// What a stored value is on these inputs, by the terms' meaning in document
/// 01. The terms before it are worked out already.
fn constant(value: V, known: &[V]) -> V {
    match value {
        V::NumTerm(index) | V::BoolTerm(index) => known[index as usize],
        other => other,
    }
}

fn term_values(terms: &[Term], inputs: &[u32]) -> Vec<V> {
    let mut known: Vec<V> = Vec::new();
    for &(kind, left, right) in terms {
        let (left, right) = (constant(left, &known), constant(right, &known));
        known.push(match (kind, left, right) {
            (1, V::Num(k), V::Nothing) => V::Num(inputs[k as usize]),
            (2, V::Bool(a), V::Nothing) => V::Bool(!a),
            (3, V::Num(m), V::Num(n)) => V::Num(m.wrapping_add(n)),
            (4, V::Num(m), V::Num(n)) => V::Num(m.wrapping_sub(n)),
            (5, V::Num(m), V::Num(n)) => V::Bool(m == n),
            (5, V::Bool(a), V::Bool(b)) => V::Bool(a == b),
            (6, V::Num(m), V::Num(n)) => V::Bool(m < n),
            (7, V::Bool(a), V::Bool(b)) => V::Bool(a && b),
            (8, V::Bool(a), V::Bool(b)) => V::Bool(a || b),
            other => panic!("no such term: {other:?}"),
        });
    }
    known
}

/// The row as the plain run must give it: without conditions, all terms worked
/// out, and cut for steps where it was cut at all.
fn expected(row: &Row, known: &[V]) -> Row {
    let end = match row.end {
        End::Returned(value) => End::Returned(constant(value, known)),
        End::Failed(value) => End::Failed(constant(value, known)),
        End::CutBranches => End::CutSteps,
        other => other,
    };
    Row {
        end,
        conditions: vec![],
        variables: row.variables.iter().map(|&v| constant(v, known)).collect(),
        cells: row.cells.iter().map(|&(l, p, v)| (l, p, constant(v, known))).collect(),
        ..row.clone()
    }
}

fn holds(row: &Row, known: &[V]) -> bool {
    row.conditions.iter().all(|&(term, truth)| known[term as usize] == V::Bool(truth))
}

fn name(end: End) -> String {
    match end {
        End::Returned(_) => "returned".to_string(),
        End::Failed(_) => "failed".to_string(),
        other => format!("{other:?}"),
    }
}

fn quick_place(text: &[u8], inputs: &[u8], steps: u32, branches: u32) -> u32 {
    let (mut table, mut pool) = (vec![0; TABLE_BYTES], vec![0; POOL_BYTES]);
    reference::place(text, inputs, steps, branches, &mut table, &mut pool)
}

#[test]
fn every_input_list_falls_in_one_row_and_runs_as_it_says() {
    let mut met: BTreeMap<String, u32> = BTreeMap::new();
    let mut branched = 0;
    for seed in 0..TEXTS {
        let text = valid_text(seed);
        let random = &mut Random::new(seed);
        let (steps, branches) = budgets(random);
        let Ok(table) = explore(&text, steps, branches) else {
            continue;
        };
        branched += u32::from(table.rows.len() > 1);
        for list in 0..LISTS {
            let bytes = input_list(random);
            let inputs: Vec<u32> = (0..16).map(|at| word(&bytes, at)).collect();
            let known = term_values(&table.terms, &inputs);
            let rows = 0..table.rows.len();
            let at: Vec<usize> = rows.filter(|&n| holds(&table.rows[n], &known)).collect();
            assert_eq!(at.len(), 1, "seed {seed}: rows {at:?} hold");
            // What it leaves in the memory need not be looked at each time.
            if list == 0 {
                let placed = place(&text, &inputs, steps, branches);
                assert_eq!(placed, Ok(at[0] as u32), "seed {seed}");
            } else {
                let placed = quick_place(&text, &bytes, steps, branches);
                assert_eq!(placed, 256 + at[0] as u32, "seed {seed}");
            }
            let row = &table.rows[at[0]];
            let run = plain(&text, &inputs, row.steps);
            assert_eq!(run, Ok(expected(row, &known)), "seed {seed}");
            *met.entry(name(row.end)).or_default() += 1;
        }
    }
    // The texts are worth the name: all outcomes and errors were met, and
    // many texts branched.
    println!("{met:?}, {branched} of {TEXTS} texts branched");
    assert_eq!(met.len(), 12, "{met:?}");
    assert!(branched > TEXTS as u32 / 3);
}
