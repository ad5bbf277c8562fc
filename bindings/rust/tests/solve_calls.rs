//! Calls of the solution, through the wrapper and through the C interface, on memory between guard words; the answer, the
//! vector, the factor and the plan are compared with what is expected.

use crate::calls::LentPlan;
use crate::guarded::Guarded;
use ndplan::{ffi, Refusal};
use plain::FileParts;

/// Solves and compares with plain C, whose answer is given back: the solution, or the number of a refusal.
pub fn solve(plan: &FileParts, diagonal: &[f64], values: &[f64], vector: &[f64]) -> Result<Vec<f64>, u32> {
    let mut solution = vector.to_vec();
    let expected = plain::solve(plan, diagonal, values, &mut solution).map(|()| solution);
    solve_expecting(plan, diagonal, values, vector, &expected);
    expected
}

/// Solves and compares.
pub fn solve_expecting(
    plan: &FileParts,
    diagonal: &[f64],
    values: &[f64],
    vector: &[f64],
    expected: &Result<Vec<f64>, u32>,
) {
    let mut lent = LentPlan::of(plan);
    let (mut d, mut x) = (Guarded::holding(diagonal), Guarded::holding(values));
    let mut v = Guarded::holding(vector);
    let answer = ndplan::solve(&lent.view(plan), d.shown(), x.shown(), v.lent());
    assert_eq!(answer, expected.as_ref().map(|_| ()).map_err(|number| Refusal(*number)), "the wrapper's answer");
    check(&v, vector, expected);

    let mut v = Guarded::holding(vector);
    let refusal = raw_solve(plan, &mut lent, &mut d, &mut x, &mut v);
    assert_eq!(refusal, expected.as_ref().err().copied().unwrap_or(0), "the C interface's reply");
    check(&v, vector, expected);
    unchanged(&d, diagonal, "the diagonal");
    unchanged(&x, values, "the values");
    lent.check(plan);
}

/// The vector holds the solution, or on a refusal what it held.
fn check(lent: &Guarded<f64>, vector: &[f64], expected: &Result<Vec<f64>, u32>) {
    match expected {
        Ok(solution) => lent.check(solution, "the vector"),
        Err(_) => unchanged(lent, vector, "the vector of a refusal"),
    }
}

/// Nothing was written: every bit is as it was, those of a NaN too.
fn unchanged(lent: &Guarded<f64>, held: &[f64], what: &str) {
    lent.check(held, what);
    let bits = |list: &[f64]| list.iter().map(|value| value.to_bits()).collect::<Vec<_>>();
    assert_eq!(bits(lent.shown()), bits(held), "{what}");
}

fn raw_solve(
    plan: &FileParts,
    lent: &mut LentPlan,
    diagonal: &mut Guarded<f64>,
    values: &mut Guarded<f64>,
    vector: &mut Guarded<f64>,
) -> u32 {
    // SAFETY: each pointer and length is that of a lent slice, and every slice is an allocation of its own.
    unsafe {
        ffi::ndf_solve(
            plan.unknowns,
            plan.n,
            plan.p,
            plan.s,
            lent.order.pointer(),
            lent.order.len(),
            lent.sizes.pointer(),
            lent.sizes.len(),
            lent.parents.pointer(),
            lent.parents.len(),
            lent.column_starts.pointer(),
            lent.column_starts.len(),
            lent.rows.pointer(),
            lent.rows.len(),
            diagonal.pointer(),
            diagonal.len(),
            values.pointer(),
            values.len(),
            vector.pointer(),
            vector.len(),
        )
    }
}
