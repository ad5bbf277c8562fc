//! Calls of the factoring, through the wrapper and through the C interface, on memory between guard words; the answer, both
//! lists of values and the plan are compared with what is expected.

use crate::calls::LentPlan;
use crate::guarded::Guarded;
use ndplan::ffi::{self, NdfReport};
use ndplan::{Refusal, Report};
use plain::{Factored, FileParts};

/// What a factoring gives: a report or the number of a refusal, and what it leaves in the two lists.
#[derive(Clone, Debug)]
pub struct Factoring {
    pub answer: Result<Factored, u32>,
    pub diagonal: Vec<f64>,
    pub values: Vec<f64>,
}

impl Factoring {
    /// A refusal that leaves both lists as they were.
    pub fn refused(number: u32, diagonal: &[f64], values: &[f64]) -> Factoring {
        Factoring { answer: Err(number), diagonal: diagonal.to_vec(), values: values.to_vec() }
    }
}

/// Factors and compares with plain C, whose answer is given back.
pub fn factor(plan: &FileParts, diagonal: &[f64], values: &[f64]) -> Factoring {
    let mut expected = Factoring::refused(0, diagonal, values);
    expected.answer = plain::factor(plan, &mut expected.diagonal, &mut expected.values);
    factor_expecting(plan, diagonal, values, &expected);
    expected
}

/// Factors and compares.
pub fn factor_expecting(plan: &FileParts, diagonal: &[f64], values: &[f64], expected: &Factoring) {
    let mut lent = LentPlan::of(plan);
    let (mut d, mut x) = (Guarded::holding(diagonal), Guarded::holding(values));
    let answer = ndplan::factor(&lent.view(plan), d.lent(), x.lent());
    assert_eq!(answer, wrapped(&expected.answer), "the wrapper's answer");
    d.check(&expected.diagonal, "the diagonal");
    x.check(&expected.values, "the values");

    let (mut d, mut x) = (Guarded::holding(diagonal), Guarded::holding(values));
    let reply = raw_factor(plan, &mut lent, &mut d, &mut x);
    assert_eq!(bits(&reply), bits(&reply_of(&expected.answer)), "the C interface's reply");
    d.check(&expected.diagonal, "the diagonal, by the C interface");
    x.check(&expected.values, "the values, by the C interface");
    lent.check(plan);
}

fn wrapped(answer: &Result<Factored, u32>) -> Result<Report, Refusal> {
    match answer {
        Err(number) => Err(Refusal(*number)),
        Ok(Factored { smallest, largest, operations }) => {
            Ok(Report { smallest: *smallest, largest: *largest, operations: *operations })
        }
    }
}

/// The C interface's reply: on a refusal the report is all zeros.
fn reply_of(answer: &Result<Factored, u32>) -> NdfReport {
    match *answer {
        Err(refusal) => NdfReport { refusal, smallest: 0.0, largest: 0.0, operations: 0 },
        Ok(Factored { smallest, largest, operations }) => NdfReport { refusal: 0, smallest, largest, operations },
    }
}

/// A reply so that -0.0 is not 0.0.
fn bits(reply: &NdfReport) -> (u32, u64, u64, u64) {
    (reply.refusal, reply.smallest.to_bits(), reply.largest.to_bits(), reply.operations)
}

fn raw_factor(
    plan: &FileParts,
    lent: &mut LentPlan,
    diagonal: &mut Guarded<f64>,
    values: &mut Guarded<f64>,
) -> NdfReport {
    // SAFETY: each pointer and length is that of a lent slice, and every slice is an allocation of its own.
    unsafe {
        ffi::ndf_factor(
            plan.unknowns,
            plan.n,
            plan.p,
            plan.s,
            lent.order.pointer(),
            lent.order.len(),
            lent.sizes.pointer(),
            lent.sizes.len(),
            lent.parents.pointer(),
            lent.parents.len(),
            lent.column_starts.pointer(),
            lent.column_starts.len(),
            lent.rows.pointer(),
            lent.rows.len(),
            diagonal.pointer(),
            diagonal.len(),
            values.pointer(),
            values.len(),
        )
    }
}
