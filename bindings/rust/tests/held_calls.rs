//! Calls of the question what is held at a pair of positions, through the wrapper and through the C interface, on memory between
//! guard words; the answer and the four lists are compared with what is expected.

use crate::guarded::{Guarded, Word};
use ndplan::ffi::{self, NdfHeld};
use ndplan::{Held, Layout, Refusal};
use plain::Filled;

/// Asks and compares with plain C, whose answer is given back: the number, none where there is no slot, or a refusal's number.
pub fn held(filled: &Filled, a: usize, b: usize) -> Result<Option<f64>, u32> {
    let expected = plain::held(filled, a, b);
    held_expecting(filled, a, b, expected);
    expected
}

/// Asks and compares.
pub fn held_expecting(filled: &Filled, a: usize, b: usize, expected: Result<Option<f64>, u32>) {
    let (mut starts, mut rows) = (Guarded::holding(&filled.starts), Guarded::holding(&filled.rows));
    let (mut diagonal, mut values) = (Guarded::holding(&filled.diagonal), Guarded::holding(&filled.values));
    let layout = Layout { nodes: filled.n, column_starts: starts.shown(), rows: rows.shown() };
    let answer = ndplan::held(&layout, diagonal.shown(), values.shown(), a, b);
    let told = match answer {
        Ok(Held::Value(value)) => Ok(Some(value)),
        Ok(Held::NoSlot) => Ok(None),
        Err(Refusal(number)) => Err(number),
    };
    assert!(same(&reply_of(told), &reply_of(expected)), "{a} and {b}, the wrapper: {answer:?}, expected {expected:?}");

    let lengths = [starts.len(), rows.len(), diagonal.len(), values.len()];
    let (s, r, d, v) = (starts.pointer(), rows.pointer(), diagonal.pointer(), values.pointer());
    // SAFETY: each pointer and length is that of a lent slice, and every slice is an allocation of its own.
    let reply = unsafe { ffi::ndf_held(filled.n, s, lengths[0], r, lengths[1], d, lengths[2], v, lengths[3], a, b) };
    assert!(same(&reply, &reply_of(expected)), "{a} and {b}, the C interface: {reply:?}, expected {expected:?}");
    starts.check(&filled.starts, "the starts");
    rows.check(&filled.rows, "the rows");
    diagonal.check(&filled.diagonal, "the diagonal");
    values.check(&filled.values, "the values");
}

/// The C interface's reply. The value is +0.0 where no number is held.
fn reply_of(answer: Result<Option<f64>, u32>) -> NdfHeld {
    match answer {
        Ok(Some(value)) => NdfHeld { refusal: 0, kind: 1, value },
        Ok(None) => NdfHeld { refusal: 0, kind: 2, value: 0.0 },
        Err(refusal) => NdfHeld { refusal, kind: 0, value: 0.0 },
    }
}

/// The same fields, and the same bits of the value or NaN in both.
fn same(a: &NdfHeld, b: &NdfHeld) -> bool {
    a.refusal == b.refusal && a.kind == b.kind && a.value.same(b.value)
}
