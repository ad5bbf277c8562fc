//! The C interface where a slice is a null pointer with length 0, and the lifetime of shown rows.

use ndplan::ffi::{ndp_join, ndp_matrix_market, ndp_pair, ndp_plan, ndp_read, ndp_rows, ndp_slot, ndp_write};
use ndplan::ffi::{NdpMesh, NdpPair, NdpPlan, NdpRows, NdpSlot, NdpWritten};
use ndplan::{Layout, Pair, PairAnswer, Plan, Refusal};
use std::ptr::{null, null_mut};

#[test]
fn planning_without_memory() {
    let (none, words) = (null_mut::<u16>(), null_mut::<u32>());
    // SAFETY: every slice is null with length 0.
    let reply = unsafe { ndp_plan(6, 2, null(), 0, null(), 0, none, 0, none, 0, none, 0, none, 0, words, 0, none, 0) };
    assert_eq!(reply, NdpPlan { refusal: 2, nodes: 0, parts: 0, slots: 0, unknowns: 0, multiplications: 0 });
    let starts = [0, 0];
    // SAFETY: the starts are a slice of length 2, the others are null with length 0.
    let reply =
        unsafe { ndp_plan(6, 1, starts.as_ptr(), 2, null(), 0, none, 0, none, 0, none, 0, none, 0, words, 0, none, 0) };
    assert_eq!(reply, NdpPlan { refusal: 8, nodes: 0, parts: 0, slots: 0, unknowns: 0, multiplications: 0 });
}

/// One node has no neighbours and no rows: both slices may be null.
#[test]
fn planning_and_reading_without_rows() {
    let (starts, file) = ([0, 0], b"NDP\x02\0\x06\0\x01\0\0\0\x01\0\0\0\0\0\0\0\0\0\x01\0\xff\xff\0\0");
    let accepted = NdpPlan { refusal: 0, nodes: 1, parts: 1, slots: 0, unknowns: 6, multiplications: 0 };
    for reading in [false, true] {
        let (mut order, mut positions, mut sizes, mut parents) = ([7u16], [7u16], [7u16], [7u16]);
        let mut column_starts = [7u32, 7];
        let (o, q, s, f) = (order.as_mut_ptr(), positions.as_mut_ptr(), sizes.as_mut_ptr(), parents.as_mut_ptr());
        let c = column_starts.as_mut_ptr();
        // SAFETY: each pointer and length is that of an array, or null with length 0.
        let reply = unsafe {
            match reading {
                false => ndp_plan(6, 1, starts.as_ptr(), 2, null(), 0, o, 1, q, 1, s, 1, f, 1, c, 2, null_mut(), 0),
                true => ndp_read(file.as_ptr(), file.len(), o, 1, q, 1, s, 1, f, 1, c, 2, null_mut(), 0),
            }
        };
        assert_eq!(reply, accepted);
        assert_eq!((order, positions, sizes, parents, column_starts), ([0], [0], [1], [65535], [0, 0]));
    }
}

#[test]
fn other_functions_without_memory() {
    let (none, words) = (null_mut::<u16>(), null_mut::<u32>());
    // SAFETY: every slice is null with length 0.
    unsafe {
        let read = ndp_read(null(), 0, none, 0, none, 0, none, 0, none, 0, words, 0, none, 0);
        assert_eq!(read, NdpPlan { refusal: 10, nodes: 0, parts: 0, slots: 0, unknowns: 0, multiplications: 0 });
        let written = ndp_write(6, 1, 1, 0, null(), 0, null(), 0, null(), 0, null(), 0, null(), 0, null_mut(), 0);
        assert_eq!(written, NdpWritten { refusal: 13, length: 0 });
        assert_eq!(ndp_slot(0, null(), 0, null(), 0, 0, 0), NdpSlot { refusal: 1, kind: 0, slot: 0 });
        assert_eq!(ndp_rows(1, null(), 0, null(), 0, 0), NdpRows { refusal: 22, start: 0, count: 0 });
        assert_eq!(ndp_pair(0, null(), 0, null(), 0, 7), NdpPair { refusal: 1, row: 0, column: 0 });
        assert_eq!(ndp_pair(1, null(), 0, null(), 0, 7), NdpPair { refusal: 22, row: 0, column: 0 });
    }
    let starts = [0, 0];
    // SAFETY: the starts are a slice of length 2, the rows are null with length 0.
    unsafe {
        assert_eq!(ndp_slot(1, starts.as_ptr(), 2, null(), 0, 0, 0), NdpSlot { refusal: 0, kind: 2, slot: 0 });
        assert_eq!(ndp_rows(1, starts.as_ptr(), 2, null(), 0, 0), NdpRows { refusal: 0, start: 0, count: 0 });
        assert_eq!(ndp_pair(1, starts.as_ptr(), 2, null(), 0, 0), NdpPair { refusal: 27, row: 0, column: 0 });
    }
}

#[test]
fn texts_without_memory() {
    let text = b"%%MatrixMarket matrix coordinate pattern symmetric\n1 1 1\n1 1";
    let mut starts = [7u32, 7];
    // SAFETY: each pointer and length is that of an array, or null with length 0.
    unsafe {
        let nothing = ndp_matrix_market(null(), 0, null_mut(), 0, null_mut(), 0);
        assert_eq!(nothing, NdpMesh { refusal: 23, nodes: 0, entries: 0 });
        let short = ndp_matrix_market(text.as_ptr(), text.len(), null_mut(), 0, null_mut(), 0);
        assert_eq!(short, NdpMesh { refusal: 8, nodes: 0, entries: 0 });
        let one = ndp_matrix_market(text.as_ptr(), text.len(), starts.as_mut_ptr(), 2, null_mut(), 0);
        assert_eq!((one, starts), (NdpMesh { refusal: 0, nodes: 1, entries: 0 }, [0, 0]));
    }
}

/// Two meshes of one node each, without neighbours and pairs: only the starts need memory.
#[test]
fn joining_without_memory() {
    let (one, none) = ([0, 0], null());
    let mut starts = [7u32; 4];
    let joined = |n1, n2, lengths: [usize; 2], starts: &mut [u32]| {
        let [first, second] = lengths.map(|length| if length == 0 { null() } else { one.as_ptr() });
        let made = if starts.is_empty() { null_mut() } else { starts.as_mut_ptr() };
        let (length, [a, b]) = (starts.len(), lengths);
        // SAFETY: each pointer and length is that of an array or of a slice, or null with length 0.
        unsafe {
            ndp_join(n1, first, a, none, 0, n2, second, b, none, 0, none, 0, none, 0, made, length, null_mut(), 0)
        }
    };
    let refused = |refusal| NdpMesh { refusal, nodes: 0, entries: 0 };
    assert_eq!(joined(0, 0, [0, 0], &mut []), refused(1));
    assert_eq!(joined(1, 0, [0, 0], &mut []), refused(2));
    assert_eq!(joined(1, 0, [2, 0], &mut []), refused(1));
    assert_eq!(joined(1, 1, [2, 0], &mut []), refused(2));
    assert_eq!(joined(1, 1, [2, 2], &mut []), refused(8));
    assert_eq!((joined(1, 1, [2, 2], &mut starts[..2]), starts), (refused(8), [7; 4]));
    assert_eq!(joined(1, 1, [2, 2], &mut starts), NdpMesh { refusal: 0, nodes: 2, entries: 0 });
    assert_eq!(starts, [0, 0, 0, 7]);
}

/// The shown rows live as long as the rows, not as the layout or the column starts.
#[test]
fn shown_rows_outlive_the_question() {
    let rows = vec![1, 2, 2];
    let shown = {
        let starts = vec![0, 2, 3, 3];
        ndplan::rows(&Layout { nodes: 3, column_starts: &starts, rows: &rows }, 0)
    };
    assert_eq!(shown, Ok(&rows[..2]));
}

/// Each refusal of the question from slot to pair, where the other fields would have something to tell.
#[test]
fn a_refused_slot_has_no_pair() {
    let (starts, rows) = ([0, 2, 3, 3], [1, 2, 2, 7]);
    let asked = |n, starts: &[u32], slot| {
        // SAFETY: each pointer and length is that of a slice.
        unsafe { ndp_pair(n, starts.as_ptr(), starts.len(), rows.as_ptr(), rows.len(), slot) }
    };
    assert_eq!(asked(3, &starts, 2), NdpPair { refusal: 0, row: 2, column: 1 });
    assert_eq!(asked(3, &starts, 3), NdpPair { refusal: 27, row: 0, column: 0 });
    assert_eq!(asked(3, &starts[..3], 2), NdpPair { refusal: 22, row: 0, column: 0 });
    assert_eq!(asked(3, &[0, 2, 3, 4], 2), NdpPair { refusal: 22, row: 0, column: 0 });
    assert_eq!(asked(4097, &starts, 2), NdpPair { refusal: 1, row: 0, column: 0 });
}

/// The columns, pairs and slots of an owned plan.
#[test]
fn owned_plans_answer_questions() {
    let starts: Vec<u32> = (0..=27u32).map(|v| v * 26).collect();
    let neighbours: Vec<u16> = (0..27).flat_map(|v| (0..27).filter(move |w| *w != v)).collect();
    let plan = Plan::of(1, &ndplan::Mesh { nodes: 27, starts: &starts, neighbours: &neighbours }).unwrap();
    assert_eq!(
        (plan.rows().len(), plan.counts().file_length(), plan.write().map_or(0, |file| file.len())),
        (351, 19 + 112 + 702, 833)
    );
    for j in 0..27 {
        assert_eq!(plan.column(j).unwrap(), (j as u16 + 1..27).collect::<Vec<_>>());
        assert_eq!(plan.slot(j, j), Ok(PairAnswer::Diagonal));
    }
    assert_eq!((plan.slot(26, 25), plan.slot(0, 1)), (Ok(PairAnswer::Slot(350)), Ok(PairAnswer::Slot(0))));
    assert_eq!((plan.pair(350), plan.pair(0)), (Ok(Pair { row: 26, column: 25 }), Ok(Pair { row: 1, column: 0 })));
    assert_eq!((plan.pair(351), plan.pair(usize::MAX)), (Err(Refusal(27)), Err(Refusal(27))));
    assert_eq!((plan.slot(27, 0), plan.column(27)), (Err(Refusal(21)), Err(Refusal(21))));
}
