//! Factoring: worked cases with their bits, and every refusal, alone and beside a later one. The numbers stand here by
//! themselves, so that they do not depend on plain C.

use crate::calls::NO_UNKNOWNS;
use crate::factor_calls::{factor_expecting, Factoring};
use crate::meshes;
use ndplan::ffi::{ndf_factor, NdfReport};
use ndplan::{Mesh, Plan, Refusal, Report};
use plain::{Factored, FileParts};
use std::ptr::{null, null_mut};

const NONE: u16 = 65535;

/// Document 01's mesh 4, the path 0-1-2-3-4, of one unknown for each node.
pub fn mesh_4() -> FileParts {
    FileParts {
        unknowns: 1,
        n: 5,
        p: 3,
        s: 5,
        order: vec![0, 1, 3, 4, 2],
        sizes: vec![2, 2, 1],
        parents: vec![2, 2, NONE],
        column_starts: vec![0, 1, 2, 4, 5, 5],
        rows: vec![1, 4, 3, 4, 4],
    }
}

/// So many nodes in one part, with a slot for every pair.
pub fn clique(n: usize) -> FileParts {
    FileParts {
        unknowns: 1,
        n,
        p: 1,
        s: n * (n - 1) / 2,
        order: (0..n as u16).collect(),
        sizes: vec![n as u16],
        parents: vec![NONE],
        column_starts: (0..=n).map(|j| (j * (2 * n - 1 - j) / 2) as u32).collect(),
        rows: (0..n as u16).flat_map(|j| j + 1..n as u16).collect(),
    }
}

/// Nodes without neighbours: each is a part, and there are no slots.
pub fn apart(n: usize) -> FileParts {
    let (sizes, parents, column_starts) = (vec![1; n], vec![NONE; n], vec![0; n + 1]);
    FileParts {
        unknowns: 1,
        n,
        p: n,
        s: 0,
        order: (0..n as u16).collect(),
        sizes,
        parents,
        column_starts,
        rows: vec![],
    }
}

fn finished(smallest: f64, largest: f64, operations: u64, diagonal: &[f64], values: &[f64]) -> Factoring {
    let answer = Ok(Factored { smallest, largest, operations });
    Factoring { answer, diagonal: diagonal.to_vec(), values: values.to_vec() }
}

/// Every number here is exact. Column 2 has two rows, whose pair is slot 4.
#[test]
fn mesh_4_by_hand() {
    let expected = finished(2.0, 8.0, 11, &[4.0, 2.0, 8.0, 4.0, 5.0], &[0.5, 2.0, 0.25, 0.5, 0.75]);
    factor_expecting(&mesh_4(), &[4.0, 3.0, 8.0, 4.5, 17.25], &[2.0, 4.0, 2.0, 4.0, 4.0], &expected);
    let lists = meshes::path(5);
    let plan = Plan::of(1, &Mesh { nodes: 5, starts: &lists.starts, neighbours: &lists.neighbours }).unwrap();
    let (mut diagonal, mut values) = ([4.0, 3.0, 8.0, 4.5, 17.25], [2.0, 4.0, 2.0, 4.0, 4.0]);
    let report = plan.factor(&mut diagonal, &mut values);
    assert_eq!(report, Ok(Report { smallest: 2.0, largest: 8.0, operations: 11 }));
    assert_eq!((&diagonal[..], &values[..]), (&expected.diagonal[..], &expected.values[..]));
}

/// At the pair of rows k < i goes l of i times v of k. The other way round, with l of both, and with the product of both v
/// divided, it would be another number.
#[test]
fn which_of_the_two_is_divided() {
    let (d, v, w) = (7.0, 3.0, 9.0);
    let product = (w / d) * v;
    for other in [(v / d) * w, (v / d) * (w / d), (v * w) / d] {
        assert_ne!(product, other);
    }
    let (second, third, value) = (900.0 - (v / d) * v, 800.0 - (w / d) * w, 0.0 - product);
    let last = third - (value / second) * value;
    let expected = finished(d, second, 7, &[d, second, last], &[v / d, w / d, value / second]);
    factor_expecting(&clique(3), &[d, 900.0, 800.0], &[v, w, 0.0], &expected);
}

/// A product and a difference are two operations: fused, they would leave less than 2^-29.
#[test]
fn nothing_is_fused() {
    let (second, value) = (1.0 + 2f64.powi(-28), 1.0 + 2f64.powi(-30));
    let pivot = f64::from_bits(0x3E20_0000_0000_0000);
    assert_eq!((second - value * value, pivot), (2f64.powi(-29), 2f64.powi(-29)));
    assert_ne!((-value).mul_add(value, second), pivot);
    factor_expecting(&clique(2), &[1.0, second], &[value], &finished(pivot, 1.0, 2, &[1.0, pivot], &[value]));
    // The same at a slot: the first column of three has pivot 1, so l is v.
    let product = value * value;
    let left = second - product;
    assert_ne!((-value).mul_add(value, second), left);
    let expected = finished(
        1.0,
        4.0 - product,
        7,
        &[1.0, 4.0 - product, 4.0 - product - (left / (4.0 - product)) * left],
        &[value, value, left / (4.0 - product)],
    );
    factor_expecting(&clique(3), &[1.0, 4.0, 4.0], &[value, value, second], &expected);
}

/// Denormal numbers are kept: as pivots, as quotients, as products and as differences.
#[test]
fn denormals_are_kept() {
    let least = f64::from_bits(1);
    assert_eq!(least, 5e-324);
    factor_expecting(&apart(2), &[least, f64::MAX], &[], &finished(least, f64::MAX, 0, &[least, f64::MAX], &[]));
    factor_expecting(&apart(1), &[least], &[], &finished(least, least, 0, &[least], &[]));
    // l = 2^-1074, its product with 2^-1073 is 0, and 3 * 2^-1074 is left.
    let three = f64::from_bits(3);
    let expected = finished(three, 2.0, 2, &[2.0, three], &[least]);
    factor_expecting(&clique(2), &[2.0, three], &[f64::from_bits(2)], &expected);
    // l = 2^-537 and v = 2^-536: the product is 2^-1073, and 2^-1074 is left.
    let (v, expected) = (2f64.powi(-536), finished(least, 2.0, 2, &[2.0, least], &[2f64.powi(-537)]));
    factor_expecting(&clique(2), &[2.0, three], &[v], &expected);
    // l is the tie between 2 and 3 units of 2^-1074, which goes to the even one.
    let expected = finished(1.0, 2.0, 2, &[2.0, 1.0], &[f64::from_bits(2)]);
    factor_expecting(&clique(2), &[2.0, 1.0], &[f64::from_bits(5)], &expected);
}

/// Reading 52's case: the second pivot becomes 0.
#[test]
fn what_a_refused_pivot_leaves() {
    let left =
        Factoring { answer: Err(31), diagonal: vec![4.0, 0.0, 4.0, 4.0, 4.0], values: vec![0.25, 2.0, 3.0, 5.0, 7.0] };
    factor_expecting(&mesh_4(), &[4.0, 0.25, 4.0, 4.0, 4.0], &[1.0, 2.0, 3.0, 5.0, 7.0], &left);
    let lists = meshes::path(5);
    let plan = Plan::of(1, &Mesh { nodes: 5, starts: &lists.starts, neighbours: &lists.neighbours }).unwrap();
    let (mut diagonal, mut values) = ([4.0, 0.25, 4.0, 4.0, 4.0], [1.0, 2.0, 3.0, 5.0, 7.0]);
    assert_eq!(plan.factor(&mut diagonal, &mut values), Err(Refusal(31)));
    assert_eq!((&diagonal[..], &values[..]), (&left.diagonal[..], &left.values[..]));
    let plan = Plan::of(2, &Mesh { nodes: 5, starts: &lists.starts, neighbours: &lists.neighbours }).unwrap();
    assert_eq!(plan.factor(&mut diagonal, &mut values), Err(Refusal(29)));
}

/// Numbers that are no pivot.
pub const NO_PIVOTS: [f64; 8] = [0.0, -0.0, -1.0, -5e-324, f64::MIN, f64::INFINITY, f64::NEG_INFINITY, f64::NAN];

/// The pivot of a column without rows is one, be it the only column, the first or the last.
#[test]
fn refused_pivots_of_single_nodes() {
    for pivot in NO_PIVOTS {
        factor_expecting(&apart(1), &[pivot], &[], &Factoring::refused(31, &[pivot], &[]));
        for at in 0..3 {
            let mut diagonal = [1.0, 2.0, 3.0];
            diagonal[at] = pivot;
            factor_expecting(&apart(3), &diagonal, &[], &Factoring::refused(31, &diagonal, &[]));
        }
        let left = Factoring { answer: Err(31), diagonal: vec![4.0, pivot], values: vec![0.5] };
        factor_expecting(&clique(2), &[4.0, pivot + 1.0], &[2.0], &left_after(&left, pivot + 1.0 - 1.0));
        factor_expecting(&clique(2), &[pivot, 1.0], &[2.0], &Factoring::refused(31, &[pivot, 1.0], &[2.0]));
    }
    factor_expecting(&apart(2), &[1.0, 0.0], &[], &Factoring::refused(31, &[1.0, 0.0], &[]));
}

/// The second entry of the diagonal as rounding leaves it, which is no pivot either.
fn left_after(left: &Factoring, second: f64) -> Factoring {
    assert!(!(second > 0.0 && second.is_finite()));
    Factoring { diagonal: vec![left.diagonal[0], second], ..left.clone() }
}

/// A NaN or an infinity in a slot is no refusal: the work goes on to the pivot of the slot's row, and the columns between are
/// finished.
#[test]
fn slots_that_are_not_finite() {
    for value in [f64::NAN, f64::INFINITY, f64::NEG_INFINITY] {
        // Slot 1 is row 4 of column 1; columns 2 and 3 do not meet it.
        let (last, diagonal) = (if value.is_nan() { value } else { f64::NEG_INFINITY }, [4.0, 3.0, 8.0, 4.5, 17.25]);
        let left = Factoring {
            answer: Err(31),
            diagonal: vec![4.0, 2.0, 8.0, 4.0, last],
            values: vec![0.5, value, 0.25, 0.5, 0.75],
        };
        factor_expecting(&mesh_4(), &diagonal, &[2.0, value, 2.0, 4.0, 4.0], &left);
    }
    // A quotient beyond the numbers is an infinity.
    let left = Factoring { answer: Err(31), diagonal: vec![1e-200, f64::NEG_INFINITY], values: vec![f64::INFINITY] };
    factor_expecting(&clique(2), &[1e-200, 1.0], &[1e200], &left);
    // -0.0 divides and is subtracted as 0 is: 0 - (-0.0 * -0.0) and 1 - 0.
    factor_expecting(&clique(2), &[2.0, 1.0], &[-0.0], &finished(1.0, 2.0, 2, &[2.0, 1.0], &[-0.0]));
    let expected = finished(1.0, 2.0, 7, &[2.0, 1.0, 1.0], &[-0.0, 0.0, -0.0]);
    factor_expecting(
        &clique(3),
        &[2.0, 1.0, 1.0],
        &[-0.0, 0.0, -0.0],
        &Factoring { values: vec![-0.0, 0.0, -0.0 - (0.0 * -0.0)], ..expected },
    );
}

/// Mesh 4 with values that can be factored.
#[derive(Clone)]
struct Case {
    plan: FileParts,
    diagonal: Vec<f64>,
    values: Vec<f64>,
}

impl Case {
    fn expect(&self, number: u32) {
        let Case { plan, diagonal, values } = self;
        factor_expecting(plan, diagonal, values, &Factoring::refused(number, diagonal, values));
    }
}

type Fault = (u32, fn(&mut Case));

/// A fault of each check, in the order of the checks; each leaves the others possible.
const FAULTS: [Fault; 16] = [
    (28, |case| case.plan.unknowns = 7),
    (28, |case| case.plan.unknowns = 0),
    (13, |case| case.plan.order.truncate(4)),
    (13, |case| case.plan.rows.truncate(4)),
    (15, |case| case.plan.order[0] = case.plan.order[1]),
    (16, |case| case.plan.sizes[0] = 0),
    (17, |case| case.plan.column_starts[5] = 6),
    (18, |case| case.plan.parents[0] = NONE),
    (19, |case| {
        // Column 3 gives its slot to column 0, and column 2 has rows 3 and 4.
        case.plan.column_starts[..5].copy_from_slice(&[0, 2, 3, 5, 5]);
        let rows = [1, 4, 4, 3, 4];
        let length = case.plan.rows.len();
        case.plan.rows.copy_from_slice(&rows[..length]);
    }),
    (29, |case| case.plan.unknowns = 2),
    (29, |case| case.plan.unknowns = 6),
    (30, |case| case.diagonal.push(1.0)),
    (30, |case| case.diagonal.truncate(3)),
    (30, |case| case.values.push(1.0)),
    (30, |case| case.values.truncate(3)),
    (31, |case| case.diagonal[0] = 0.0),
];

fn sound() -> Case {
    Case { plan: mesh_4(), diagonal: vec![4.0, 3.0, 8.0, 4.5, 17.25], values: vec![2.0, 4.0, 2.0, 4.0, 4.0] }
}

#[test]
fn each_fault_alone() {
    for (number, fault) in FAULTS {
        let mut case = sound();
        fault(&mut case);
        case.expect(number);
    }
}

/// Of two faults the earlier check's is told. The later one is made first, since both may be of one field. Then all faults at once
/// but those before one of them.
pub fn the_earlier_is_told<C>(faults: &[(u32, fn(&mut C))], sound: fn() -> C, expect: fn(&C, u32)) {
    for (k, (number, fault)) in faults.iter().enumerate() {
        for (_, later) in &faults[k + 1..] {
            let mut case = sound();
            later(&mut case);
            fault(&mut case);
            expect(&case, *number);
        }
        let mut case = sound();
        faults[k..].iter().rev().for_each(|(_, fault)| fault(&mut case));
        expect(&case, *number);
    }
}

#[test]
fn two_faults() {
    the_earlier_is_told(&FAULTS, sound, Case::expect);
}

#[test]
fn unknowns() {
    for unknowns in NO_UNKNOWNS {
        Case { plan: FileParts { unknowns, ..mesh_4() }, ..sound() }.expect(28);
    }
    for unknowns in 2..=6 {
        Case { plan: FileParts { unknowns, ..mesh_4() }, ..sound() }.expect(29);
        Case { plan: FileParts { unknowns, ..mesh_4() }, diagonal: vec![], values: vec![] }.expect(29);
        Case { plan: FileParts { unknowns, rows: vec![1, 4, 3, 5, 4], ..mesh_4() }, ..sound() }.expect(17);
    }
}

/// The values are as many as needed, and no more; the plan's own slices may be longer, whatever stands behind.
#[test]
fn lengths() {
    for diagonal in 0..12 {
        for values in 0..12 {
            let case = Case { plan: mesh_4(), diagonal: vec![1.0; diagonal], values: vec![0.0; values] };
            match (diagonal, values) {
                (5, 5) => {
                    let expected = finished(1.0, 1.0, 11, &[1.0; 5], &[0.0; 5]);
                    factor_expecting(&case.plan, &case.diagonal, &case.values, &expected);
                }
                _ => case.expect(30),
            }
        }
    }
    Case { plan: apart(3), diagonal: vec![1.0; 3], values: vec![1.0] }.expect(30);
    let mut longer = mesh_4();
    for list in [&mut longer.order, &mut longer.sizes, &mut longer.parents, &mut longer.rows] {
        list.extend([65000, 0, 65535, 2]);
    }
    longer.column_starts.extend([u32::MAX, 0, 5]);
    let expected = finished(2.0, 8.0, 11, &[4.0, 2.0, 8.0, 4.0, 5.0], &[0.5, 2.0, 0.25, 0.5, 0.75]);
    factor_expecting(&longer, &sound().diagonal, &sound().values, &expected);
    // With the lengths of the slices the values would still be another number than needed.
    Case { plan: longer.clone(), diagonal: vec![1.0; 9], values: vec![0.0; 5] }.expect(30);
    Case { plan: longer, diagonal: vec![1.0; 5], values: vec![0.0; 9] }.expect(30);
}

/// Slices of length 0 may be null; with one node there are no slots.
#[test]
fn without_memory() {
    let zeros = |refusal| NdfReport { refusal, smallest: 0.0, largest: 0.0, operations: 0 };
    let (none, words) = (null::<u16>(), null::<u32>());
    let no = null_mut::<f64>();
    let (order, sizes, parents, starts) = ([0u16], [1u16], [NONE], [0u32, 0]);
    let (o, z, q, c) = (order.as_ptr(), sizes.as_ptr(), parents.as_ptr(), starts.as_ptr());
    let mut diagonal = [2.5];
    let d = diagonal.as_mut_ptr();
    // SAFETY: each pointer and length is that of an array, or null with length 0.
    unsafe {
        assert_eq!(ndf_factor(0, 0, 0, 0, none, 0, none, 0, none, 0, words, 0, none, 0, no, 0, no, 0), zeros(28));
        assert_eq!(ndf_factor(1, 0, 0, 0, none, 0, none, 0, none, 0, words, 0, none, 0, no, 0, no, 0), zeros(13));
        assert_eq!(ndf_factor(1, 1, 1, 0, none, 0, none, 0, none, 0, words, 0, none, 0, no, 0, no, 0), zeros(13));
        assert_eq!(ndf_factor(2, 1, 1, 0, o, 1, z, 1, q, 1, c, 2, none, 0, no, 0, no, 0), zeros(29));
        assert_eq!(ndf_factor(1, 1, 1, 0, o, 1, z, 1, q, 1, c, 2, none, 0, no, 0, no, 0), zeros(30));
        let one = ndf_factor(1, 1, 1, 0, o, 1, z, 1, q, 1, c, 2, none, 0, d, 1, no, 0);
        assert_eq!(one, NdfReport { refusal: 0, smallest: 2.5, largest: 2.5, operations: 0 });
    }
    assert_eq!(diagonal, [2.5]);
}
