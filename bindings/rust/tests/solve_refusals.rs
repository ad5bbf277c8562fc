//! What solving refuses: each fault alone and each two together, lengths, pivots spoiled behind factoring, and damaged plans. On
//! every refusal the vector has the bits that it had.

use crate::calls::NO_UNKNOWNS;
use crate::damaged_writings::{change_an_entry, lengthen, shorten};
use crate::factor_calls::factor;
use crate::factored::{any_diagonal, fraction, plans};
use crate::factoring::{apart, clique, mesh_4, the_earlier_is_told, NO_PIVOTS};
use crate::random::Random;
use crate::solve_calls::{solve, solve_expecting};
use ndplan::ffi::ndf_solve;
use ndplan::{Mesh, Plan, Refusal};
use plain::FileParts;
use std::collections::BTreeSet;
use std::ptr::{null, null_mut};

const NONE: u16 = 65535;

/// Mesh 4 with a factor and a vector whose bits are of every kind.
#[derive(Clone)]
struct Case {
    plan: FileParts,
    diagonal: Vec<f64>,
    values: Vec<f64>,
    vector: Vec<f64>,
}

impl Case {
    fn expect(&self, number: u32) {
        solve_expecting(&self.plan, &self.diagonal, &self.values, &self.vector, &Err(number));
    }
}

fn sound() -> Case {
    let vector = vec![1.0, -0.0, f64::from_bits(0xFFF0_0000_0000_0001), 5e-324, f64::NEG_INFINITY];
    Case { plan: mesh_4(), diagonal: vec![4.0, 2.0, 8.0, 4.0, 5.0], values: vec![0.5, 2.0, 0.25, 0.5, 0.75], vector }
}

type Fault = (u32, fn(&mut Case));

/// Faults of each check, in the order of the checks; each leaves the others possible.
const FAULTS: [Fault; 25] = [
    (28, |case| case.plan.unknowns = 7),
    (28, |case| case.plan.unknowns = 0),
    (13, |case| case.plan.order.truncate(4)),
    (13, |case| case.plan.rows.truncate(4)),
    (13, |case| case.plan.column_starts.truncate(5)),
    (15, |case| case.plan.order[0] = case.plan.order[1]),
    (16, |case| case.plan.sizes[0] = 0),
    (17, |case| *case.plan.column_starts.last_mut().unwrap() = 6),
    (18, |case| case.plan.parents[0] = NONE),
    (19, |case| {
        // Column 3 gives its slot to column 0, and column 2 has rows 3 and 4.
        case.plan.column_starts[..5].copy_from_slice(&[0, 2, 3, 5, 5]);
        let rows = [1, 4, 4, 3, 4];
        let length = case.plan.rows.len();
        case.plan.rows.copy_from_slice(&rows[..length]);
    }),
    (29, |case| case.plan.unknowns = 2),
    (29, |case| case.plan.unknowns = 6),
    (30, |case| case.diagonal.resize(6, 1.0)),
    (30, |case| case.diagonal.truncate(4)),
    (30, |case| case.diagonal.clear()),
    (30, |case| case.values.resize(6, 1.0)),
    (30, |case| case.values.truncate(4)),
    (30, |case| case.values.clear()),
    (30, |case| case.vector.resize(6, 1.0)),
    (30, |case| case.vector.truncate(4)),
    (30, |case| case.vector.clear()),
    (31, |case| spoil(case, 0, 0.0)),
    (31, |case| spoil(case, 2, f64::NAN)),
    (31, |case| spoil(case, 3, f64::INFINITY)),
    (31, |case| spoil(case, 4, -1.0)),
];

/// The pivot at a place, where there is one.
fn spoil(case: &mut Case, at: usize, pivot: f64) {
    if let Some(place) = case.diagonal.get_mut(at) {
        *place = pivot;
    }
}

#[test]
fn each_fault_alone() {
    let Case { plan, diagonal, values, vector } = sound();
    assert!(solve(&plan, &diagonal, &values, &vector).is_ok());
    for (number, fault) in FAULTS {
        let mut case = sound();
        fault(&mut case);
        case.expect(number);
    }
}

#[test]
fn two_faults() {
    the_earlier_is_told(&FAULTS, sound, Case::expect);
}

#[test]
fn unknowns() {
    for unknowns in NO_UNKNOWNS {
        Case { plan: FileParts { unknowns, ..mesh_4() }, ..sound() }.expect(28);
    }
    for unknowns in 2..=6 {
        Case { plan: FileParts { unknowns, ..mesh_4() }, ..sound() }.expect(29);
        let empty = Case { diagonal: vec![], values: vec![], vector: vec![], ..sound() };
        Case { plan: FileParts { unknowns, ..mesh_4() }, ..empty }.expect(29);
        Case { plan: FileParts { unknowns, rows: vec![1, 4, 3, 5, 4], ..mesh_4() }, ..sound() }.expect(17);
    }
}

/// Values and vector are as many as needed, and no more; the plan's own slices may be longer, whatever stands behind.
#[test]
fn lengths() {
    const LENGTHS: [usize; 9] = [0, 1, 3, 4, 5, 6, 7, 10, 11];
    for (diagonal, values) in LENGTHS.into_iter().flat_map(|d| LENGTHS.map(|s| (d, s))) {
        for vector in LENGTHS {
            let lists = (vec![2.0; diagonal], vec![0.0; values], vec![6.0; vector]);
            let expected = if [diagonal, values, vector] == [5; 3] { Ok(vec![3.0; 5]) } else { Err(30) };
            solve_expecting(&mesh_4(), &lists.0, &lists.1, &lists.2, &expected);
        }
    }
    for vector in [2, 4] {
        Case { plan: apart(3), diagonal: vec![1.0; 3], values: vec![], vector: vec![1.0; vector] }.expect(30);
    }
    let mut longer = mesh_4();
    for list in [&mut longer.order, &mut longer.sizes, &mut longer.parents, &mut longer.rows] {
        list.extend([65000, 0, 65535, 2]);
    }
    longer.column_starts.extend([u32::MAX, 0, 5]);
    let Case { diagonal, values, .. } = sound();
    let solution = Ok(vec![1.0, 2.0, 3.0, 4.0, 8.0]);
    solve_expecting(&longer, &diagonal, &values, &[8.0, 40.0, 64.0, 56.0, 174.0], &solution);
    Case { plan: longer, vector: vec![1.0; 9], ..sound() }.expect(30);
}

/// What factoring leaves passes 31; spoiled at any one place it does not, whatever the other pivots are.
#[test]
fn pivots_spoiled_behind_factoring() {
    let mut random = Random(93);
    let some = [mesh_4(), clique(1), clique(2), clique(7), apart(4)];
    for plan in some.into_iter().chain(plans(12, 30, &mut random)) {
        let values: Vec<f64> = (0..plan.s).map(|_| fraction(&mut random)).collect();
        let left = factor(&plan, &any_diagonal(0, plan.n, &mut random), &values);
        let vector: Vec<f64> = (0..plan.n).map(|_| fraction(&mut random)).collect();
        assert!(left.answer.is_ok() && solve(&plan, &left.diagonal, &left.values, &vector).is_ok());
        for (at, pivot) in (0..plan.n).flat_map(|at| NO_PIVOTS.map(|pivot| (at, pivot))) {
            let mut diagonal = left.diagonal.clone();
            diagonal[at] = pivot;
            solve_expecting(&plan, &diagonal, &left.values, &vector, &Err(31));
        }
        for pivot in NO_PIVOTS {
            solve_expecting(&plan, &vec![pivot; plan.n], &left.values, &vector, &Err(31));
        }
        for (at, pivot) in (0..plan.n).flat_map(|at| [5e-324, f64::MIN_POSITIVE, f64::MAX].map(|pivot| (at, pivot))) {
            let mut diagonal = left.diagonal.clone();
            diagonal[at] = pivot;
            assert!(solve(&plan, &diagonal, &left.values, &vector).is_ok());
        }
    }
}

/// Damaged plans are refused as the writer refuses them; 29, 30 and 31 come behind.
#[test]
fn damaged_plans() {
    let (mut random, mut met) = (Random(94), BTreeSet::new());
    for plan in plans(60, 14, &mut random) {
        for _ in 0..200 {
            let mut changed = plan.clone();
            (0..random.below(4)).for_each(|_| change_an_entry(&mut changed, &mut random));
            match random.below(4) {
                0 => lengthen(&mut changed, &mut random),
                1 => shorten(&mut changed, &mut random),
                _ => (),
            }
            changed.unknowns = random.pick(&[1, 1, 1, 1, 1, 2, 6, NO_UNKNOWNS[0], NO_UNKNOWNS[5]]);
            let length = |needed: usize| [needed, needed, needed, needed, needed + 1, needed.saturating_sub(1)];
            let mut diagonal = vec![2.5; random.pick(&length(plan.n))];
            let values = vec![0.25; random.pick(&length(plan.s))];
            let vector: Vec<f64> = (0..random.pick(&length(plan.n))).map(|_| fraction(&mut random)).collect();
            let spoiled = random.below(3) == 0 && !diagonal.is_empty();
            if spoiled {
                let at = random.below(diagonal.len());
                diagonal[at] = random.pick(&NO_PIVOTS);
            }
            let fits = [diagonal.len(), values.len(), vector.len()] == [plan.n, plan.s, plan.n];
            let number = match (plain::write(&changed, 10_000), changed.unknowns) {
                (Err(number), _) => number,
                (Ok(_), 2..) => 29,
                (Ok(_), _) => [if spoiled { 31 } else { 0 }, 30][usize::from(!fits)],
            };
            met.insert(number);
            match number {
                0 => assert!(solve(&changed, &diagonal, &values, &vector).is_ok()),
                _ => solve_expecting(&changed, &diagonal, &values, &vector, &Err(number)),
            }
        }
    }
    assert_eq!(met, BTreeSet::from([0, 13, 15, 16, 17, 18, 19, 28, 29, 30, 31]));
}

/// The owned plan refuses with 29, 30 and 31.
#[test]
fn by_an_owned_plan() {
    let (starts, neighbours) = ([0, 1, 3, 5, 7, 8], [1, 0, 2, 1, 3, 2, 4, 3]);
    let mesh = Mesh { nodes: 5, starts: &starts, neighbours: &neighbours };
    let (mut vector, ones) = ([7.0; 5], [1.0; 5]);
    let refused = |number| Err(Refusal(number));
    assert_eq!(Plan::of(2, &mesh).unwrap().solve(&ones, &ones, &mut vector), refused(29));
    let plan = Plan::of(1, &mesh).unwrap();
    assert_eq!(plan.solve(&ones[1..], &ones, &mut vector), refused(30));
    assert_eq!(plan.solve(&ones, &ones[1..], &mut vector), refused(30));
    assert_eq!(plan.solve(&ones, &ones, &mut vector[1..]), refused(30));
    assert_eq!(plan.solve(&[1.0, 1.0, 1.0, 1.0, 0.0], &ones, &mut vector), refused(31));
    assert_eq!(vector, [7.0; 5]);
}

/// Slices of length 0 may be null; with one node there are no slots.
#[test]
fn without_memory() {
    let (none, words, m, no) = (null::<u16>(), null::<u32>(), null::<f64>(), null_mut::<f64>());
    let (order, sizes, parents, starts, diagonal) = ([0u16], [1u16], [NONE], [0u32, 0], [2.0]);
    let (o, z, q, c, d) = (order.as_ptr(), sizes.as_ptr(), parents.as_ptr(), starts.as_ptr(), diagonal.as_ptr());
    let mut vector = [5.0];
    let v = vector.as_mut_ptr();
    // SAFETY: each pointer and length is that of an array, or null with length 0.
    unsafe {
        assert_eq!(ndf_solve(0, 0, 0, 0, none, 0, none, 0, none, 0, words, 0, none, 0, m, 0, m, 0, no, 0), 28);
        assert_eq!(ndf_solve(1, 0, 0, 0, none, 0, none, 0, none, 0, words, 0, none, 0, m, 0, m, 0, no, 0), 13);
        assert_eq!(ndf_solve(1, 1, 1, 0, none, 0, none, 0, none, 0, words, 0, none, 0, m, 0, m, 0, no, 0), 13);
        assert_eq!(ndf_solve(2, 1, 1, 0, o, 1, z, 1, q, 1, c, 2, none, 0, m, 0, m, 0, no, 0), 29);
        assert_eq!(ndf_solve(1, 1, 1, 0, o, 1, z, 1, q, 1, c, 2, none, 0, m, 0, m, 0, no, 0), 30);
        assert_eq!(ndf_solve(1, 1, 1, 0, o, 1, z, 1, q, 1, c, 2, none, 0, d, 1, m, 0, no, 0), 30);
        assert_eq!(ndf_solve(1, 1, 1, 0, o, 1, z, 1, q, 1, c, 2, none, 0, m, 0, m, 0, v, 1), 30);
        assert_eq!(ndf_solve(1, 1, 1, 0, o, 1, z, 1, q, 1, c, 2, none, 0, d, 1, m, 0, v, 1), 0);
    }
    assert_eq!((diagonal, vector), ([2.0], [2.5]));
}
