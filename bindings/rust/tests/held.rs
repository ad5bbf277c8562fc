//! What is held at a pair of positions: every pair of small plans, in both orders, against the slots as they are counted off here,
//! and every refusal, alone and beside a later one.

use crate::calls::{ample_room, plan};
use crate::damaged_files::small_plans;
use crate::factored::any_value;
use crate::held_calls::{held, held_expecting};
use crate::meshes;
use crate::random::Random;
use ndplan::ffi::{ndf_held, NdfHeld};
use ndplan::{Held, Mesh, Plan, Refusal};
use plain::Filled;
use std::collections::{BTreeMap, BTreeSet};
use std::ptr::null;

/// The numbers by row and column, counted off column after column. Every other pair has no slot.
fn table(filled: &Filled) -> BTreeMap<(usize, usize), f64> {
    let mut table: BTreeMap<_, _> = (0..filled.n).map(|j| ((j, j), filled.diagonal[j])).collect();
    let columns = filled.starts.windows(2).enumerate();
    let columns = columns.flat_map(|(j, pair)| (pair[0]..pair[1]).map(move |_| j));
    for (slot, column) in columns.enumerate() {
        table.insert((filled.rows[slot] as usize, column), filled.values[slot]);
    }
    table
}

/// Every pair of positions, in both orders.
fn compare_all(filled: &Filled) {
    let table = table(filled);
    for (a, b) in (0..filled.n).flat_map(|a| (0..filled.n).map(move |b| (a, b))) {
        let expected = Ok(table.get(&(a.max(b), a.min(b))).copied());
        held_expecting(filled, a, b, expected);
        assert_eq!(held(filled, a, b).map(|number| number.is_some()), Ok(table.contains_key(&(a.max(b), a.min(b)))));
    }
}

/// A layout filled with numbers that are all different, and none of them 0.
fn filled(n: usize, starts: &[u32], rows: &[u16], behind: &[u16]) -> Filled {
    let diagonal = (0..n).map(|j| 1000.0 + j as f64).collect();
    let values = (0..rows.len()).map(|k| -1.0 - k as f64).collect();
    Filled { n, starts: starts.to_vec(), rows: [rows, behind].concat(), diagonal, values }
}

/// Every layout of at most four nodes, with and without rows behind the slots.
#[test]
fn all_small_layouts() {
    for n in 1..=4 {
        let pairs: Vec<(usize, u16)> = (0..n).flat_map(|j| (j as u16 + 1..n as u16).map(move |i| (j, i))).collect();
        for chosen in 0..1usize << pairs.len() {
            let mut columns = vec![vec![]; n];
            let with_slot = pairs.iter().enumerate().filter(|(k, _)| chosen >> k & 1 == 1);
            with_slot.for_each(|(_, (j, i))| columns[*j].push(*i));
            let lists = meshes::from_lists(&columns);
            compare_all(&filled(n, &lists.starts, &lists.neighbours, &[]));
            compare_all(&filled(n, &lists.starts, &lists.neighbours, &[3, 0, 65535]));
        }
    }
}

/// Plans of meshes and others, and numbers of every kind, those that are not finite and both zeros among them.
#[test]
fn small_plans_with_any_numbers() {
    let mut random = Random(95);
    for (round, plan) in small_plans(60, 24, &mut random).iter().enumerate() {
        let n = plan.order.len();
        let mut drawn = |count: usize| (0..count).map(|_| any_value(round % 8, &mut random)).collect::<Vec<f64>>();
        let (diagonal, values) = (drawn(n), drawn(plan.rows.len()));
        let (starts, rows) = (plan.column_starts.clone(), plan.rows.clone());
        compare_all(&Filled { n, starts, rows, diagonal, values });
    }
}

/// A number that is 0 or -0.0 is held; where none is, the value is 0.0.
#[test]
fn zeros_are_numbers() {
    let zeros =
        Filled { n: 3, starts: vec![0, 1, 1, 1], rows: vec![2], diagonal: vec![0.0, -0.0, 1.0], values: vec![-0.0] };
    for (a, b, expected) in [(0, 0, Some(0.0)), (1, 1, Some(-0.0)), (0, 2, Some(-0.0)), (0, 1, None), (1, 2, None)] {
        held_expecting(&zeros, a, b, Ok(expected));
        held_expecting(&zeros, b, a, Ok(expected));
    }
}

type Fault = (u32, fn(&mut Asked));

/// A layout and the pair that is asked about.
#[derive(Clone)]
struct Asked {
    filled: Filled,
    a: usize,
    b: usize,
}

fn sound() -> Asked {
    Asked { filled: filled(5, &[0, 1, 2, 4, 5, 5], &[1, 4, 3, 4, 4], &[]), a: 4, b: 2 }
}

/// Faults of each check, in the order of the checks; each leaves the others possible.
const FAULTS: [Fault; 26] = [
    (1, |asked| asked.filled.n = 0),
    (1, |asked| asked.filled.n = 4097),
    (1, |asked| asked.filled.n = 65536 + 5),
    (1, |asked| asked.filled.n = usize::MAX),
    (22, |asked| asked.filled.starts.clear()),
    (22, |asked| asked.filled.starts.truncate(5)),
    (22, |asked| asked.filled.starts.push(5)),
    (22, |asked| change_start(asked, 0, 1)),
    (22, |asked| change_start(asked, 2, 0)),
    (22, |asked| change_start(asked, 5, 6)),
    (22, |asked| change_row(asked, 0, 0)),
    (22, |asked| change_row(asked, 2, 4)),
    (22, |asked| change_row(asked, 4, 5)),
    (22, |asked| asked.filled.rows.truncate(4)),
    (30, |asked| asked.filled.diagonal.clear()),
    (30, |asked| asked.filled.diagonal.truncate(4)),
    (30, |asked| asked.filled.diagonal.resize(6, 1.0)),
    (30, |asked| asked.filled.values.clear()),
    (30, |asked| asked.filled.values.truncate(4)),
    (30, |asked| asked.filled.values.resize(6, 1.0)),
    (21, |asked| asked.a = 5),
    (21, |asked| asked.b = 5),
    (21, |asked| (asked.a, asked.b) = (5, 5)),
    (21, |asked| asked.a = 65536),
    (21, |asked| asked.b = 1 << 32),
    (21, |asked| (asked.a, asked.b) = (usize::MAX, usize::MAX)),
];

/// A start, where there is one.
fn change_start(asked: &mut Asked, at: usize, start: u32) {
    if let Some(place) = asked.filled.starts.get_mut(at) {
        *place = start;
    }
}

/// A row, where there is one.
fn change_row(asked: &mut Asked, at: usize, row: u16) {
    if let Some(place) = asked.filled.rows.get_mut(at) {
        *place = row;
    }
}

fn expect(asked: &Asked, number: u32) {
    held_expecting(&asked.filled, asked.a, asked.b, Err(number));
    held_expecting(&asked.filled, asked.b, asked.a, Err(number));
}

#[test]
fn each_fault_alone() {
    let Asked { filled, a, b } = sound();
    held_expecting(&filled, a, b, Ok(Some(-4.0)));
    for (number, fault) in FAULTS {
        let mut asked = sound();
        fault(&mut asked);
        expect(&asked, number);
    }
}

/// Of two faults the earlier check's is told. The later one is made first, since both may be of one field.
#[test]
fn two_faults() {
    for (k, (number, fault)) in FAULTS.iter().enumerate() {
        for (_, later) in &FAULTS[k + 1..] {
            let mut asked = sound();
            later(&mut asked);
            fault(&mut asked);
            expect(&asked, *number);
        }
    }
}

/// The values are as many as the last start says, however many rows there are; the rows behind are not looked at.
#[test]
fn lengths() {
    let (starts, rows) = ([0, 1, 2, 4, 5, 5], [1, 4, 3, 4, 4]);
    let longer = filled(5, &starts, &rows, &[0, 65535, 9]);
    held_expecting(&longer, 2, 4, Ok(Some(-4.0)));
    for (diagonal, values) in (0..9).flat_map(|diagonal| (0..9).map(move |values| (diagonal, values))) {
        let lent = Filled { diagonal: vec![1.5; diagonal], values: vec![2.5; values], ..longer.clone() };
        let fits = (diagonal, values) == (5, 5);
        held_expecting(&lent, 2, 4, if fits { Ok(Some(2.5)) } else { Err(30) });
        held_expecting(&lent, 0, 4, if fits { Ok(None) } else { Err(30) });
        held_expecting(&lent, 3, 3, if fits { Ok(Some(1.5)) } else { Err(30) });
        held_expecting(&lent, 5, 3, Err(if fits { 21 } else { 30 }));
    }
}

/// Damaged layouts: what plain C answers, by which every number is met.
#[test]
fn damaged_layouts() {
    let (mut random, mut met) = (Random(96), BTreeSet::new());
    for round in 0..2000 {
        let mesh = meshes::any(3 + round / 100, &mut random);
        let planned = plan(1, &mesh, &ample_room(mesh.n)).unwrap();
        let n = mesh.n;
        let mut asked = Asked { filled: filled(n, &planned.column_starts, &planned.rows, &[]), a: 0, b: 0 };
        (asked.a, asked.b) = (random.below(n + 1), random.below(n + 1));
        for _ in 0..random.below(3) {
            let (at, slots) = (random.below(n + 1), planned.rows.len());
            match random.below(6) {
                0 => asked.filled.n = random.pick(&[0, n - 1, n + 1, 4097]),
                1 => change_start(&mut asked, at, random.below(slots + 2) as u32),
                2 => change_row(&mut asked, random.below(slots + 1), random.below(n + 1) as u16),
                3 => asked.filled.diagonal.truncate(at),
                4 => asked.filled.values.truncate(random.below(slots + 1)),
                _ => asked.filled.rows.push(0),
            }
        }
        met.insert(held(&asked.filled, asked.a, asked.b).err());
    }
    assert_eq!(met, BTreeSet::from([None, Some(1), Some(21), Some(22), Some(30)]));
}

/// The owned plan tells the matrix before factoring and the factor behind it, and refuses with 30 and 21.
#[test]
fn by_an_owned_plan() {
    let lists = meshes::path(5);
    let plan = Plan::of(6, &Mesh { nodes: 5, starts: &lists.starts, neighbours: &lists.neighbours }).unwrap();
    let (diagonal, values) = ([4.0, 3.0, 8.0, 4.5, 17.25], [2.0, 4.0, 2.0, 4.0, 4.0]);
    assert_eq!(plan.held(&diagonal, &values, 4, 4), Ok(Held::Value(17.25)));
    assert_eq!(plan.held(&diagonal, &values, 2, 3), Ok(Held::Value(2.0)));
    assert_eq!(plan.held(&diagonal, &values, 3, 2), Ok(Held::Value(2.0)));
    assert_eq!(plan.held(&diagonal, &values, 0, 4), Ok(Held::NoSlot));
    assert_eq!(plan.held(&diagonal, &values, 0, 5), Err(Refusal(21)));
    assert_eq!(plan.held(&diagonal[1..], &values, 0, 5), Err(Refusal(30)));
    assert_eq!(plan.held(&diagonal, &values[1..], 0, 5), Err(Refusal(30)));
}

/// Slices of length 0 may be null; with one node there are no rows and no slots.
#[test]
fn without_memory() {
    let (starts, diagonal) = ([0u32, 0], [2.5]);
    let (words, rows, m) = (null::<u32>(), null::<u16>(), null::<f64>());
    let (s, d) = (starts.as_ptr(), diagonal.as_ptr());
    let refused = |refusal| NdfHeld { refusal, kind: 0, value: 0.0 };
    // SAFETY: each pointer and length is that of an array, or null with length 0.
    unsafe {
        assert_eq!(ndf_held(0, words, 0, rows, 0, m, 0, m, 0, 0, 0), refused(1));
        assert_eq!(ndf_held(1, words, 0, rows, 0, m, 0, m, 0, 0, 0), refused(22));
        assert_eq!(ndf_held(1, s, 2, rows, 0, m, 0, m, 0, 7, 7), refused(30));
        assert_eq!(ndf_held(1, s, 2, rows, 0, d, 1, m, 0, 1, 0), refused(21));
        assert_eq!(ndf_held(1, s, 2, rows, 0, d, 1, m, 0, 0, 0), NdfHeld { refusal: 0, kind: 1, value: 2.5 });
    }
}
