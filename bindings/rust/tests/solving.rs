//! Solving: worked cases with their bits, and generated factors and vectors against the sentence itself and plain C, bit for
//! bit. The worked numbers stand here by themselves.

use crate::calls::ample_room;
use crate::factor_calls::factor;
use crate::factored::{any_diagonal, any_value, fraction, plans};
use crate::factoring::{apart, clique, mesh_4};
use crate::files::parts_of;
use crate::meshes;
use crate::random::Random;
use crate::sentence::solved_by_sentence;
use crate::solve_calls::{solve, solve_expecting};
use ndplan::{Mesh, Plan};
use plain::{FileParts, MeshLists};
use std::collections::BTreeSet;

/// Solves and compares with these entries.
fn expect(plan: &FileParts, diagonal: &[f64], values: &[f64], vector: &[f64], solution: &[f64]) {
    solve_expecting(plan, diagonal, values, vector, &Ok(solution.to_vec()));
}

/// Two pairs of neighbours, side by side.
fn two_pairs() -> FileParts {
    FileParts {
        unknowns: 1,
        n: 4,
        p: 2,
        s: 2,
        order: vec![0, 1, 2, 3],
        sizes: vec![2, 2],
        parents: vec![65535, 65535],
        column_starts: vec![0, 1, 1, 2, 2],
        rows: vec![1, 3],
    }
}

/// Every number here is exact. Lᵀ x is 2, 18, 8, 10, 8, and with D it is 8, 36, 64, 40, 40.
#[test]
fn mesh_4_by_hand() {
    let (diagonal, values) = ([4.0, 2.0, 8.0, 4.0, 5.0], [0.5, 2.0, 0.25, 0.5, 0.75]);
    let (load, solution) = ([8.0, 40.0, 64.0, 56.0, 174.0], [1.0, 2.0, 3.0, 4.0, 8.0]);
    expect(&mesh_4(), &diagonal, &values, &load, &solution);
    let lists = meshes::path(5);
    let plan = Plan::of(1, &Mesh { nodes: 5, starts: &lists.starts, neighbours: &lists.neighbours }).unwrap();
    let mut vector = load;
    assert_eq!(plan.solve(&diagonal, &values, &mut vector), Ok(()));
    assert_eq!(vector, solution);
}

/// Nodes without neighbours are divided by their pivots, and not multiplied by 1 / d.
#[test]
fn single_nodes() {
    expect(&apart(1), &[4.0], &[], &[10.0], &[2.5]);
    expect(&apart(3), &[4.0, 0.5, 2.0], &[], &[10.0, 3.0, -1.0], &[2.5, 6.0, -0.5]);
    let third = f64::from_bits(0x3FD5_5555_5555_5555);
    expect(&apart(1), &[3.0], &[], &[1.0], &[third]);
    assert_ne!(5.0 * (1.0 / 49.0), 5.0 / 49.0);
    expect(&apart(1), &[49.0], &[], &[5.0], &[5.0 / 49.0]);
}

/// Forward, entry 2 loses column 0's product before column 1's: 1 - 1 - 2^-60, and not 1 - 2^-60 - 1, which is 0.
#[test]
fn forward_columns_ascend() {
    let tiny = 2f64.powi(-60);
    assert_eq!((1.0 - tiny - 1.0, 1.0 - 1.0 - tiny), (0.0, -tiny));
    expect(&clique(3), &[1.0; 3], &[0.0, 1.0, tiny], &[1.0, 1.0, 1.0], &[1.0, 1.0, -tiny]);
}

/// Backward, entry 0 loses row 1's product before row 2's. Its entry before is 1, as are those of rows 1 and 2.
#[test]
fn backward_rows_ascend() {
    let tiny = 2f64.powi(-60);
    expect(&clique(3), &[1.0; 3], &[1.0, tiny, 0.0], &[1.0, 2.0, 1.0], &[-tiny, 1.0, 1.0]);
}

/// The division stands between both passes, by each entry's own pivot.
#[test]
fn divided_between_the_passes() {
    // Forward 6, 8 - 0.5 * 6 = 5; divided 3, 1.25; backward 3 - 0.5 * 1.25.
    expect(&clique(2), &[2.0, 4.0], &[0.5], &[6.0, 8.0], &[2.375, 1.25]);
}

/// A product and a difference are two operations, in both passes: fused, they would leave less than 2^-29.
#[test]
fn nothing_is_fused() {
    let (second, value) = (1.0 + 2f64.powi(-28), 1.0 + 2f64.powi(-30));
    let left = f64::from_bits(0x3E20_0000_0000_0000);
    assert_eq!(left, 2f64.powi(-29));
    assert_ne!((-value).mul_add(value, second), left);
    // Forward: entry 1 is what is left. Its pivot makes it so small that entry 0 loses nothing by it.
    expect(&clique(2), &[1.0, 2f64.powi(1000)], &[value], &[value, second], &[value, 2f64.powi(-1029)]);
    // Backward: entry 1 is made to be `value` by its pivot.
    let entry = 4.0 - value * second;
    let pivot = entry / value;
    assert_eq!(entry / pivot, value);
    expect(&clique(2), &[1.0, pivot], &[value], &[second, 4.0], &[left, value]);
}

/// The sign of a zero is that of the operations: -0.0 - 0.0 is -0.0, and -0.0 - -0.0 is 0.0, so a product of zero counts.
#[test]
fn zeros_have_signs() {
    expect(&apart(2), &[2.0, 2.0], &[], &[-0.0, 0.0], &[-0.0, 0.0]);
    expect(&clique(2), &[1.0, 1.0], &[0.0], &[1.0, -0.0], &[1.0, -0.0]);
    expect(&clique(2), &[1.0, 1.0], &[-0.0], &[1.0, -0.0], &[1.0, 0.0]);
    // Forward 0.0 - 1.0 * -0.0 is 0.0; backward -0.0 - 1.0 * 0.0 is -0.0.
    expect(&clique(2), &[1.0, 1.0], &[1.0], &[-0.0, 0.0], &[-0.0, 0.0]);
    // Forward -0.0 - -1.0 * -0.0 is -0.0; backward -0.0 - -1.0 * -0.0 is -0.0.
    expect(&clique(2), &[1.0, 1.0], &[-1.0], &[-0.0, -0.0], &[-0.0, -0.0]);
    // Backward -0.0 - -0.0 * 1.0 is 0.0.
    expect(&clique(2), &[1.0, 1.0], &[-0.0], &[-0.0, 1.0], &[0.0, 1.0]);
}

/// Denormal numbers are kept, as quotients, products, differences and pivots, and ties go to the even one.
#[test]
fn denormals_are_kept() {
    let units = f64::from_bits;
    expect(&apart(3), &[2.0; 3], &[], &[units(1), units(3), units(5)], &[0.0, units(2), units(2)]);
    expect(&apart(1), &[units(1)], &[], &[units(3)], &[3.0]);
    expect(&apart(1), &[f64::MAX], &[], &[1.0], &[1.0 / f64::MAX]);
    assert!(!(1.0 / f64::MAX).is_normal());
    // Forward 3 units less 2^-537 * 2^-537, which is one; backward nothing is left of 2^-537 times 2 units.
    let root = 2f64.powi(-537);
    expect(&clique(2), &[1.0, 1.0], &[root], &[root, units(3)], &[root, units(2)]);
    // Backward 5 units less 1 * 2.
    expect(&clique(2), &[1.0, 1.0], &[1.0], &[units(5), units(7)], &[units(3), units(2)]);
}

/// A number in l that is not finite is no refusal: it runs through what depends on it, and through nothing else.
#[test]
fn slots_that_are_not_finite() {
    let (diagonal, vector) = ([1.0, 1.0, 2.0, 4.0], [1.0, 2.0, 8.0, 8.0]);
    for (value, first, second) in [
        (f64::NAN, f64::NAN, f64::NAN),
        (f64::INFINITY, f64::INFINITY, f64::NEG_INFINITY),
        (f64::NEG_INFINITY, f64::INFINITY, f64::INFINITY),
    ] {
        expect(&two_pairs(), &diagonal, &[value, 0.5], &vector, &[first, second, 3.5, 1.0]);
    }
    // An infinity times 0 is NaN, also where the entry is 0 from the start.
    expect(&two_pairs(), &diagonal, &[f64::INFINITY, 0.5], &[0.0, 2.0, 8.0, 8.0], &[f64::NAN, f64::NAN, 3.5, 1.0]);
    // So for the vector: entry 1 becomes 0 - number, and entry 0 loses that.
    for number in [f64::NAN, f64::INFINITY, f64::NEG_INFINITY] {
        expect(&clique(2), &[1.0; 2], &[1.0], &[number, 0.0], &[number, -number]);
    }
    // And for an overflow on the way.
    expect(&clique(2), &[1.0; 2], &[f64::MAX], &[2.0, 0.0], &[f64::INFINITY, f64::NEG_INFINITY]);
    expect(&apart(1), &[5e-324], &[], &[1.0], &[f64::INFINITY]);
}

/// A plan of parts that hang on any later part or on none, so that the parts of a branch need not follow one another. The rows of a
/// column are drawn among those of its part and that part's ancestors, with those that 19 asks for.
fn any_branches(parts: usize, random: &mut Random) -> FileParts {
    let sizes: Vec<u16> = (0..parts).map(|_| 1 + random.below(4) as u16).collect();
    let parents: Vec<u16> = (0..parts).map(|q| later_part(q, parts, random)).collect();
    let part_of: Vec<usize> = (0..parts).flat_map(|q| vec![q; sizes[q] as usize]).collect();
    let n = part_of.len();
    let (mut sets, chance) = (vec![BTreeSet::new(); n], 2 + random.below(8));
    for j in 0..n {
        let line = ancestors(&parents, part_of[j]);
        let drawn: Vec<u16> =
            (j + 1..n).filter(|i| line.contains(&part_of[*i]) && random.below(10) < chance).map(|i| i as u16).collect();
        sets[j].extend(drawn);
        let mut rows = sets[j].clone().into_iter();
        if let Some(first) = rows.next() {
            sets[first as usize].extend(rows);
        }
    }
    let columns: Vec<Vec<u16>> = sets.into_iter().map(|set| set.into_iter().collect()).collect();
    let MeshLists { starts, neighbours, .. } = meshes::from_lists(&columns);
    let (order, s) = ((0..n as u16).collect(), neighbours.len());
    FileParts { unknowns: 1, n, p: parts, s, order, sizes, parents, column_starts: starts, rows: neighbours }
}

/// A part behind q, or now and then none.
fn later_part(q: usize, parts: usize, random: &mut Random) -> u16 {
    match parts - 1 - q {
        0 => 65535,
        later if random.below(8) > 0 => (q + 1 + random.below(later.min(5))) as u16,
        _ => 65535,
    }
}

/// The part itself and its ancestors.
fn ancestors(parents: &[u16], part: usize) -> Vec<usize> {
    std::iter::successors(Some(part), |q| (parents[*q] != 65535).then_some(parents[*q] as usize)).collect()
}

/// Compares with the sentence and with plain C, and gives the solution.
fn compare(plan: &FileParts, diagonal: &[f64], values: &[f64], vector: &[f64]) -> Result<Vec<f64>, u32> {
    let expected = solved_by_sentence(plan, diagonal, values, vector);
    solve_expecting(plan, diagonal, values, vector, &expected);
    let plain = solve(plan, diagonal, values, vector);
    assert_eq!(plain.err(), expected.as_ref().err().copied(), "plain C's answer");
    expected
}

/// Numbers of every kind, whether or not they are a factor's: each slot and each entry of the vector of any kind, and now and
/// then a pivot.
#[test]
fn values_of_every_kind() {
    let mut random = Random(90);
    let [mut refused, mut nan, mut finite, mut denormal] = [0; 4];
    for plan in plans(40, 40, &mut random) {
        for round in 0..64 {
            let (kind, other) = (round % 8, round / 8);
            let values: Vec<f64> = (0..plan.s).map(|_| any_value(kind, &mut random)).collect();
            let vector: Vec<f64> = (0..plan.n).map(|_| any_value(other, &mut random)).collect();
            let mut diagonal = any_diagonal(random.below(8), plan.n, &mut random);
            if random.below(4) == 0 {
                let at = random.below(plan.n);
                diagonal[at] = any_value(random.below(8), &mut random);
            }
            match compare(&plan, &diagonal, &values, &vector) {
                Err(number) => {
                    assert_eq!(number, 31);
                    refused += 1
                }
                Ok(solution) => {
                    nan += usize::from(solution.iter().any(|entry| entry.is_nan()));
                    finite += usize::from(solution.iter().all(|entry| entry.is_finite()));
                    denormal += usize::from(solution.iter().any(|entry| entry.is_subnormal()));
                }
            }
        }
    }
    assert!(refused > 200 && nan > 1000 && finite > 1000 && denormal > 200, "{refused} {nan} {finite} {denormal}");
}

/// What factoring leaves, on plans of meshes and on others.
#[test]
fn factors_of_random_meshes() {
    let mut random = Random(91);
    for plan in plans(60, 120, &mut random) {
        let values: Vec<f64> = (0..plan.s).map(|_| fraction(&mut random)).collect();
        let left = factor(&plan, &any_diagonal(0, plan.n, &mut random), &values);
        assert!(left.answer.is_ok());
        for kind in [0, 5, 6] {
            let vector: Vec<f64> = (0..plan.n).map(|_| any_value(kind, &mut random)).collect();
            assert!(compare(&plan, &left.diagonal, &left.values, &vector).is_ok());
        }
    }
}

/// Parts in branches of every kind.
#[test]
fn any_tree_of_parts() {
    let mut random = Random(100);
    for round in 0..2000 {
        let plan = any_branches(1 + round % 40, &mut random);
        let values: Vec<f64> = (0..plan.s).map(|_| fraction(&mut random)).collect();
        let vector: Vec<f64> = (0..plan.n).map(|_| fraction(&mut random)).collect();
        assert!(compare(&plan, &any_diagonal(5, plan.n, &mut random), &values, &vector).is_ok());
    }
}

/// Larger plans, with branches of every shape.
#[test]
fn factors_of_large_meshes() {
    let mut random = Random(92);
    let plate = meshes::shuffled(&meshes::grid(30, 30, true), &mut random);
    let beside = meshes::side_by_side(&[meshes::grid(12, 20, true), meshes::path(200), meshes::ring(90)]);
    let holes = meshes::plate_with_holes(24, 40, 5, &mut random);
    for mesh in [plate, beside, holes, meshes::tree(900, 900, &mut random), meshes::random_graph(400, 900, &mut random)]
    {
        let plan = parts_of(&plain::plan(1, &mesh, &ample_room(mesh.n)).unwrap());
        let values: Vec<f64> = (0..plan.s).map(|_| fraction(&mut random)).collect();
        let left = factor(&plan, &any_diagonal(0, plan.n, &mut random), &values);
        let vector: Vec<f64> = (0..plan.n).map(|_| fraction(&mut random)).collect();
        assert!(compare(&plan, &left.diagonal, &left.values, &vector).is_ok());
    }
}
