//! Factoring of generated plans and values: compared with plain C and with the sentence itself, bit for bit, and on sound
//! matrices multiplied out again.

use crate::calls::{ample_room, NO_UNKNOWNS};
use crate::damaged_files::small_plans;
use crate::damaged_writings::{change_an_entry, lengthen, shorten};
use crate::factor_calls::{factor, factor_expecting, Factoring};
use crate::factoring::NO_PIVOTS;
use crate::files::parts_of;
use crate::meshes;
use crate::random::Random;
use crate::sentence::by_sentence;
use plain::{FileParts, MeshLists, Planned};
use std::collections::BTreeSet;

/// Small plans of meshes, half of them not our planner's, of one unknown for each node.
pub fn plans(count: usize, size: usize, random: &mut Random) -> Vec<FileParts> {
    let one = |planned: &Planned| FileParts { unknowns: 1, ..parts_of(planned) };
    small_plans(count, size, random).iter().map(one).chain((0..count).map(|_| any_layout(size, random))).collect()
}

/// A plan of one part whose rows are drawn at random, with those that 19 asks for: gaps are anywhere, and a column may have
/// rows behind those of the columns that meet it.
fn any_layout(size: usize, random: &mut Random) -> FileParts {
    let n = 1 + random.below(size);
    let (mut sets, chance) = (vec![BTreeSet::new(); n], 1 + random.below(6));
    for j in 0..n {
        let drawn: Vec<u16> = (j as u16 + 1..n as u16).filter(|_| random.below(10) < chance).collect();
        sets[j].extend(drawn);
        let mut rows = sets[j].clone().into_iter();
        if let Some(first) = rows.next() {
            sets[first as usize].extend(rows);
        }
    }
    let mut column_starts = vec![0];
    for set in &sets {
        column_starts.push(column_starts[column_starts.len() - 1] + set.len() as u32);
    }
    let rows: Vec<u16> = sets.into_iter().flatten().collect();
    let order = (0..n as u16).collect();
    FileParts {
        unknowns: 1,
        n,
        p: 1,
        s: rows.len(),
        order,
        sizes: vec![n as u16],
        parents: vec![65535],
        column_starts,
        rows,
    }
}

/// Compares with the sentence and with plain C.
fn compare(plan: &FileParts, diagonal: &[f64], values: &[f64]) -> Factoring {
    let expected = by_sentence(plan, diagonal, values);
    factor_expecting(plan, diagonal, values, &expected);
    let plain = factor(plan, diagonal, values);
    assert_eq!(plain.answer, expected.answer, "plain C's answer");
    expected
}

/// The count that planning gives: the sum over the columns of c (c + 3) / 2.
fn planned_operations(plan: &FileParts) -> u64 {
    let counts = plan.column_starts.windows(2).take(plan.n).map(|pair| u64::from(pair[1] - pair[0]));
    counts.map(|c| c * (c + 3) / 2).sum()
}

/// A number between -1 and 1 with all bits of its fraction drawn.
pub fn fraction(random: &mut Random) -> f64 {
    (random.next() >> 11) as f64 / (1u64 << 52) as f64 - 1.0
}

/// A value of one of the kinds: about 1, huge, tiny, denormal, of any exponent, with few bits, or special.
pub fn any_value(kind: usize, random: &mut Random) -> f64 {
    let sound = fraction(random);
    match kind {
        0 => sound,
        1 => sound * 1e300,
        2 => sound * 1e-300,
        3 => f64::from_bits(random.next() & 0x800F_FFFF_FFFF_FFFF),
        4 => f64::from_bits(random.next()),
        5 => random.below(9) as f64 - 4.0,
        6 => sound * 2f64.powi(random.below(1000) as i32 - 500),
        _ => random.pick(&[
            0.0,
            -0.0,
            1.0,
            f64::MAX,
            f64::MIN_POSITIVE,
            5e-324,
            f64::INFINITY,
            f64::NEG_INFINITY,
            f64::NAN,
        ]),
    }
}

/// A diagonal that is mostly large beside the values, so that the work goes far.
pub fn any_diagonal(kind: usize, n: usize, random: &mut Random) -> Vec<f64> {
    let scale = [n as f64, 1e300, 1e-300, 1e-308, 1.0, 40.0, 1e150, 1e3][kind];
    (0..n).map(|_| scale * (1.0 + fraction(random).abs())).collect()
}

#[test]
fn values_of_every_kind() {
    let (mut random, mut finished, mut refused) = (Random(50), 0, 0);
    for plan in plans(40, 40, &mut random) {
        for round in 0..40 {
            let kind = round % 8;
            let mut values: Vec<f64> = (0..plan.s).map(|_| any_value(kind, &mut random)).collect();
            let mut diagonal = any_diagonal(kind, plan.n, &mut random);
            if random.below(4) == 0 {
                let other = random.below(8);
                let at = random.below(plan.n);
                diagonal[at] = any_value(other, &mut random);
                values.iter_mut().for_each(|value| {
                    if random.below(8) == 0 {
                        *value = any_value(other, &mut random)
                    }
                });
            }
            match compare(&plan, &diagonal, &values).answer {
                Ok(report) => {
                    assert_eq!(report.operations, planned_operations(&plan));
                    finished += 1
                }
                Err(number) => {
                    assert_eq!(number, 31);
                    refused += 1
                }
            }
        }
    }
    assert!(finished > 800 && refused > 800, "{finished} finished, {refused} refused");
}

/// Each column's pivot refused in turn, by each number that is none, with all columns before it finished.
#[test]
fn refused_at_each_column() {
    let mut random = Random(51);
    for plan in plans(30, 30, &mut random) {
        let values: Vec<f64> = (0..plan.s).map(|_| fraction(&mut random)).collect();
        let diagonal = any_diagonal(0, plan.n, &mut random);
        assert!(compare(&plan, &diagonal, &values).answer.is_ok());
        for j in 0..plan.n {
            let mut changed = diagonal.clone();
            changed[j] = NO_PIVOTS[(j + plan.n) % NO_PIVOTS.len()];
            let left = compare(&plan, &changed, &values);
            assert_eq!(left.answer, Err(31));
            let at = left.diagonal.iter().position(|pivot| !(*pivot > 0.0 && pivot.is_finite()));
            assert_eq!(at, Some(j), "the refused pivot is the first that is none");
            let span = |j: usize| plan.column_starts[j] as usize..plan.column_starts[j + 1] as usize;
            let whole = by_sentence(&plan, &diagonal, &values);
            for column in 0..j {
                assert_eq!(left.values[span(column)], whole.values[span(column)], "a finished column");
            }
        }
    }
}

/// Damaged plans are refused as the writer refuses them, with nothing written; 29 and 30 come behind.
#[test]
fn damaged_plans() {
    let (mut random, mut met) = (Random(54), BTreeSet::new());
    for plan in plans(60, 14, &mut random) {
        for _ in 0..200 {
            let mut changed = plan.clone();
            (0..random.below(4)).for_each(|_| change_an_entry(&mut changed, &mut random));
            match random.below(4) {
                0 => lengthen(&mut changed, &mut random),
                1 => shorten(&mut changed, &mut random),
                _ => (),
            }
            changed.unknowns = random.pick(&[1, 1, 1, 2, 6, NO_UNKNOWNS[0], NO_UNKNOWNS[5]]);
            let length = |needed: usize| [needed, needed, needed, needed + 1, needed / 2];
            let diagonal = vec![2.5; random.pick(&length(plan.n))];
            let values = vec![0.25; random.pick(&length(plan.s))];
            let fits = (diagonal.len(), values.len()) == (plan.n, plan.s);
            match (plain::write(&changed, 10_000), changed.unknowns, fits) {
                (Ok(_), 1, true) => met.insert(factor(&changed, &diagonal, &values).answer.err().unwrap_or(0)),
                (written, unknowns, _) => {
                    let number = written.err().unwrap_or(if unknowns > 1 { 29 } else { 30 });
                    factor_expecting(&changed, &diagonal, &values, &Factoring::refused(number, &diagonal, &values));
                    met.insert(number)
                }
            };
        }
    }
    assert!(met.is_superset(&BTreeSet::from([0, 13, 15, 16, 17, 18, 19, 28, 29, 30])), "{met:?}");
}

/// A plan's mesh, of one unknown for each node, with a matrix: a weight for each edge, and on the diagonal the weights of a
/// node's edges together with a number above 0.
struct Matrix {
    plan: FileParts,
    diagonal: Vec<f64>,
    values: Vec<f64>,
}

impl Matrix {
    fn of(mesh: &MeshLists, mut weight: impl FnMut() -> f64) -> Matrix {
        let planned = plain::plan(1, mesh, &ample_room(mesh.n)).unwrap();
        let (mut diagonal, mut values) = (vec![0.0; mesh.n], vec![0.0; planned.rows.len()]);
        for place in &mut diagonal {
            *place = weight();
        }
        for (v, w) in meshes::edges_of(mesh) {
            let (a, b) = (planned.positions[v] as usize, planned.positions[w] as usize);
            let (column, row) = (a.min(b), a.max(b));
            let start = planned.column_starts[column] as usize;
            let rows = &planned.rows[start..planned.column_starts[column + 1] as usize];
            let edge = weight();
            values[start + rows.binary_search(&(row as u16)).unwrap()] = -edge;
            diagonal[a] += edge;
            diagonal[b] += edge;
        }
        Matrix { plan: parts_of(&planned), diagonal, values }
    }

    /// The largest difference between L D Lᵀ and the matrix at any pair, in units of 2^-53 times the largest entry times the
    /// number of terms that the pair's entry has.
    fn difference(&self, factored: &Factoring) -> f64 {
        let (starts, rows) = (&self.plan.column_starts, &self.plan.rows);
        let (mut diagonal, mut values) = (factored.diagonal.clone(), vec![0.0; self.plan.s]);
        let (mut terms, mut slot_terms) = (vec![1.0; self.plan.n], vec![1.0; self.plan.s]);
        for j in 0..self.plan.n {
            let (from, to) = (starts[j] as usize, starts[j + 1] as usize);
            let d = factored.diagonal[j];
            for k in from..to {
                values[k] += d * factored.values[k];
                let (row, l) = (rows[k] as usize, factored.values[k]);
                diagonal[row] += l * d * l;
                terms[row] += 1.0;
                let mut slot = starts[row] as usize;
                for i in k + 1..to {
                    slot += rows[slot..].iter().position(|other| *other == rows[i]).unwrap();
                    values[slot] += factored.values[i] * d * l;
                    slot_terms[slot] += 1.0;
                }
            }
        }
        let unit = 2f64.powi(-53) * self.diagonal.iter().fold(0.0, |a: f64, b| a.max(*b));
        let far = |made: f64, right: f64, terms: f64| (made - right).abs() / (unit * terms);
        let on = (0..self.plan.n).map(|j| far(diagonal[j], self.diagonal[j], terms[j]));
        let off = (0..self.plan.s).map(|k| far(values[k], self.values[k], slot_terms[k]));
        on.chain(off).fold(0.0, f64::max)
    }
}

/// The factors of sound matrices, multiplied, are the matrix. The entry of a pair k <= i is reached by m subtractions, and
/// multiplied out it has m + 1 terms. In a matrix like this one the squares l l d of a row sum to its entry of the diagonal
/// at most, so the terms of an entry together, and all sums on the way, are at most the largest entry A of the diagonal. A
/// term passes a quotient, a product and a difference when it is subtracted, and two products and a sum when it is made
/// again: six roundings of 2^-53 A at most, and the sums' roundings count for each term. So 6 units for each term suffice.
#[test]
fn factors_multiplied_are_the_matrix() {
    let mut random = Random(52);
    let sizes = [(50, 5, 10), (120, 10, 12), (300, 15, 20), (900, 30, 30), (2000, 40, 50), (4096, 64, 64)];
    for (nodes, width, height) in sizes {
        let plate = meshes::shuffled(&meshes::grid(width, height, true), &mut random);
        let tree = meshes::tree(nodes, nodes, &mut random);
        let sparse = meshes::random_graph(nodes.min(900), nodes.min(900) * 2, &mut random);
        for mesh in [plate, meshes::plate_with_holes(width, height, 3, &mut random), tree, sparse] {
            let laplacian = Matrix::of(&mesh, || 1.0);
            let weighted = Matrix::of(&mesh, || 0.01 + fraction(&mut random).abs());
            for matrix in [laplacian, weighted] {
                let factored = factor(&matrix.plan, &matrix.diagonal, &matrix.values);
                let report = factored.answer.unwrap();
                assert_eq!(report.operations, planned_operations(&matrix.plan));
                let pivots = factored.diagonal.iter().map(|pivot| pivot.to_bits());
                assert_eq!(pivots.clone().min(), Some(report.smallest.to_bits()));
                assert_eq!(pivots.max(), Some(report.largest.to_bits()));
                assert!(matrix.difference(&factored) < 6.0, "{} nodes", mesh.n);
                let mut wrong = factored.clone();
                wrong.values[0] *= 1.0 + 1e-9;
                assert!(matrix.difference(&wrong) > 6.0, "a wrong factor of {} nodes is told", mesh.n);
            }
        }
    }
}

/// The largest plan, and the largest column: every pair of 4,096 positions has a slot. Only the first columns are left to do,
/// since a later pivot is refused.
#[test]
fn every_slot_of_4096_nodes() {
    let n = 4096;
    let plan = FileParts {
        unknowns: 1,
        n,
        p: 1,
        s: n * (n - 1) / 2,
        order: (0..n as u16).collect(),
        sizes: vec![n as u16],
        parents: vec![65535],
        column_starts: (0..=n).map(|j| (j * (2 * n - 1 - j) / 2) as u32).collect(),
        rows: (0..n as u16).flat_map(|j| j + 1..n as u16).collect(),
    };
    let mut random = Random(53);
    let values: Vec<f64> = (0..plan.s).map(|_| fraction(&mut random)).collect();
    let mut diagonal = any_diagonal(0, n, &mut random);
    diagonal[3] = -1.0;
    let left = factor(&plan, &diagonal, &values);
    assert_eq!(left.answer, Err(31));
    assert_eq!(left.values[0].to_bits(), (values[0] / diagonal[0]).to_bits());
    assert_eq!(left.values[plan.column_starts[3] as usize].to_bits(), by_hand(&diagonal, &values).to_bits());
}

/// Slot of rows 4 and 3 behind columns 0 to 2 of the largest plan.
fn by_hand(diagonal: &[f64], values: &[f64]) -> f64 {
    let n = 4096;
    let at = |column: usize, row: usize| column * (2 * n - 1 - column) / 2 + row - column - 1;
    let (mut d, mut x) = ([0.0; 5], [[0.0; 5]; 5]);
    for j in 0..5 {
        d[j] = diagonal[j];
        (j + 1..5).for_each(|i| x[j][i] = values[at(j, i)]);
    }
    for j in 0..3 {
        let v = x[j];
        for k in j + 1..5 {
            d[k] -= (v[k] / d[j]) * v[k];
            for i in k + 1..5 {
                x[k][i] -= (v[i] / d[j]) * v[k];
            }
        }
    }
    x[3][4]
}
