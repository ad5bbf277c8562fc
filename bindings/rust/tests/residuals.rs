//! Whole solves: meshes are planned, filled with stiffnesses, factored and solved for a solution that is known, and the residual
//! is computed from the mesh's edges, without plan and slots.

use crate::meshes;
use crate::random::Random;
use ndplan::{Mesh, OwnedMesh, Plan};
use plain::MeshLists;

/// A mesh's matrix by nodes: a stiffness for each edge, and on the diagonal a node's foundation with the stiffnesses of all its
/// edges. Stiffnesses and foundations are eighths from 1/8 to 2, so that every entry is exact.
struct Stiffnesses {
    n: usize,
    edges: Vec<(usize, usize, f64)>,
    foundations: Vec<f64>,
}

impl Stiffnesses {
    fn of(mesh: &MeshLists, random: &mut Random) -> Stiffnesses {
        let mut eighths = || (1 + random.below(16)) as f64 / 8.0;
        let foundations = (0..mesh.n).map(|_| eighths()).collect();
        let edges = meshes::edges_of(mesh).into_iter().map(|(v, w)| (v, w, eighths())).collect();
        Stiffnesses { n: mesh.n, edges, foundations }
    }

    fn diagonal(&self) -> Vec<f64> {
        let mut diagonal = self.foundations.clone();
        for &(v, w, stiffness) in &self.edges {
            diagonal[v] += stiffness;
            diagonal[w] += stiffness;
        }
        diagonal
    }

    /// The matrix times a vector, by nodes. An edge's part is its stiffness times the difference of its ends, which is the same
    /// sum in another order than that of the rows.
    fn times(&self, x: &[f64]) -> Vec<f64> {
        let mut product: Vec<f64> =
            self.foundations.iter().zip(x).map(|(foundation, entry)| foundation * entry).collect();
        for &(v, w, stiffness) in &self.edges {
            product[v] += stiffness * (x[v] - x[w]);
            product[w] += stiffness * (x[w] - x[v]);
        }
        product
    }

    /// The largest sum of the absolute entries of a row: twice the diagonal without the foundation.
    fn norm(&self) -> f64 {
        self.diagonal()
            .iter()
            .zip(&self.foundations)
            .map(|(entry, foundation)| 2.0 * entry - foundation)
            .fold(0.0, f64::max)
    }
}

/// The filled plan of a mesh: the matrix by position and by slot. The slot is looked up among the rows of its column.
struct Filled {
    plan: Plan,
    diagonal: Vec<f64>,
    values: Vec<f64>,
}

impl Filled {
    fn of(mesh: &MeshLists, matrix: &Stiffnesses) -> Filled {
        let lists = Mesh { nodes: mesh.n, starts: &mesh.starts, neighbours: &mesh.neighbours };
        let plan = Plan::of(1, &lists).unwrap();
        let diagonal = matrix.diagonal();
        let diagonal = plan.order().iter().map(|node| diagonal[*node as usize]).collect();
        let mut values = vec![0.0; plan.counts().slots];
        for &(v, w, stiffness) in &matrix.edges {
            let (a, b) = (plan.positions()[v], plan.positions()[w]);
            let (column, row) = (a.min(b) as usize, a.max(b));
            let start = plan.column_starts()[column] as usize;
            let rows = &plan.rows()[start..plan.column_starts()[column + 1] as usize];
            values[start + rows.binary_search(&row).unwrap()] = -stiffness;
        }
        Filled { plan, diagonal, values }
    }

    /// The solution by nodes, for a load by nodes. The plan is factored.
    fn solve(&self, load: &[f64]) -> Vec<f64> {
        let mut vector: Vec<f64> = self.plan.order().iter().map(|node| load[*node as usize]).collect();
        self.plan.solve(&self.diagonal, &self.values, &mut vector).unwrap();
        self.plan.positions().iter().map(|position| vector[*position as usize]).collect()
    }
}

fn largest(list: impl Iterator<Item = f64>) -> f64 {
    list.map(f64::abs).fold(0.0, |most, entry| if entry <= most { most } else { entry })
}

/// The largest entry of the load less the matrix times the solution, in units of 2^-52 times the matrix's norm times the largest
/// entry of the solution.
fn residual(matrix: &Stiffnesses, load: &[f64], solution: &[f64]) -> f64 {
    let product = matrix.times(solution);
    let rest = largest(load.iter().zip(&product).map(|(load, product)| load - product));
    rest / (f64::EPSILON * matrix.norm() * largest(solution.iter().copied()))
}

/// The residual of a solve, in these units, is below this. What can be shown for any matrix of this kind grows with the rows'
/// lengths and the tree's height, to some 10^5 units for the largest of these meshes, since every rounding may go the same way.
/// They do not: what is met here is below 4 units, and as every bit is fixed it is met again. A number of the factor that is wrong
/// by 10^-9 of itself gives more than 1,000.
const BOUND: f64 = 16.0;

/// Plans, fills, factors and solves for a solution of whole numbers, whose load is exact. Beside the residual the solution itself
/// is compared: no entry of A^-1 x is larger than the largest entry of x over the least foundation, since every row's diagonal
/// outweighs the rest of it by its foundation.
fn compare(mesh: &MeshLists, random: &mut Random) {
    let matrix = Stiffnesses::of(mesh, random);
    let known: Vec<f64> = (0..mesh.n).map(|_| random.below(2001) as f64 - 1000.0).collect();
    let load = matrix.times(&known);
    let mut filled = Filled::of(mesh, &matrix);
    let report = filled.plan.factor(&mut filled.diagonal, &mut filled.values).unwrap();
    assert!(report.smallest >= 0.12, "no pivot is below the least foundation, but for rounding");
    let solution = filled.solve(&load);
    let units = residual(&matrix, &load, &solution);
    assert!(units < BOUND, "{} nodes: {units} units", mesh.n);
    let least = matrix.foundations.iter().copied().fold(f64::INFINITY, f64::min);
    let off = largest(solution.iter().zip(&known).map(|(entry, known)| entry - known));
    let unit = f64::EPSILON * matrix.norm() * largest(solution.iter().copied());
    assert!(off <= BOUND * unit / least, "{} nodes: off by {off}", mesh.n);
    wrong_ones_are_told(&matrix, &load, filled);
}

/// A number of L, and a pivot, that is wrong by 10^-9 of itself.
fn wrong_ones_are_told(matrix: &Stiffnesses, load: &[f64], mut filled: Filled) {
    let residual_of = |filled: &Filled| residual(matrix, load, &filled.solve(load));
    let middle = filled.values.len() / 2;
    if let Some(at) = (middle..filled.values.len()).find(|at| filled.values[*at].abs() > 0.01) {
        let right = filled.values[at];
        filled.values[at] *= 1.0 + 1e-9;
        assert!(residual_of(&filled) > BOUND, "a wrong slot of {} nodes is told", matrix.n);
        filled.values[at] = right;
    }
    filled.diagonal[matrix.n / 2] *= 1.0 + 1e-9;
    assert!(residual_of(&filled) > BOUND, "a wrong pivot of {} nodes is told", matrix.n);
}

#[test]
fn the_sample_foot() {
    let text = std::fs::read(concat!(env!("CARGO_MANIFEST_DIR"), "/../../samples/foot.mtx")).unwrap();
    let owned = OwnedMesh::read_matrix_market(&text).unwrap();
    let lists = owned.lists();
    let foot = MeshLists { n: lists.nodes, starts: lists.starts.to_vec(), neighbours: lists.neighbours.to_vec() };
    let mut random = Random(97);
    for _ in 0..5 {
        compare(&foot, &mut random);
        compare(&meshes::shuffled(&foot, &mut random), &mut random);
    }
}

#[test]
fn plates_and_grids() {
    let mut random = Random(98);
    for (width, height) in [(5, 10), (10, 12), (15, 20), (30, 30), (40, 50), (64, 64)] {
        for mesh in [meshes::grid(width, height, true), meshes::grid(width, height, false)] {
            compare(&meshes::shuffled(&mesh, &mut random), &mut random);
        }
        compare(&meshes::plate_with_holes(width, height, 3, &mut random), &mut random);
    }
}

#[test]
fn trees_paths_and_random_meshes() {
    let mut random = Random(99);
    for nodes in [50, 120, 300, 900, 2000, 4096] {
        compare(&meshes::tree(nodes, nodes, &mut random), &mut random);
        compare(&meshes::path(nodes), &mut random);
        compare(&meshes::ring(nodes), &mut random);
        compare(&meshes::random_graph(nodes.min(900), nodes.min(900) * 2, &mut random), &mut random);
    }
    for _ in 0..200 {
        compare(&meshes::any(150, &mut random), &mut random);
    }
}
