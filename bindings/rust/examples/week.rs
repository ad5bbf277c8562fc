//! From a mesh to pressures, with every piece of the package: a clinic reads the mesh of a foot (`samples/foot.mtx`, or the text
//! whose path is the argument), plans it and writes the plan's file; a workshop opens the file, fills the plan with stiffnesses,
//! factors, solves for a load, and looks how well the solution fits. The stiffnesses and the load are made up. `examples/week.c`
//! in the repository's root is the same in C, and prints the same.
use ndplan::{Held, Mesh, OwnedMesh, PairAnswer, Plan, Refusal};
use std::{env, error, fs};

const SAMPLE: &str = concat!(env!("CARGO_MANIFEST_DIR"), "/../../samples/foot.mtx");

/// The foundation below every node, without which the foot could move as a whole.
const FOUNDATION: f64 = 0.125;

/// The stiffness of the edge between nodes v and w: 1 to 3.
fn stiffness(v: usize, w: usize) -> f64 {
    1.0 + ((v + w) % 5) as f64 / 2.0
}

/// The load on node v: a step's weight, more of it on some nodes than on others.
fn load(v: usize) -> f64 {
    1.0 + (v % 7) as f64 / 4.0
}

/// The neighbours of node v.
fn neighbours<'a>(mesh: &'a Mesh, v: usize) -> impl Iterator<Item = usize> + 'a {
    let list = mesh.starts[v] as usize..mesh.starts[v + 1] as usize;
    mesh.neighbours[list].iter().map(|&w| w.into())
}

/// Node v's entry of the diagonal: its foundation and all its edges.
fn own_stiffness(mesh: &Mesh, v: usize) -> f64 {
    neighbours(mesh, v).fold(FOUNDATION, |sum, w| sum + stiffness(v, w))
}

/// The position of node v.
fn position(plan: &Plan, v: usize) -> usize {
    plan.positions()[v].into()
}

/// A matrix and then its factor, by position and by slot.
struct Filling {
    diagonal: Vec<f64>,
    values: Vec<f64>,
}

/// Fills the plan: stiffnesses go where the plan has their nodes. Slots of pairs that are no edges stay 0.
fn filled(plan: &Plan, mesh: &Mesh) -> Result<Filling, Box<dyn error::Error>> {
    let mut filling = Filling { diagonal: vec![0.0; mesh.nodes], values: vec![0.0; plan.counts().slots] };
    for v in 0..mesh.nodes {
        filling.diagonal[position(plan, v)] = own_stiffness(mesh, v);
        for w in neighbours(mesh, v).filter(|&w| v < w) {
            match plan.slot(position(plan, v), position(plan, w))? {
                PairAnswer::Slot(slot) => filling.values[slot as usize] = -stiffness(v, w),
                // The plan is of another mesh.
                _ => return Err(format!("nodes {v} and {w} have no slot").into()),
            }
        }
    }
    Ok(filling)
}

/// Puts the load into a vector, by position, and solves.
fn solution(plan: &Plan, factor: &Filling) -> Result<Vec<f64>, Refusal> {
    let mut vector: Vec<f64> = plan.order().iter().map(|&v| load(v.into())).collect();
    plan.solve(&factor.diagonal, &factor.values, &mut vector)?;
    Ok(vector)
}

/// The largest difference, over the nodes, between the load and what the solution makes of the matrix, which is computed from the
/// mesh once more.
fn residual(plan: &Plan, mesh: &Mesh, solution: &[f64]) -> f64 {
    let at = |v: usize| solution[position(plan, v)];
    let rest = |v: usize| {
        let own = load(v) - own_stiffness(mesh, v) * at(v);
        neighbours(mesh, v).fold(own, |rest, w| rest + stiffness(v, w) * at(w))
    };
    (0..mesh.nodes).map(|v| rest(v).abs()).fold(0.0, |most, rest| if rest <= most { most } else { rest })
}

/// What the factor holds at a pair of positions, as a display shows it.
fn show(plan: &Plan, factor: &Filling, a: usize, b: usize) -> Result<(), Refusal> {
    match plan.held(&factor.diagonal, &factor.values, a, b)? {
        Held::Value(value) => println!("the factor at positions {a} and {b}: {value:.6}"),
        Held::NoSlot => println!("the factor at positions {a} and {b}: no slot"),
    }
    Ok(())
}

/// The clinic's plan of the mesh, as a file. One unknown for each node is what factoring takes.
fn planned(mesh: &Mesh) -> Result<Vec<u8>, Refusal> {
    let plan = Plan::of(1, mesh)?;
    let counts = plan.counts();
    println!("planned: {} nodes, {} slots, {} multiplications", counts.nodes, counts.slots, counts.multiplications);
    plan.write()
}

fn main() -> Result<(), Box<dyn error::Error>> {
    let text = fs::read(env::args().nth(1).unwrap_or(SAMPLE.into()))?;
    let owned = OwnedMesh::read_matrix_market(&text)?;
    let mesh = owned.lists();
    let file = planned(&mesh)?;
    println!("file: {} bytes", file.len());

    let plan = Plan::read(&file)?;
    let mut factor = filled(&plan, &mesh)?;
    let report = plan.factor(&mut factor.diagonal, &mut factor.values)?;
    println!("pivots: {:.6} to {:.6}", report.smallest, report.largest);
    let last = mesh.nodes - 1;
    show(&plan, &factor, last, last)?;
    show(&plan, &factor, 0, last)?;
    println!("residual: {:.1e}", residual(&plan, &mesh, &solution(&plan, &factor)?));
    Ok(())
}
