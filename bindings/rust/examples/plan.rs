//! Reads a mesh from a Matrix Market text (its path is the argument, `samples/foot.mtx` if there is none), plans it, writes
//! the plan to a file's bytes, reads it back and asks about it.
use ndplan::{OwnedMesh, PairAnswer, Plan};
use std::{env, error, fs};

const SAMPLE: &str = concat!(env!("CARGO_MANIFEST_DIR"), "/../../samples/foot.mtx");

fn main() -> Result<(), Box<dyn error::Error>> {
    let path = env::args().nth(1).unwrap_or(SAMPLE.into());
    let mesh = OwnedMesh::read_matrix_market(&fs::read(path)?)?;
    let lists = mesh.lists();
    println!("{} nodes, {} neighbour entries", lists.nodes, lists.neighbours.len());

    // One unknown for each node; up to `ndplan::MAX_UNKNOWNS` are possible.
    let plan = Plan::of(1, &lists)?;
    let counts = plan.counts();
    println!("{} parts, {} slots, {} multiplications", counts.parts, counts.slots, counts.multiplications);
    println!("the first nodes of the order: {:?}", &plan.order()[..lists.nodes.min(10)]);

    let file = plan.write()?;
    let again = Plan::read(&file)?;
    println!("file of {} bytes, read back the same: {}", file.len(), again == plan);

    println!("column 0 has rows {:?}", again.column(0)?);
    match again.slot(6, 0)? {
        PairAnswer::Slot(number) => {
            let pair = again.pair(number as usize)?;
            println!("positions 6 and 0 have slot {number}, which is in row {} of column {}", pair.row, pair.column)
        }
        PairAnswer::Diagonal => println!("positions 6 and 0 are the same"),
        PairAnswer::NoSlot => println!("positions 6 and 0 have no slot"),
    }
    let last = lists.nodes;
    if let Err(refusal) = again.column(last) {
        println!("column {last}, family {:?}: {refusal}", refusal.family());
    }
    Ok(())
}
