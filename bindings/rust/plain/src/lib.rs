//! The plain C program of `bench/`, a planner, reader of files and texts, joiner of meshes, writer, answerer of questions,
//! factoring and solving that was written apart from the libraries, for the tests: each function takes lists and gives lists or
//! the number of a refusal.

mod ffi;

use ffi::{NdfHeld, NdfReport, NdpMesh, NdpPair, NdpPlan, NdpRows, NdpSlot, NdpWritten};
use std::ffi::CStr;
use std::sync::{Mutex, MutexGuard, PoisonError};

/// A mesh as lent.
#[derive(Clone, Debug, PartialEq)]
pub struct MeshLists {
    pub n: usize,
    pub starts: Vec<u32>,
    pub neighbours: Vec<u16>,
}

impl MeshLists {
    /// Node v's list. The mesh has passed check 2.
    pub fn list(&self, v: usize) -> &[u16] {
        &self.neighbours[self.starts[v] as usize..self.starts[v + 1] as usize]
    }
}

/// What a plan puts to the front of the lent results, its unknowns for each node, and its multiplications.
#[derive(Clone, Debug, Default, PartialEq)]
pub struct Planned {
    pub order: Vec<u16>,
    pub positions: Vec<u16>,
    pub sizes: Vec<u16>,
    pub parents: Vec<u16>,
    pub column_starts: Vec<u32>,
    pub rows: Vec<u16>,
    pub unknowns: usize,
    pub multiplications: u64,
}

/// The lengths of the six lent results.
#[derive(Clone, Copy, Debug)]
pub struct Room {
    pub order: usize,
    pub positions: usize,
    pub sizes: usize,
    pub parents: usize,
    pub column_starts: usize,
    pub rows: usize,
}

/// What the writer is lent.
#[derive(Clone, Debug)]
pub struct FileParts {
    pub unknowns: usize,
    pub n: usize,
    pub p: usize,
    pub s: usize,
    pub order: Vec<u16>,
    pub sizes: Vec<u16>,
    pub parents: Vec<u16>,
    pub column_starts: Vec<u32>,
    pub rows: Vec<u16>,
}

/// What a pair of positions has.
#[derive(Clone, Copy, Debug, PartialEq)]
pub enum PairAnswer {
    Slot(u32),
    Diagonal,
    NoSlot,
}

/// The C program keeps its working memory in static variables, so its calls take turns.
fn turn() -> MutexGuard<'static, ()> {
    static TURN: Mutex<()> = Mutex::new(());
    TURN.lock().unwrap_or_else(PoisonError::into_inner)
}

fn accepted<T>(refusal: u32, answer: T) -> Result<T, u32> {
    match refusal {
        0 => Ok(answer),
        _ => Err(refusal),
    }
}

/// Lists of the room's lengths, to be lent.
fn lent(room: &Room) -> Planned {
    Planned {
        order: vec![0; room.order],
        positions: vec![0; room.positions],
        sizes: vec![0; room.sizes],
        parents: vec![0; room.parents],
        column_starts: vec![0; room.column_starts],
        rows: vec![0; room.rows],
        unknowns: 0,
        multiplications: 0,
    }
}

/// What a reply says was used of the lent lists.
fn used(lent: &Planned, reply: NdpPlan) -> Result<Planned, u32> {
    accepted(reply.refusal, ())?;
    let (n, p, s) = (reply.nodes as usize, reply.parts as usize, reply.slots as usize);
    Ok(Planned {
        order: lent.order[..n].to_vec(),
        positions: lent.positions[..n].to_vec(),
        sizes: lent.sizes[..p].to_vec(),
        parents: lent.parents[..p].to_vec(),
        column_starts: lent.column_starts[..n + 1].to_vec(),
        rows: lent.rows[..s].to_vec(),
        unknowns: reply.unknowns as usize,
        multiplications: reply.multiplications,
    })
}

/// Plans a mesh with so many unknowns for each node into results of these lengths.
pub fn plan(unknowns: usize, mesh: &MeshLists, room: &Room) -> Result<Planned, u32> {
    let mut lent = lent(room);
    let turn = turn();
    // SAFETY: each pointer and length is that of a list, every list is an allocation of its own, and no other call runs.
    let reply = unsafe {
        ffi::plain_plan(
            unknowns,
            mesh.n,
            mesh.starts.as_ptr(),
            mesh.starts.len(),
            mesh.neighbours.as_ptr(),
            mesh.neighbours.len(),
            lent.order.as_mut_ptr(),
            lent.order.len(),
            lent.positions.as_mut_ptr(),
            lent.positions.len(),
            lent.sizes.as_mut_ptr(),
            lent.sizes.len(),
            lent.parents.as_mut_ptr(),
            lent.parents.len(),
            lent.column_starts.as_mut_ptr(),
            lent.column_starts.len(),
            lent.rows.as_mut_ptr(),
            lent.rows.len(),
        )
    };
    drop(turn);
    used(&lent, reply)
}

/// Reads a file of version 1 or 2 into results of these lengths.
pub fn read(file: &[u8], room: &Room) -> Result<Planned, u32> {
    read_versions(2, file, room)
}

/// Reads a file as the workshop that never updates does: it knows version 1 only.
pub fn read_version_1(file: &[u8], room: &Room) -> Result<Planned, u32> {
    read_versions(1, file, room)
}

/// Reads a file of the versions 1 to `newest`.
fn read_versions(newest: u32, file: &[u8], room: &Room) -> Result<Planned, u32> {
    let reader = match newest {
        1 => ffi::plain_read_version_1,
        _ => ffi::plain_read,
    };
    let mut lent = lent(room);
    let turn = turn();
    // SAFETY: as in `plan`.
    let reply = unsafe {
        reader(
            file.as_ptr(),
            file.len(),
            lent.order.as_mut_ptr(),
            lent.order.len(),
            lent.positions.as_mut_ptr(),
            lent.positions.len(),
            lent.sizes.as_mut_ptr(),
            lent.sizes.len(),
            lent.parents.as_mut_ptr(),
            lent.parents.len(),
            lent.column_starts.as_mut_ptr(),
            lent.column_starts.len(),
            lent.rows.as_mut_ptr(),
            lent.rows.len(),
        )
    };
    drop(turn);
    used(&lent, reply)
}

/// Writes a file into an output of this length.
pub fn write(plan: &FileParts, room: usize) -> Result<Vec<u8>, u32> {
    let mut file = vec![0; room];
    let turn = turn();
    // SAFETY: as in `plan`.
    let NdpWritten { refusal, length } = unsafe {
        ffi::plain_write(
            plan.unknowns,
            plan.n,
            plan.p,
            plan.s,
            plan.order.as_ptr(),
            plan.order.len(),
            plan.sizes.as_ptr(),
            plan.sizes.len(),
            plan.parents.as_ptr(),
            plan.parents.len(),
            plan.column_starts.as_ptr(),
            plan.column_starts.len(),
            plan.rows.as_ptr(),
            plan.rows.len(),
            file.as_mut_ptr(),
            file.len(),
        )
    };
    drop(turn);
    file.truncate(length as usize);
    accepted(refusal, file)
}

/// The smallest and the largest pivot, and the operations done.
#[derive(Clone, Copy, Debug, PartialEq)]
pub struct Factored {
    pub smallest: f64,
    pub largest: f64,
    pub operations: u64,
}

/// Factors in these values, which on refusal 31 hold what was reached.
pub fn factor(plan: &FileParts, diagonal: &mut [f64], values: &mut [f64]) -> Result<Factored, u32> {
    let _turn = turn();
    // SAFETY: as in `plan`.
    let NdfReport { refusal, smallest, largest, operations } = unsafe {
        ffi::plain_factor(
            plan.unknowns,
            plan.n,
            plan.p,
            plan.s,
            plan.order.as_ptr(),
            plan.order.len(),
            plan.sizes.as_ptr(),
            plan.sizes.len(),
            plan.parents.as_ptr(),
            plan.parents.len(),
            plan.column_starts.as_ptr(),
            plan.column_starts.len(),
            plan.rows.as_ptr(),
            plan.rows.len(),
            diagonal.as_mut_ptr(),
            diagonal.len(),
            values.as_mut_ptr(),
            values.len(),
        )
    };
    accepted(refusal, Factored { smallest, largest, operations })
}

/// Solves in this vector, which on a refusal is as it was.
pub fn solve(plan: &FileParts, diagonal: &[f64], values: &[f64], vector: &mut [f64]) -> Result<(), u32> {
    let _turn = turn();
    // SAFETY: as in `plan`.
    let refusal = unsafe {
        ffi::plain_solve(
            plan.unknowns,
            plan.n,
            plan.p,
            plan.s,
            plan.order.as_ptr(),
            plan.order.len(),
            plan.sizes.as_ptr(),
            plan.sizes.len(),
            plan.parents.as_ptr(),
            plan.parents.len(),
            plan.column_starts.as_ptr(),
            plan.column_starts.len(),
            plan.rows.as_ptr(),
            plan.rows.len(),
            diagonal.as_ptr(),
            diagonal.len(),
            values.as_ptr(),
            values.len(),
            vector.as_mut_ptr(),
            vector.len(),
        )
    };
    accepted(refusal, ())
}

/// A layout with the values that it holds.
#[derive(Clone, Debug)]
pub struct Filled {
    pub n: usize,
    pub starts: Vec<u32>,
    pub rows: Vec<u16>,
    pub diagonal: Vec<f64>,
    pub values: Vec<f64>,
}

/// The number that is held at a pair of positions, none where there is no slot.
pub fn held(filled: &Filled, a: usize, b: usize) -> Result<Option<f64>, u32> {
    let _turn = turn();
    // SAFETY: each pointer and length is that of a list, and no other call runs.
    let NdfHeld { refusal, kind, value } = unsafe {
        ffi::plain_held(
            filled.n,
            filled.starts.as_ptr(),
            filled.starts.len(),
            filled.rows.as_ptr(),
            filled.rows.len(),
            filled.diagonal.as_ptr(),
            filled.diagonal.len(),
            filled.values.as_ptr(),
            filled.values.len(),
            a,
            b,
        )
    };
    accepted(refusal, (kind == 1).then_some(value))
}

/// What a pair of positions has.
pub fn slot_of_pair(n: usize, starts: &[u32], rows: &[u16], a: usize, b: usize) -> Result<PairAnswer, u32> {
    let _turn = turn();
    // SAFETY: each pointer and length is that of a slice, and no other call runs.
    let NdpSlot { refusal, kind, slot } =
        unsafe { ffi::plain_slot(n, starts.as_ptr(), starts.len(), rows.as_ptr(), rows.len(), a, b) };
    let answer = match kind {
        1 => PairAnswer::Slot(slot),
        2 => PairAnswer::Diagonal,
        _ => PairAnswer::NoSlot,
    };
    accepted(refusal, answer)
}

/// Where column j's rows stand: start and count.
pub fn column(n: usize, starts: &[u32], rows: &[u16], j: usize) -> Result<(u32, u32), u32> {
    let _turn = turn();
    // SAFETY: as in `slot_of_pair`.
    let NdpRows { refusal, start, count } =
        unsafe { ffi::plain_rows(n, starts.as_ptr(), starts.len(), rows.as_ptr(), rows.len(), j) };
    accepted(refusal, (start, count))
}

/// The row and the column of a slot.
pub fn pair_of_slot(n: usize, starts: &[u32], rows: &[u16], slot: usize) -> Result<(u32, u32), u32> {
    let _turn = turn();
    // SAFETY: as in `slot_of_pair`.
    let NdpPair { refusal, row, column } =
        unsafe { ffi::plain_pair(n, starts.as_ptr(), starts.len(), rows.as_ptr(), rows.len(), slot) };
    accepted(refusal, (row, column))
}

/// Reads a Matrix Market text into so many starts and neighbours.
pub fn matrix_market(text: &[u8], starts: usize, neighbours: usize) -> Result<MeshLists, u32> {
    let (mut starts, mut neighbours) = (vec![0; starts], vec![0; neighbours]);
    let turn = turn();
    // SAFETY: as in `plan`.
    let NdpMesh { refusal, nodes, entries } = unsafe {
        ffi::plain_matrix_market(
            text.as_ptr(),
            text.len(),
            starts.as_mut_ptr(),
            starts.len(),
            neighbours.as_mut_ptr(),
            neighbours.len(),
        )
    };
    drop(turn);
    starts.truncate(nodes as usize + 1);
    neighbours.truncate(entries as usize);
    accepted(refusal, MeshLists { n: nodes as usize, starts, neighbours })
}

/// Joins two meshes along pairs, the nodes `first[k]` and `second[k]`, into so many starts and neighbours.
pub fn join(
    one: &MeshLists,
    two: &MeshLists,
    first: &[u16],
    second: &[u16],
    starts: usize,
    neighbours: usize,
) -> Result<MeshLists, u32> {
    let (mut starts, mut neighbours) = (vec![0; starts], vec![0; neighbours]);
    let turn = turn();
    // SAFETY: as in `plan`.
    let NdpMesh { refusal, nodes, entries } = unsafe {
        ffi::plain_join(
            one.n,
            one.starts.as_ptr(),
            one.starts.len(),
            one.neighbours.as_ptr(),
            one.neighbours.len(),
            two.n,
            two.starts.as_ptr(),
            two.starts.len(),
            two.neighbours.as_ptr(),
            two.neighbours.len(),
            first.as_ptr(),
            first.len(),
            second.as_ptr(),
            second.len(),
            starts.as_mut_ptr(),
            starts.len(),
            neighbours.as_mut_ptr(),
            neighbours.len(),
        )
    };
    drop(turn);
    starts.truncate(nodes as usize + 1);
    neighbours.truncate(entries as usize);
    accepted(refusal, MeshLists { n: nodes as usize, starts, neighbours })
}

/// 1 for a mesh, 2 for a file, 3 for the program, 4 for a question, 0 for none.
pub fn family(number: u32) -> u32 {
    // SAFETY: the function takes every number.
    unsafe { ffi::plain_family(number) }
}

/// What `include/ndplan.h` says of a refusal's number.
pub fn header_text(number: u32) -> &'static str {
    // SAFETY: the function takes every number and gives a text that is static and ends with a zero.
    let text = unsafe { CStr::from_ptr(ffi::header_refusal_text(number)) };
    text.to_str().unwrap()
}
