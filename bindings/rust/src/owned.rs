//! A mesh and a plan that own their memory.

use crate::{factor, held, join, pair, plan, read, read_matrix_market, rows, slot, solve, write};
use crate::{Buffers, Counts, Held, Layout, Mesh, MeshBuffers, MeshCounts, Pair, PairAnswer, Pairing, PlanView};
use crate::{Refusal, Report, MAX_ENTRIES, MAX_NODES, MAX_SLOTS};

/// A mesh with its own memory, each list as long as it is used.
#[derive(Clone, Debug, PartialEq, Eq)]
pub struct OwnedMesh {
    starts: Vec<u32>,
    neighbours: Vec<u16>,
}

impl OwnedMesh {
    /// Reads a Matrix Market text, as [`read_matrix_market`] does. Refuses with 23, 24, 25, 1, 3 and 26.
    pub fn read_matrix_market(text: &[u8]) -> Result<OwnedMesh, Refusal> {
        // A pair takes four bytes, the last one of a text three, and gives two entries.
        OwnedMesh::filled(MAX_NODES, text.len() / 2 + 1, |buffers| read_matrix_market(text, buffers))
    }

    /// Joins two meshes along pairs of nodes, as [`join`] does. Refuses with 1 to 6, 26 and 7 for the first mesh, then for the
    /// second, with 32 and 33 for the pairs, and with 1, 3 and 26 for the joined mesh.
    pub fn join(first: &Mesh, second: &Mesh, pairs: &Pairing) -> Result<OwnedMesh, Refusal> {
        let nodes = first.nodes.saturating_add(second.nodes);
        let entries = first.neighbours.len() + second.neighbours.len();
        OwnedMesh::filled(nodes, entries, |buffers| join(first, second, pairs, buffers))
    }

    /// Lends room for this many nodes and entries, or for the most that a mesh may have, to `fill`, and keeps what was used of it.
    fn filled(
        nodes: usize,
        entries: usize,
        fill: impl FnOnce(&mut MeshBuffers) -> Result<MeshCounts, Refusal>,
    ) -> Result<OwnedMesh, Refusal> {
        let mut starts = vec![0; nodes.min(MAX_NODES) + 1];
        let mut neighbours = vec![0; entries.min(MAX_ENTRIES)];
        let counts = fill(&mut MeshBuffers { starts: &mut starts, neighbours: &mut neighbours })?;
        starts.truncate(counts.nodes + 1);
        starts.shrink_to_fit();
        neighbours.truncate(counts.entries);
        neighbours.shrink_to_fit();
        Ok(OwnedMesh { starts, neighbours })
    }

    /// The mesh as it is lent to [`Plan::of`], [`plan`] and [`join`].
    pub fn lists(&self) -> Mesh<'_> {
        Mesh { nodes: self.starts.len() - 1, starts: &self.starts, neighbours: &self.neighbours }
    }
}

/// A plan with its own memory, each list as long as it is used.
#[derive(Clone, Debug, PartialEq, Eq)]
pub struct Plan {
    counts: Counts,
    order: Vec<u16>,
    positions: Vec<u16>,
    sizes: Vec<u16>,
    parents: Vec<u16>,
    column_starts: Vec<u32>,
    rows: Vec<u16>,
}

impl Plan {
    /// Plans a mesh with so many unknowns for each node. The nodes of a part that is no part's parent are all neighbours of
    /// one another. Refuses with 28, 1 to 6, 26 and 7.
    pub fn of(unknowns: usize, mesh: &Mesh) -> Result<Plan, Refusal> {
        // More nodes than a mesh may have are refused, whatever the room is.
        let nodes = mesh.nodes.min(MAX_NODES);
        // A refusal does not tell the number of slots, so there is room for every pair of nodes.
        let pairs = nodes * nodes.saturating_sub(1) / 2;
        Plan::filled(nodes, pairs, |buffers| plan(unknowns, mesh, buffers))
    }

    /// Reads a plan file of version 1 or 2. Refuses with 10 to 12, 28 and 13 to 19.
    pub fn read(file: &[u8]) -> Result<Plan, Refusal> {
        // In version 1 the nodes stand at byte 5 and the slots at byte 13. Other versions than 1 and 2 are refused before the
        // room is looked at.
        let further = if file.get(3..5) == Some(&[2, 0]) { 2 } else { 0 };
        // So are nodes or slots above their limits, and more slots than the bytes hold.
        let slots = number_at(file, 13 + further).min(MAX_SLOTS).min(file.len() / 2);
        Plan::filled(number_at(file, 5 + further).min(MAX_NODES), slots, |buffers| read(file, buffers))
    }

    /// Lends room for this many nodes and slots to `fill`, and keeps what was used of it.
    fn filled(
        nodes: usize,
        slots: usize,
        fill: impl FnOnce(&mut Buffers) -> Result<Counts, Refusal>,
    ) -> Result<Plan, Refusal> {
        let (mut order, mut positions) = (vec![0; nodes], vec![0; nodes]);
        let (mut sizes, mut parents) = (vec![0; nodes], vec![0; nodes]);
        let (mut column_starts, mut rows) = (vec![0; nodes + 1], vec![0; slots]);
        let counts = fill(&mut Buffers {
            order: &mut order,
            positions: &mut positions,
            sizes: &mut sizes,
            parents: &mut parents,
            column_starts: &mut column_starts,
            rows: &mut rows,
        })?;
        sizes.truncate(counts.parts);
        parents.truncate(counts.parts);
        rows.truncate(counts.slots);
        rows.shrink_to_fit();
        Ok(Plan { counts, order, positions, sizes, parents, column_starts, rows })
    }

    /// The number of nodes, parts, slots, unknowns for each node and multiplications.
    pub fn counts(&self) -> Counts {
        self.counts
    }

    /// The number of unknowns for each node.
    pub fn unknowns(&self) -> usize {
        self.counts.unknowns
    }

    /// The node at each position.
    pub fn order(&self) -> &[u16] {
        &self.order
    }

    /// The position of each node.
    pub fn positions(&self) -> &[u16] {
        &self.positions
    }

    /// The size of each part. Parts take the positions in turn.
    pub fn sizes(&self) -> &[u16] {
        &self.sizes
    }

    /// The parent of each part, [`NO_PARENT`](crate::NO_PARENT) for none.
    pub fn parents(&self) -> &[u16] {
        &self.parents
    }

    /// Where each column's rows begin in [`rows`](Plan::rows), and after the last column the number of slots.
    pub fn column_starts(&self) -> &[u32] {
        &self.column_starts
    }

    /// The rows of all columns, column after column.
    pub fn rows(&self) -> &[u16] {
        &self.rows
    }

    /// The rows of column j. Refuses with 21.
    pub fn column(&self, j: usize) -> Result<&[u16], Refusal> {
        rows(&self.layout(), j)
    }

    /// What the positions a and b have, in either order. Refuses with 21.
    pub fn slot(&self, a: usize, b: usize) -> Result<PairAnswer, Refusal> {
        slot(&self.layout(), a, b)
    }

    /// The row and the column of a slot; [`slot`](Plan::slot) of the two gives it again. Refuses with 27.
    pub fn pair(&self, slot: usize) -> Result<Pair, Refusal> {
        pair(&self.layout(), slot)
    }

    /// The plan's file, of version 2. What planning and reading give is never refused by the writer.
    pub fn write(&self) -> Result<Vec<u8>, Refusal> {
        let mut file = vec![0; self.counts.file_length()];
        let length = write(&self.view(), &mut file)?;
        file.truncate(length);
        Ok(file)
    }

    /// Factors by the plan, in place, as [`factor`] does: `diagonal` has a value for each position, `values` one for each slot.
    /// Refuses with 29, 30 and 31. On 31 both lists hold what was reached before the division by the refused pivot, on 29
    /// and 30 they are as found.
    pub fn factor(&self, diagonal: &mut [f64], values: &mut [f64]) -> Result<Report, Refusal> {
        factor(&self.view(), diagonal, values)
    }

    /// Solves by the plan and its factor, as [`solve`] does: `vector`, by position, holds the load and then the solution; `diagonal`
    /// and `values` are what [`factor`](Plan::factor) left. Refuses with 29, 30 and 31, and then leaves `vector` as found.
    pub fn solve(&self, diagonal: &[f64], values: &[f64], vector: &mut [f64]) -> Result<(), Refusal> {
        solve(&self.view(), diagonal, values, vector)
    }

    /// What the factor holds at positions a and b, in either order, as [`held`] tells it. Refuses with 30 and 21.
    pub fn held(&self, diagonal: &[f64], values: &[f64], a: usize, b: usize) -> Result<Held, Refusal> {
        held(&self.layout(), diagonal, values, a, b)
    }

    fn layout(&self) -> Layout<'_, '_> {
        Layout { nodes: self.counts.nodes, column_starts: &self.column_starts, rows: &self.rows }
    }

    fn view(&self) -> PlanView<'_> {
        PlanView {
            nodes: self.counts.nodes,
            parts: self.counts.parts,
            slots: self.counts.slots,
            unknowns: self.counts.unknowns,
            order: &self.order,
            sizes: &self.sizes,
            parents: &self.parents,
            column_starts: &self.column_starts,
            rows: &self.rows,
        }
    }
}

/// The number in the four bytes from `at` on, 0 where the file ends before them.
fn number_at(file: &[u8], at: usize) -> usize {
    match file.get(at..at + 4) {
        Some(&[a, b, c, d]) => u32::from_le_bytes([a, b, c, d]) as usize,
        _ => 0,
    }
}
