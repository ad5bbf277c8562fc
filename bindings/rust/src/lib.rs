//! Nested dissection plans for symmetric meshes, and factoring and solving by them: a safe wrapper over the proved planner
//! in `libndplan.a` and the second library above it, `libndfactor.a`.
//!
//! A mesh is lent as neighbour lists. Its plan is an order of the nodes, a tree of parts, and the layout of the factor:
//! for each column the rows that have a slot. It also carries the number of unknowns for each node, on which nothing else
//! in it depends. The functions of this module work on the caller's memory and allocate nothing; [`Plan`] owns its memory.
//! A [`Refusal`] has a number and says what it means. A mesh may also come as a Matrix Market text, which [`OwnedMesh`]
//! reads, or of two meshes, which it joins along pairs of nodes. [`factor`] fills a plan of one unknown for each node,
//! [`solve`] solves by what it leaves, and [`held`] reads it.
//!
//! ```
//! use ndplan::{Held, Mesh, OwnedMesh, Pair, PairAnswer, Pairing, Plan, Refusal};
//!
//! // The path 0-1-2-3-4.
//! let mesh = Mesh { nodes: 5, starts: &[0, 1, 3, 5, 7, 8], neighbours: &[1, 0, 2, 1, 3, 2, 4, 3] };
//! let plan = Plan::of(1, &mesh)?;
//! assert_eq!(plan.order(), [0, 1, 3, 4, 2]);
//! assert_eq!(plan.sizes(), [2, 2, 1]);
//! assert_eq!(plan.column(2)?, [3, 4]);
//! assert_eq!(plan.slot(4, 3)?, PairAnswer::Slot(4));
//! assert_eq!(plan.pair(4)?, Pair { row: 4, column: 3 });
//! assert_eq!(plan.slot(0, 5), Err(Refusal(21)));
//!
//! let file = plan.write()?;
//! assert_eq!(file.len(), 61);
//! assert_eq!(Plan::read(&file)?, plan);
//!
//! let text = b"%%MatrixMarket matrix coordinate pattern symmetric\n5 5 4\n2 1\n3 2\n4 3\n5 4\n";
//! let mesh = OwnedMesh::read_matrix_market(text)?;
//! assert_eq!(Plan::of(1, &mesh.lists())?, plan);
//!
//! // The same path once more, of the path 0-1-2 twice: node 2 of the first and node 0 of the second become one.
//! let half = Mesh { nodes: 3, starts: &[0, 1, 3, 4], neighbours: &[1, 0, 2, 1] };
//! let joined = OwnedMesh::join(&half, &half, &Pairing { first: &[2], second: &[0] })?;
//! assert_eq!(joined, mesh);
//!
//! // The matrix with 2 on its diagonal and -1 for each pair of neighbours, by position and by slot. Slot 4 is of nodes 4 and 2,
//! // which are no neighbours. Both lists become the factors: D, and L without its ones.
//! let (mut diagonal, mut values) = ([2.0; 5], [-1.0, -1.0, -1.0, -1.0, 0.0]);
//! let report = plan.factor(&mut diagonal, &mut values)?;
//! assert_eq!((report.largest, report.operations), (2.0, plan.counts().multiplications));
//! assert_eq!((diagonal[..4].to_vec(), values[2]), (vec![2.0, 1.5, 2.0, 1.5], -0.5));
//!
//! // What the factor holds at a pair of positions.
//! assert_eq!(plan.held(&diagonal, &values, 2, 3)?, Held::Value(-0.5));
//! assert_eq!(plan.held(&diagonal, &values, 0, 2)?, Held::NoSlot);
//!
//! // The solution for a load of 1 on the first node alone, which is at position 0: 5/6, 4/6, 3/6, 2/6 and 1/6 along the path.
//! let mut vector = [1.0, 0.0, 0.0, 0.0, 0.0];
//! plan.solve(&diagonal, &values, &mut vector)?;
//! for (place, &node) in plan.order().iter().enumerate() {
//!     assert!((vector[place] - f64::from(5 - node) / 6.0).abs() < 1e-15);
//! }
//! # Ok::<(), Refusal>(())
//! ```

#[doc(hidden)]
pub mod ffi;
mod owned;
mod refusal;

pub use owned::{OwnedMesh, Plan};
use refusal::accepted;
pub use refusal::{family, Family, Refusal};

/// The most nodes of a mesh.
pub const MAX_NODES: usize = 4096;
/// The most neighbour entries of a mesh.
pub const MAX_ENTRIES: usize = 65536;
/// The most neighbours of a node.
pub const MAX_NEIGHBOURS: usize = 26;
/// The most unknowns for each node.
pub const MAX_UNKNOWNS: usize = 6;
/// The most slots of a plan.
pub const MAX_SLOTS: usize = 8386560;
/// The parent of a part that has none.
pub const NO_PARENT: u16 = 65535;

/// A mesh: the neighbours of node v are those from `starts[v]` up to, not including, `starts[v + 1]`.
#[derive(Clone, Copy, Debug)]
pub struct Mesh<'a> {
    pub nodes: usize,
    pub starts: &'a [u32],
    pub neighbours: &'a [u16],
}

/// Memory for a mesh of n nodes: room for n + 1 starts, and in `neighbours` for as many as there are entries.
/// The mesh goes to the front of each slice; entries past those used stay as they were.
#[derive(Debug)]
pub struct MeshBuffers<'a> {
    pub starts: &'a mut [u32],
    pub neighbours: &'a mut [u16],
}

/// Pairs of nodes along which two meshes are joined: node `first[k]` of the first mesh and node `second[k]` of the second
/// become one. The two lists are equally long, and each holds a node once at most.
#[derive(Clone, Copy, Debug)]
pub struct Pairing<'a> {
    pub first: &'a [u16],
    pub second: &'a [u16],
}

/// How much of the buffers a mesh uses: one start more than nodes, and so many neighbour entries.
#[derive(Clone, Copy, Debug, PartialEq, Eq)]
pub struct MeshCounts {
    pub nodes: usize,
    pub entries: usize,
}

/// Memory for a plan of n nodes: room for n entries, n + 1 in `column_starts`, and in `rows` as many as there are slots.
/// The plan goes to the front of each slice; entries past those used stay as they were.
#[derive(Debug)]
pub struct Buffers<'a> {
    /// Position to node.
    pub order: &'a mut [u16],
    /// Node to position.
    pub positions: &'a mut [u16],
    /// Size of each part.
    pub sizes: &'a mut [u16],
    /// Parent of each part, [`NO_PARENT`] for none.
    pub parents: &'a mut [u16],
    /// Where each column's rows begin, and after the last column the number of slots.
    pub column_starts: &'a mut [u32],
    /// The rows of all columns.
    pub rows: &'a mut [u16],
}

/// How much of the buffers a plan uses, its unknowns for each node, and the multiplications of a factorization by it.
#[derive(Clone, Copy, Debug, PartialEq, Eq)]
pub struct Counts {
    pub nodes: usize,
    pub parts: usize,
    pub slots: usize,
    pub unknowns: usize,
    pub multiplications: u64,
}

/// A plan to be written, or factored or solved by. The slices may be longer than the counts say.
#[derive(Clone, Copy, Debug)]
pub struct PlanView<'a> {
    pub nodes: usize,
    pub parts: usize,
    pub slots: usize,
    pub unknowns: usize,
    pub order: &'a [u16],
    pub sizes: &'a [u16],
    pub parents: &'a [u16],
    pub column_starts: &'a [u32],
    pub rows: &'a [u16],
}

/// A layout to be asked about. `column_starts` is exactly `nodes + 1` long; `rows` may be longer than the slots.
/// The two slices have lifetimes of their own, since [`rows`] shows a part of one and not of the other.
#[derive(Clone, Copy, Debug)]
pub struct Layout<'c, 'r> {
    pub nodes: usize,
    pub column_starts: &'c [u32],
    pub rows: &'r [u16],
}

/// What a pair of positions has.
#[derive(Clone, Copy, Debug, PartialEq, Eq)]
pub enum PairAnswer {
    /// The slot with this number.
    Slot(u32),
    /// The positions are equal.
    Diagonal,
    NoSlot,
}

/// What factoring tells: the smallest and the largest pivot, and the multiplications and divisions done, which are as many as
/// [`Counts::multiplications`] says.
#[derive(Clone, Copy, Debug, PartialEq)]
pub struct Report {
    pub smallest: f64,
    pub largest: f64,
    pub operations: u64,
}

/// What a factor holds at a pair of positions.
#[derive(Clone, Copy, Debug, PartialEq)]
pub enum Held {
    /// The number on the diagonal, where the positions are equal, or in the pair's slot.
    Value(f64),
    NoSlot,
}

/// The two positions of a slot. The row is the later one.
#[derive(Clone, Copy, Debug, PartialEq, Eq)]
pub struct Pair {
    pub row: u32,
    pub column: u32,
}

/// Plans a mesh with so many unknowns for each node into `buffers`. The nodes of a part that is no part's parent are then
/// all neighbours of one another. Refuses with 28, 1 to 6, 26, and 7 to 9.
pub fn plan(unknowns: usize, mesh: &Mesh, buffers: &mut Buffers) -> Result<Counts, Refusal> {
    // SAFETY: each pointer and length is that of a slice; the slices written are borrowed mutably, so none overlaps another.
    let reply = unsafe {
        ffi::ndp_plan(
            unknowns,
            mesh.nodes,
            mesh.starts.as_ptr(),
            mesh.starts.len(),
            mesh.neighbours.as_ptr(),
            mesh.neighbours.len(),
            buffers.order.as_mut_ptr(),
            buffers.order.len(),
            buffers.positions.as_mut_ptr(),
            buffers.positions.len(),
            buffers.sizes.as_mut_ptr(),
            buffers.sizes.len(),
            buffers.parents.as_mut_ptr(),
            buffers.parents.len(),
            buffers.column_starts.as_mut_ptr(),
            buffers.column_starts.len(),
            buffers.rows.as_mut_ptr(),
            buffers.rows.len(),
        )
    };
    counts(reply)
}

/// Reads a plan file of version 1 or 2, the whole of `file`, into `buffers`. A version 1 file is read as a plan of one
/// unknown for each node. Refuses with 10 to 12, 28, 13 to 19, 8 and 9.
pub fn read(file: &[u8], buffers: &mut Buffers) -> Result<Counts, Refusal> {
    // SAFETY: as in `plan`.
    let reply = unsafe {
        ffi::ndp_read(
            file.as_ptr(),
            file.len(),
            buffers.order.as_mut_ptr(),
            buffers.order.len(),
            buffers.positions.as_mut_ptr(),
            buffers.positions.len(),
            buffers.sizes.as_mut_ptr(),
            buffers.sizes.len(),
            buffers.parents.as_mut_ptr(),
            buffers.parents.len(),
            buffers.column_starts.as_mut_ptr(),
            buffers.column_starts.len(),
            buffers.rows.as_mut_ptr(),
            buffers.rows.len(),
        )
    };
    counts(reply)
}

/// Writes a plan file of version 2 to the front of `file` and answers with its length. A reader that knows version 1 only
/// refuses it with 12. Refuses with 28, 13, 15 to 19, and 8 where `file` is too short.
pub fn write(plan: &PlanView, file: &mut [u8]) -> Result<usize, Refusal> {
    // SAFETY: as in `plan`; the only slice written is `file`.
    let reply = unsafe {
        ffi::ndp_write(
            plan.unknowns,
            plan.nodes,
            plan.parts,
            plan.slots,
            plan.order.as_ptr(),
            plan.order.len(),
            plan.sizes.as_ptr(),
            plan.sizes.len(),
            plan.parents.as_ptr(),
            plan.parents.len(),
            plan.column_starts.as_ptr(),
            plan.column_starts.len(),
            plan.rows.as_ptr(),
            plan.rows.len(),
            file.as_mut_ptr(),
            file.len(),
        )
    };
    accepted(reply.refusal)?;
    Ok(reply.length as usize)
}

/// Factors by a plan of one unknown for each node, in the LDLᵀ form, in place. `diagonal` has exactly `plan.nodes` values, by
/// position, and `values` exactly `plan.slots`, by slot; a slot that stands for no entry of the matrix holds 0. Afterwards
/// `diagonal` is D and `values` is L, whose diagonal of ones is not written.
///
/// Columns go in ascending order. A column's pivot d is its entry of the diagonal, and every l is v / d, v being the value in the
/// slot. Then for each pair of the column's rows k ≤ i, in ascending k and within it ascending i, l of i times v of k is
/// subtracted at that pair. Every operation rounds once, to nearest, so the results are the same in every bit, but for the
/// sign and the payload of a NaN. This needs the rounding mode and the treatment of denormal numbers that a program starts with.
///
/// Refuses with 28, 13, 15 to 19 as [`write`] does, with 29 where there is more than one unknown for each node, 30 where a
/// list of values has another length, and 31 where a pivot is not both finite and above zero. On 31 both lists hold what was
/// reached before the division by that pivot, which is the first such entry of `diagonal`: the columns before it are
/// finished, its own values are not divided. On every other refusal they are as found. A NaN or an infinity in a slot is no
/// refusal by itself.
pub fn factor(plan: &PlanView, diagonal: &mut [f64], values: &mut [f64]) -> Result<Report, Refusal> {
    // SAFETY: as in `plan`; the only slices written are `diagonal` and `values`.
    let reply = unsafe {
        ffi::ndf_factor(
            plan.unknowns,
            plan.nodes,
            plan.parts,
            plan.slots,
            plan.order.as_ptr(),
            plan.order.len(),
            plan.sizes.as_ptr(),
            plan.sizes.len(),
            plan.parents.as_ptr(),
            plan.parents.len(),
            plan.column_starts.as_ptr(),
            plan.column_starts.len(),
            plan.rows.as_ptr(),
            plan.rows.len(),
            diagonal.as_mut_ptr(),
            diagonal.len(),
            values.as_mut_ptr(),
            values.len(),
        )
    };
    accepted(reply.refusal)?;
    Ok(Report { smallest: reply.smallest, largest: reply.largest, operations: reply.operations })
}

/// Solves L D Lᵀ x = b by a plan of one unknown for each node and its factor, as [`factor`] left it. `vector` has exactly
/// `plan.nodes` values, b at first and x afterwards, both by position and not by node. `diagonal`, exactly `plan.nodes` values,
/// and `values`, exactly `plan.slots`, are only read, so one factor serves for any number of vectors.
///
/// Columns go in ascending order, and in each of them, for its rows ascending, l times the column's entry is subtracted from the
/// row's. Then each entry is divided by its pivot. Then columns go in descending order, and in each of them, for its rows
/// ascending, l times the row's entry is subtracted from the column's. Every operation rounds once, as in [`factor`], so the
/// results are the same in every bit, but for the sign and the payload of a NaN.
///
/// Refuses with 28, 13, 15 to 19 as [`write`] does, with 29 where there is more than one unknown for each node, 30 where a list
/// of values or the vector has another length, and 31 where a pivot, any one, is not both finite and above zero; what a
/// finished [`factor`] leaves passes 31. On every refusal, 31 too, `vector` is as found. A NaN or an infinity in a slot or in the
/// vector is no refusal: it runs through.
pub fn solve(plan: &PlanView, diagonal: &[f64], values: &[f64], vector: &mut [f64]) -> Result<(), Refusal> {
    // SAFETY: as in `plan`; the only slice written is `vector`.
    let refusal = unsafe {
        ffi::ndf_solve(
            plan.unknowns,
            plan.nodes,
            plan.parts,
            plan.slots,
            plan.order.as_ptr(),
            plan.order.len(),
            plan.sizes.as_ptr(),
            plan.sizes.len(),
            plan.parents.as_ptr(),
            plan.parents.len(),
            plan.column_starts.as_ptr(),
            plan.column_starts.len(),
            plan.rows.as_ptr(),
            plan.rows.len(),
            diagonal.as_ptr(),
            diagonal.len(),
            values.as_ptr(),
            values.len(),
            vector.as_mut_ptr(),
            vector.len(),
        )
    };
    accepted(refusal)
}

/// What the factor holds at positions a and b, in either order. `diagonal` has exactly `layout.nodes` values and `values` as many
/// as there are slots, which is the last column start, however long `rows` is. Before factoring it is the matrix that they hold.
/// Refuses with 1, 22, 30 where either has another length, and 21. It looks at the whole layout each time.
pub fn held(layout: &Layout, diagonal: &[f64], values: &[f64], a: usize, b: usize) -> Result<Held, Refusal> {
    // SAFETY: each pointer and length is that of a slice, and nothing is written.
    let reply = unsafe {
        ffi::ndf_held(
            layout.nodes,
            layout.column_starts.as_ptr(),
            layout.column_starts.len(),
            layout.rows.as_ptr(),
            layout.rows.len(),
            diagonal.as_ptr(),
            diagonal.len(),
            values.as_ptr(),
            values.len(),
            a,
            b,
        )
    };
    accepted(reply.refusal)?;
    Ok(match reply.kind {
        ffi::NDF_NUMBER => Held::Value(reply.value),
        _ => Held::NoSlot,
    })
}

/// What the positions a and b have, in either order. Refuses with 1, 22 and 21. It looks at the whole layout each time.
pub fn slot(layout: &Layout, a: usize, b: usize) -> Result<PairAnswer, Refusal> {
    let (starts, rows) = (layout.column_starts, layout.rows);
    // SAFETY: each pointer and length is that of a slice, and nothing is written.
    let reply = unsafe { ffi::ndp_slot(layout.nodes, starts.as_ptr(), starts.len(), rows.as_ptr(), rows.len(), a, b) };
    accepted(reply.refusal)?;
    Ok(match reply.kind {
        ffi::NDP_SLOT => PairAnswer::Slot(reply.slot),
        ffi::NDP_DIAGONAL => PairAnswer::Diagonal,
        _ => PairAnswer::NoSlot,
    })
}

/// The rows of column j, as a part of the layout's own rows. Refuses with 1, 22 and 21. It looks at the whole layout each time.
pub fn rows<'r>(layout: &Layout<'_, 'r>, j: usize) -> Result<&'r [u16], Refusal> {
    let (starts, rows) = (layout.column_starts, layout.rows);
    // SAFETY: each pointer and length is that of a slice, and nothing is written.
    let reply = unsafe { ffi::ndp_rows(layout.nodes, starts.as_ptr(), starts.len(), rows.as_ptr(), rows.len(), j) };
    accepted(reply.refusal)?;
    let start = reply.start as usize;
    // The library promises a place inside the rows. Were the promise broken, this would rather end the program than show too few.
    Ok(&rows[start..start + reply.count as usize])
}

/// The row and the column of a slot; [`slot`] of the two gives it again. Slots are numbered from 0 up to, not including, the
/// last column start, however long `rows` is. Refuses with 1, 22 and 27. It looks at the whole layout each time.
pub fn pair(layout: &Layout, slot: usize) -> Result<Pair, Refusal> {
    let (starts, rows) = (layout.column_starts, layout.rows);
    // SAFETY: each pointer and length is that of a slice, and nothing is written.
    let reply = unsafe { ffi::ndp_pair(layout.nodes, starts.as_ptr(), starts.len(), rows.as_ptr(), rows.len(), slot) };
    accepted(reply.refusal)?;
    Ok(Pair { row: reply.row, column: reply.column })
}

/// Reads the mesh of a Matrix Market text, the whole of `text`, into `buffers`. Refuses with 23, 24, 25, 1, 3, 26 and 8.
///
/// The text is of the coordinate pattern symmetric kind. Its first line is `%%MatrixMarket matrix coordinate pattern
/// symmetric`, the five words in any letter case; lines that begin with % may follow; then come the size line (rows,
/// columns, which are as many, and pairs) and the pairs, one to a line: a row number and a column number, counted from 1,
/// the row number at least the column number. A line ends at a line feed, with or without a carriage return before it, or
/// at the text's end. Spaces or tabs separate words and may stand at a line's ends; lines after the first that hold
/// nothing else are skipped. Pairs come in any order, each once; diagonal ones are counted and dropped.
pub fn read_matrix_market(text: &[u8], buffers: &mut MeshBuffers) -> Result<MeshCounts, Refusal> {
    // SAFETY: as in `plan`.
    let reply = unsafe {
        ffi::ndp_matrix_market(
            text.as_ptr(),
            text.len(),
            buffers.starts.as_mut_ptr(),
            buffers.starts.len(),
            buffers.neighbours.as_mut_ptr(),
            buffers.neighbours.len(),
        )
    };
    mesh_counts(reply)
}

/// Joins two meshes along pairs of nodes into `buffers`. What is accepted here passes the checks 1 to 7 and 26 of [`plan`].
///
/// The first mesh keeps its node numbers; a paired node of the second gets its partner's, and the unpaired nodes of the second
/// follow in their order. Two nodes of the joined mesh are neighbours exactly when, in either mesh, the nodes they come from
/// were. Without pairs the meshes stand side by side. Both may be the same mesh.
///
/// Refuses with 1 to 6, 26 and 7 for the first mesh, then for the second, and does not tell for which; with 32 where the lists
/// of the pairs differ in length or name a node that does not exist; with 33 where a node of either mesh is paired twice; with
/// 1, 3 and 26 for the joined mesh, whose entries count after equal ones have merged; and with 8 where a buffer is too short.
///
/// ```
/// use ndplan::{join, Mesh, MeshBuffers, MeshCounts, Pairing};
///
/// // Two triangles with an edge in common: nodes 1 and 2 of the first are nodes 2 and 0 of the second.
/// let triangle = Mesh { nodes: 3, starts: &[0, 2, 4, 6], neighbours: &[1, 2, 0, 2, 0, 1] };
/// let (mut starts, mut neighbours) = ([0; 5], [0; 10]);
/// let mut buffers = MeshBuffers { starts: &mut starts, neighbours: &mut neighbours };
/// let counts = join(&triangle, &triangle, &Pairing { first: &[1, 2], second: &[2, 0] }, &mut buffers)?;
/// assert_eq!(counts, MeshCounts { nodes: 4, entries: 10 });
/// assert_eq!(starts, [0, 2, 5, 8, 10]);
/// assert_eq!(neighbours, [1, 2, 0, 2, 3, 0, 1, 3, 1, 2]);
/// # Ok::<(), ndplan::Refusal>(())
/// ```
pub fn join(first: &Mesh, second: &Mesh, pairs: &Pairing, buffers: &mut MeshBuffers) -> Result<MeshCounts, Refusal> {
    // SAFETY: as in `plan`.
    let reply = unsafe {
        ffi::ndp_join(
            first.nodes,
            first.starts.as_ptr(),
            first.starts.len(),
            first.neighbours.as_ptr(),
            first.neighbours.len(),
            second.nodes,
            second.starts.as_ptr(),
            second.starts.len(),
            second.neighbours.as_ptr(),
            second.neighbours.len(),
            pairs.first.as_ptr(),
            pairs.first.len(),
            pairs.second.as_ptr(),
            pairs.second.len(),
            buffers.starts.as_mut_ptr(),
            buffers.starts.len(),
            buffers.neighbours.as_mut_ptr(),
            buffers.neighbours.len(),
        )
    };
    mesh_counts(reply)
}

/// The counts of a reply to reading a text or joining.
fn mesh_counts(reply: ffi::NdpMesh) -> Result<MeshCounts, Refusal> {
    accepted(reply.refusal)?;
    Ok(MeshCounts { nodes: reply.nodes as usize, entries: reply.entries as usize })
}

/// The counts of a reply to planning or reading.
fn counts(reply: ffi::NdpPlan) -> Result<Counts, Refusal> {
    accepted(reply.refusal)?;
    Ok(Counts {
        nodes: reply.nodes as usize,
        parts: reply.parts as usize,
        slots: reply.slots as usize,
        unknowns: reply.unknowns as usize,
        multiplications: reply.multiplications,
    })
}

impl Counts {
    /// The length in bytes of the plan's file as [`write`] writes it; a version 1 file is 2 bytes shorter.
    pub fn file_length(&self) -> usize {
        19 + 4 * self.nodes + 4 * self.parts + 2 * self.slots
    }
}
