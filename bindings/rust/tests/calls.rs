//! Calls of the library. Each is made through the wrapper and through the C interface, on memory between guard words; the
//! answer, the memory that was written and the input are compared with what is expected.

use crate::cliques::uncut_not_clique;
use crate::guarded::Guarded;
use ndplan::ffi::{self, NdpPair, NdpPlan, NdpRows, NdpSlot, NdpWritten};
use ndplan::{Buffers, Counts, Layout, Mesh, Pair, PlanView, Refusal};
use plain::{FileParts, MeshLists, PairAnswer, Planned, Room};

/// What is expected: a plan, or the number of a refusal.
pub type Expected = Result<Planned, u32>;

/// Room for exactly a plan of n nodes and so many slots.
pub fn exact_room(n: usize, slots: usize) -> Room {
    Room { order: n, positions: n, sizes: n, parents: n, column_starts: n + 1, rows: slots }
}

/// More room than needed, by another number of entries in each buffer.
pub fn longer_room(n: usize, slots: usize) -> Room {
    Room { order: n + 3, positions: n + 1, sizes: n + 6, parents: n + 2, column_starts: n + 6, rows: slots + 7 }
}

/// Room for every plan of n nodes, or of the most nodes where n is larger.
pub fn ample_room(n: usize) -> Room {
    let n = n.min(4096);
    longer_room(n, n * n / 2)
}

/// A number of unknowns for each node of a mesh, each of the six in turn with the number of nodes.
pub fn unknowns_for(n: usize) -> usize {
    1 + n % 6
}

/// Numbers that are no number of unknowns. The last ones would be if they were cut to 16 or 32 bits.
pub const NO_UNKNOWNS: [usize; 8] = [0, 7, 8, 65535, 65536, 65537, (1 << 32) + 6, usize::MAX - 65534];

/// The six lent results.
struct Lent {
    order: Guarded<u16>,
    positions: Guarded<u16>,
    sizes: Guarded<u16>,
    parents: Guarded<u16>,
    column_starts: Guarded<u32>,
    rows: Guarded<u16>,
}

impl Lent {
    fn of(room: &Room) -> Lent {
        Lent {
            order: Guarded::room(room.order),
            positions: Guarded::room(room.positions),
            sizes: Guarded::room(room.sizes),
            parents: Guarded::room(room.parents),
            column_starts: Guarded::room(room.column_starts),
            rows: Guarded::room(room.rows),
        }
    }

    fn buffers(&mut self) -> Buffers<'_> {
        Buffers {
            order: self.order.lent(),
            positions: self.positions.lent(),
            sizes: self.sizes.lent(),
            parents: self.parents.lent(),
            column_starts: self.column_starts.lent(),
            rows: self.rows.lent(),
        }
    }

    /// All six hold the expected plan at their fronts, or on a refusal nothing but what they held.
    fn check(&self, expected: &Expected) {
        let nothing = Planned::default();
        let front = expected.as_ref().unwrap_or(&nothing);
        self.order.check(&front.order, "order");
        self.positions.check(&front.positions, "positions");
        self.sizes.check(&front.sizes, "sizes");
        self.parents.check(&front.parents, "parents");
        self.column_starts.check(&front.column_starts, "column starts");
        self.rows.check(&front.rows, "rows");
    }
}

/// Plans a mesh with so many unknowns for each node and compares with the plain planner, whose answer is given back.
pub fn plan(unknowns: usize, mesh: &MeshLists, room: &Room) -> Expected {
    let expected = plain::plan(unknowns, mesh, room);
    plan_expecting(unknowns, mesh, room, &expected);
    expected
}

/// Plans a mesh and compares. The lists handed out are the expected ones, so the rule for uncut parts is looked at in these.
pub fn plan_expecting(unknowns: usize, mesh: &MeshLists, room: &Room, expected: &Expected) {
    let mut starts = Guarded::holding(&mesh.starts);
    let mut neighbours = Guarded::holding(&mesh.neighbours);
    let mut lent = Lent::of(room);
    let lists = Mesh { nodes: mesh.n, starts: starts.shown(), neighbours: neighbours.shown() };
    let answer = ndplan::plan(unknowns, &lists, &mut lent.buffers());
    assert_eq!(answer, counts_of(expected), "the wrapper's answer");
    lent.check(expected);

    let mut lent = Lent::of(room);
    let reply = raw_plan([unknowns, mesh.n], &mut starts, &mut neighbours, &mut lent);
    assert_eq!(reply, plan_reply(expected), "the C interface's reply");
    lent.check(expected);
    starts.check(&mesh.starts, "starts");
    neighbours.check(&mesh.neighbours, "neighbours");
    if let Ok(planned) = expected {
        assert_eq!(uncut_not_clique(mesh, planned), None, "an uncut part that is no clique");
    }
}

fn raw_plan(
    [unknowns, n]: [usize; 2],
    starts: &mut Guarded<u32>,
    neighbours: &mut Guarded<u16>,
    lent: &mut Lent,
) -> NdpPlan {
    // SAFETY: each pointer and length is that of a lent slice, and every slice is an allocation of its own.
    unsafe {
        ffi::ndp_plan(
            unknowns,
            n,
            starts.pointer(),
            starts.len(),
            neighbours.pointer(),
            neighbours.len(),
            lent.order.pointer(),
            lent.order.len(),
            lent.positions.pointer(),
            lent.positions.len(),
            lent.sizes.pointer(),
            lent.sizes.len(),
            lent.parents.pointer(),
            lent.parents.len(),
            lent.column_starts.pointer(),
            lent.column_starts.len(),
            lent.rows.pointer(),
            lent.rows.len(),
        )
    }
}

/// Reads a file and compares with the plain reader, whose answer is given back.
pub fn read(file: &[u8], room: &Room) -> Expected {
    let expected = plain::read(file, room);
    read_expecting(file, room, &expected);
    expected
}

/// Reads a file and compares.
pub fn read_expecting(file: &[u8], room: &Room, expected: &Expected) {
    let mut bytes = Guarded::holding(file);
    let mut lent = Lent::of(room);
    let answer = ndplan::read(bytes.shown(), &mut lent.buffers());
    assert_eq!(answer, counts_of(expected), "the wrapper's answer");
    lent.check(expected);

    let mut lent = Lent::of(room);
    let reply = raw_read(&mut bytes, &mut lent);
    assert_eq!(reply, plan_reply(expected), "the C interface's reply");
    lent.check(expected);
    bytes.check(file, "the file");
}

fn raw_read(bytes: &mut Guarded<u8>, lent: &mut Lent) -> NdpPlan {
    // SAFETY: as in `raw_plan`.
    unsafe {
        ffi::ndp_read(
            bytes.pointer(),
            bytes.len(),
            lent.order.pointer(),
            lent.order.len(),
            lent.positions.pointer(),
            lent.positions.len(),
            lent.sizes.pointer(),
            lent.sizes.len(),
            lent.parents.pointer(),
            lent.parents.len(),
            lent.column_starts.pointer(),
            lent.column_starts.len(),
            lent.rows.pointer(),
            lent.rows.len(),
        )
    }
}

/// The wrapper's answer to planning or reading.
fn counts_of(expected: &Expected) -> Result<Counts, Refusal> {
    match expected {
        Err(number) => Err(Refusal(*number)),
        Ok(plan) => Ok(Counts {
            nodes: plan.order.len(),
            parts: plan.sizes.len(),
            slots: plan.rows.len(),
            unknowns: plan.unknowns,
            multiplications: plan.multiplications,
        }),
    }
}

/// The C interface's reply to planning or reading: on a refusal every other field is 0.
fn plan_reply(expected: &Expected) -> NdpPlan {
    match expected {
        Err(number) => NdpPlan { refusal: *number, nodes: 0, parts: 0, slots: 0, unknowns: 0, multiplications: 0 },
        Ok(plan) => NdpPlan {
            refusal: 0,
            nodes: plan.order.len() as u32,
            parts: plan.sizes.len() as u32,
            slots: plan.rows.len() as u32,
            unknowns: plan.unknowns as u32,
            multiplications: plan.multiplications,
        },
    }
}

/// Writes into an output of this length and compares with the plain writer, whose answer is given back.
pub fn write(lent: &FileParts, room: usize) -> Result<Vec<u8>, u32> {
    let expected = plain::write(lent, room);
    write_expecting(lent, room, &expected);
    expected
}

/// Writes and compares.
pub fn write_expecting(parts: &FileParts, room: usize, expected: &Result<Vec<u8>, u32>) {
    let mut lent = LentPlan::of(parts);
    let front: &[u8] = expected.as_ref().map_or(&[], |file| file);
    let mut file = Guarded::room(room);
    let answer = ndplan::write(&lent.view(parts), file.lent());
    assert_eq!(answer, expected.as_ref().map(Vec::len).map_err(|number| Refusal(*number)), "the wrapper's answer");
    file.check(front, "the file");

    let mut file = Guarded::room(room);
    let reply = lent.raw_write(parts, &mut file);
    let (refusal, length) = (expected.as_ref().err().copied().unwrap_or(0), front.len() as u64);
    assert_eq!(reply, NdpWritten { refusal, length }, "the C interface's reply");
    file.check(front, "the file");
    lent.check(parts);
}

/// A plan as the writer, factoring and solving are lent it, between guards.
pub struct LentPlan {
    pub order: Guarded<u16>,
    pub sizes: Guarded<u16>,
    pub parents: Guarded<u16>,
    pub column_starts: Guarded<u32>,
    pub rows: Guarded<u16>,
}

impl LentPlan {
    pub fn of(parts: &FileParts) -> LentPlan {
        LentPlan {
            order: Guarded::holding(&parts.order),
            sizes: Guarded::holding(&parts.sizes),
            parents: Guarded::holding(&parts.parents),
            column_starts: Guarded::holding(&parts.column_starts),
            rows: Guarded::holding(&parts.rows),
        }
    }

    pub fn view(&self, parts: &FileParts) -> PlanView<'_> {
        PlanView {
            nodes: parts.n,
            parts: parts.p,
            slots: parts.s,
            unknowns: parts.unknowns,
            order: self.order.shown(),
            sizes: self.sizes.shown(),
            parents: self.parents.shown(),
            column_starts: self.column_starts.shown(),
            rows: self.rows.shown(),
        }
    }

    fn raw_write(&mut self, parts: &FileParts, file: &mut Guarded<u8>) -> NdpWritten {
        // SAFETY: as in `raw_plan`.
        unsafe {
            ffi::ndp_write(
                parts.unknowns,
                parts.n,
                parts.p,
                parts.s,
                self.order.pointer(),
                self.order.len(),
                self.sizes.pointer(),
                self.sizes.len(),
                self.parents.pointer(),
                self.parents.len(),
                self.column_starts.pointer(),
                self.column_starts.len(),
                self.rows.pointer(),
                self.rows.len(),
                file.pointer(),
                file.len(),
            )
        }
    }

    pub fn check(&self, parts: &FileParts) {
        self.order.check(&parts.order, "lent order");
        self.sizes.check(&parts.sizes, "lent sizes");
        self.parents.check(&parts.parents, "lent parents");
        self.column_starts.check(&parts.column_starts, "lent column starts");
        self.rows.check(&parts.rows, "lent rows");
    }
}

/// A layout to be asked about, between guards.
pub struct LentLayout {
    n: usize,
    starts: Guarded<u32>,
    rows: Guarded<u16>,
}

impl LentLayout {
    pub fn of(n: usize, starts: &[u32], rows: &[u16]) -> LentLayout {
        LentLayout { n, starts: Guarded::holding(starts), rows: Guarded::holding(rows) }
    }

    fn layout(&self) -> Layout<'_, '_> {
        Layout { nodes: self.n, column_starts: self.starts.shown(), rows: self.rows.shown() }
    }

    /// Asks for the slot of a pair and compares with the plain program's answer, which is given back.
    pub fn slot_of_pair(&mut self, a: usize, b: usize) -> Result<PairAnswer, u32> {
        let (starts, rows) = (self.starts.shown().to_vec(), self.rows.shown().to_vec());
        let expected = plain::slot_of_pair(self.n, &starts, &rows, a, b);
        let (answer, reply) = match expected {
            Err(number) => (Err(Refusal(number)), NdpSlot { refusal: number, kind: 0, slot: 0 }),
            Ok(PairAnswer::Slot(slot)) => (Ok(ndplan::PairAnswer::Slot(slot)), NdpSlot { refusal: 0, kind: 1, slot }),
            Ok(PairAnswer::Diagonal) => (Ok(ndplan::PairAnswer::Diagonal), NdpSlot { refusal: 0, kind: 2, slot: 0 }),
            Ok(PairAnswer::NoSlot) => (Ok(ndplan::PairAnswer::NoSlot), NdpSlot { refusal: 0, kind: 3, slot: 0 }),
        };
        assert_eq!(ndplan::slot(&self.layout(), a, b), answer, "pair {a} {b}, the wrapper");
        let (starts_length, rows_length) = (self.starts.len(), self.rows.len());
        // SAFETY: each pointer and length is that of a lent slice.
        let raw = unsafe {
            ffi::ndp_slot(self.n, self.starts.pointer(), starts_length, self.rows.pointer(), rows_length, a, b)
        };
        assert_eq!(raw, reply, "pair {a} {b}, the C interface");
        self.check(&starts, &rows);
        expected
    }

    /// Asks for a column's rows and compares with the plain program's answer, which is given back. The slice that the wrapper
    /// shows is a part of the lent rows, at the column's own start.
    pub fn column(&mut self, j: usize) -> Result<(u32, u32), u32> {
        let (starts, rows) = (self.starts.shown().to_vec(), self.rows.shown().to_vec());
        let expected = plain::column(self.n, &starts, &rows, j);
        let shown = ndplan::rows(&self.layout(), j);
        let first = self.rows.shown().as_ptr();
        let span = shown.map(|part| ((part.as_ptr() as usize - first as usize) as u32 / 2, part.len() as u32));
        assert_eq!(span, expected.map_err(Refusal), "column {j}, the wrapper");
        let (starts_length, rows_length) = (self.starts.len(), self.rows.len());
        // SAFETY: each pointer and length is that of a lent slice.
        let raw =
            unsafe { ffi::ndp_rows(self.n, self.starts.pointer(), starts_length, self.rows.pointer(), rows_length, j) };
        let (start, count) = expected.unwrap_or((0, 0));
        assert_eq!(raw, NdpRows { refusal: expected.err().unwrap_or(0), start, count }, "column {j}, the C interface");
        self.check(&starts, &rows);
        expected
    }

    /// Asks for the row and the column of a slot and compares with the plain program's answer, which is given back.
    pub fn pair_of_slot(&mut self, slot: usize) -> Result<(u32, u32), u32> {
        let (starts, rows) = (self.starts.shown().to_vec(), self.rows.shown().to_vec());
        let expected = plain::pair_of_slot(self.n, &starts, &rows, slot);
        let answer = expected.map(|(row, column)| Pair { row, column }).map_err(Refusal);
        assert_eq!(ndplan::pair(&self.layout(), slot), answer, "slot {slot}, the wrapper");
        let (starts_length, rows_length) = (self.starts.len(), self.rows.len());
        // SAFETY: each pointer and length is that of a lent slice.
        let raw = unsafe {
            ffi::ndp_pair(self.n, self.starts.pointer(), starts_length, self.rows.pointer(), rows_length, slot)
        };
        let (row, column) = expected.unwrap_or((0, 0));
        assert_eq!(raw, NdpPair { refusal: expected.err().unwrap_or(0), row, column }, "slot {slot}, the C interface");
        self.check(&starts, &rows);
        expected
    }

    fn check(&self, starts: &[u32], rows: &[u16]) {
        self.starts.check(starts, "lent column starts");
        self.rows.check(rows, "lent rows");
    }
}

/// An owned plan holds what is expected, or was refused as expected.
pub fn owned_expecting(owned: &Result<ndplan::Plan, Refusal>, expected: &Expected) {
    match (owned, expected) {
        (Ok(owned), Ok(plan)) => {
            assert_eq!(Ok(owned.counts()), counts_of(expected));
            assert_eq!(owned.unknowns(), plan.unknowns);
            assert!(owned.order() == plan.order && owned.positions() == plan.positions, "owned order or positions");
            assert!(owned.sizes() == plan.sizes && owned.parents() == plan.parents, "owned sizes or parents");
            assert!(owned.column_starts() == plan.column_starts && owned.rows() == plan.rows, "owned layout");
        }
        _ => assert_eq!(owned.as_ref().err(), expected.as_ref().err().map(|number| Refusal(*number)).as_ref()),
    }
}
