//! The C interface as `include/ndplan.h` and `include/ndfactor.h` declare it. A slice is a pointer and a length in entries. The pointer of a slice
//! of length 0 is not read, so the dangling pointer of an empty Rust slice will do.

#[repr(C)]
#[derive(Clone, Copy, Debug, PartialEq, Eq)]
pub struct NdpPlan {
    pub refusal: u32,
    pub nodes: u32,
    pub parts: u32,
    pub slots: u32,
    pub unknowns: u32,
    pub multiplications: u64,
}

#[repr(C)]
#[derive(Clone, Copy, Debug, PartialEq, Eq)]
pub struct NdpWritten {
    pub refusal: u32,
    pub length: u64,
}

#[repr(C)]
#[derive(Clone, Copy, Debug, PartialEq, Eq)]
pub struct NdpSlot {
    pub refusal: u32,
    pub kind: u32,
    pub slot: u32,
}

#[repr(C)]
#[derive(Clone, Copy, Debug, PartialEq, Eq)]
pub struct NdpRows {
    pub refusal: u32,
    pub start: u32,
    pub count: u32,
}

#[repr(C)]
#[derive(Clone, Copy, Debug, PartialEq, Eq)]
pub struct NdpPair {
    pub refusal: u32,
    pub row: u32,
    pub column: u32,
}

#[repr(C)]
#[derive(Clone, Copy, Debug, PartialEq, Eq)]
pub struct NdpMesh {
    pub refusal: u32,
    pub nodes: u32,
    pub entries: u32,
}

#[repr(C)]
#[derive(Clone, Copy, Debug, PartialEq)]
pub struct NdfReport {
    pub refusal: u32,
    pub smallest: f64,
    pub largest: f64,
    pub operations: u64,
}

#[repr(C)]
#[derive(Clone, Copy, Debug, PartialEq)]
pub struct NdfHeld {
    pub refusal: u32,
    pub kind: u32,
    pub value: f64,
}

/// Values of `NdpSlot::kind`.
pub const NDP_SLOT: u32 = 1;
pub const NDP_DIAGONAL: u32 = 2;
pub const NDP_NO_SLOT: u32 = 3;

/// Values of `NdfHeld::kind`.
pub const NDF_NUMBER: u32 = 1;
pub const NDF_NO_SLOT: u32 = 2;

/// Answers of `ndp_family`.
pub const NDP_NONE: u32 = 0;
pub const NDP_MESH: u32 = 1;
pub const NDP_FILE: u32 = 2;
pub const NDP_PROGRAM: u32 = 3;
pub const NDP_QUESTION: u32 = 4;

extern "C" {
    pub fn ndp_plan(
        unknowns: usize,
        n: usize,
        starts: *const u32,
        starts_length: usize,
        neighbours: *const u16,
        neighbours_length: usize,
        order: *mut u16,
        order_length: usize,
        positions: *mut u16,
        positions_length: usize,
        sizes: *mut u16,
        sizes_length: usize,
        parents: *mut u16,
        parents_length: usize,
        column_starts: *mut u32,
        column_starts_length: usize,
        rows: *mut u16,
        rows_length: usize,
    ) -> NdpPlan;

    pub fn ndp_read(
        file: *const u8,
        file_length: usize,
        order: *mut u16,
        order_length: usize,
        positions: *mut u16,
        positions_length: usize,
        sizes: *mut u16,
        sizes_length: usize,
        parents: *mut u16,
        parents_length: usize,
        column_starts: *mut u32,
        column_starts_length: usize,
        rows: *mut u16,
        rows_length: usize,
    ) -> NdpPlan;

    pub fn ndp_write(
        unknowns: usize,
        n: usize,
        p: usize,
        s: usize,
        order: *const u16,
        order_length: usize,
        sizes: *const u16,
        sizes_length: usize,
        parents: *const u16,
        parents_length: usize,
        column_starts: *const u32,
        column_starts_length: usize,
        rows: *const u16,
        rows_length: usize,
        file: *mut u8,
        file_length: usize,
    ) -> NdpWritten;

    pub fn ndp_slot(
        n: usize,
        column_starts: *const u32,
        column_starts_length: usize,
        rows: *const u16,
        rows_length: usize,
        a: usize,
        b: usize,
    ) -> NdpSlot;

    pub fn ndp_rows(
        n: usize,
        column_starts: *const u32,
        column_starts_length: usize,
        rows: *const u16,
        rows_length: usize,
        j: usize,
    ) -> NdpRows;

    pub fn ndp_pair(
        n: usize,
        column_starts: *const u32,
        column_starts_length: usize,
        rows: *const u16,
        rows_length: usize,
        slot: usize,
    ) -> NdpPair;

    pub fn ndp_matrix_market(
        text: *const u8,
        text_length: usize,
        starts: *mut u32,
        starts_length: usize,
        neighbours: *mut u16,
        neighbours_length: usize,
    ) -> NdpMesh;

    pub fn ndp_join(
        n1: usize,
        starts1: *const u32,
        starts1_length: usize,
        neighbours1: *const u16,
        neighbours1_length: usize,
        n2: usize,
        starts2: *const u32,
        starts2_length: usize,
        neighbours2: *const u16,
        neighbours2_length: usize,
        first: *const u16,
        first_length: usize,
        second: *const u16,
        second_length: usize,
        starts: *mut u32,
        starts_length: usize,
        neighbours: *mut u16,
        neighbours_length: usize,
    ) -> NdpMesh;

    pub fn ndp_family(number: u32) -> u32;

    pub fn ndf_factor(
        unknowns: usize,
        n: usize,
        p: usize,
        s: usize,
        order: *const u16,
        order_length: usize,
        sizes: *const u16,
        sizes_length: usize,
        parents: *const u16,
        parents_length: usize,
        column_starts: *const u32,
        column_starts_length: usize,
        rows: *const u16,
        rows_length: usize,
        diagonal: *mut f64,
        diagonal_length: usize,
        values: *mut f64,
        values_length: usize,
    ) -> NdfReport;

    pub fn ndf_solve(
        unknowns: usize,
        n: usize,
        p: usize,
        s: usize,
        order: *const u16,
        order_length: usize,
        sizes: *const u16,
        sizes_length: usize,
        parents: *const u16,
        parents_length: usize,
        column_starts: *const u32,
        column_starts_length: usize,
        rows: *const u16,
        rows_length: usize,
        diagonal: *const f64,
        diagonal_length: usize,
        values: *const f64,
        values_length: usize,
        vector: *mut f64,
        vector_length: usize,
    ) -> u32;

    pub fn ndf_held(
        n: usize,
        column_starts: *const u32,
        column_starts_length: usize,
        rows: *const u16,
        rows_length: usize,
        diagonal: *const f64,
        diagonal_length: usize,
        values: *const f64,
        values_length: usize,
        a: usize,
        b: usize,
    ) -> NdfHeld;
}
