//! The plain C program's functions, as `bench/plain.h` declares them, with the library's replies.

#[repr(C)]
pub struct NdpPlan {
    pub refusal: u32,
    pub nodes: u32,
    pub parts: u32,
    pub slots: u32,
    pub unknowns: u32,
    pub multiplications: u64,
}

#[repr(C)]
pub struct NdpWritten {
    pub refusal: u32,
    pub length: u64,
}

#[repr(C)]
pub struct NdpSlot {
    pub refusal: u32,
    pub kind: u32,
    pub slot: u32,
}

#[repr(C)]
pub struct NdpRows {
    pub refusal: u32,
    pub start: u32,
    pub count: u32,
}

#[repr(C)]
pub struct NdpPair {
    pub refusal: u32,
    pub row: u32,
    pub column: u32,
}

#[repr(C)]
pub struct NdpMesh {
    pub refusal: u32,
    pub nodes: u32,
    pub entries: u32,
}

#[repr(C)]
pub struct NdfReport {
    pub refusal: u32,
    pub smallest: f64,
    pub largest: f64,
    pub operations: u64,
}

#[repr(C)]
pub struct NdfHeld {
    pub refusal: u32,
    pub kind: u32,
    pub value: f64,
}

extern "C" {
    pub fn plain_plan(
        unknowns: usize,
        n: usize,
        starts: *const u32,
        starts_length: usize,
        neighbours: *const u16,
        neighbours_length: usize,
        order: *mut u16,
        order_length: usize,
        positions: *mut u16,
        positions_length: usize,
        sizes: *mut u16,
        sizes_length: usize,
        parents: *mut u16,
        parents_length: usize,
        column_starts: *mut u32,
        column_starts_length: usize,
        rows: *mut u16,
        rows_length: usize,
    ) -> NdpPlan;

    pub fn plain_read(
        file: *const u8,
        file_length: usize,
        order: *mut u16,
        order_length: usize,
        positions: *mut u16,
        positions_length: usize,
        sizes: *mut u16,
        sizes_length: usize,
        parents: *mut u16,
        parents_length: usize,
        column_starts: *mut u32,
        column_starts_length: usize,
        rows: *mut u16,
        rows_length: usize,
    ) -> NdpPlan;

    /// The reader of a workshop that never updates: it knows version 1 of the file only.
    pub fn plain_read_version_1(
        file: *const u8,
        file_length: usize,
        order: *mut u16,
        order_length: usize,
        positions: *mut u16,
        positions_length: usize,
        sizes: *mut u16,
        sizes_length: usize,
        parents: *mut u16,
        parents_length: usize,
        column_starts: *mut u32,
        column_starts_length: usize,
        rows: *mut u16,
        rows_length: usize,
    ) -> NdpPlan;

    pub fn plain_write(
        unknowns: usize,
        n: usize,
        p: usize,
        s: usize,
        order: *const u16,
        order_length: usize,
        sizes: *const u16,
        sizes_length: usize,
        parents: *const u16,
        parents_length: usize,
        column_starts: *const u32,
        column_starts_length: usize,
        rows: *const u16,
        rows_length: usize,
        file: *mut u8,
        file_length: usize,
    ) -> NdpWritten;

    pub fn plain_slot(
        n: usize,
        column_starts: *const u32,
        column_starts_length: usize,
        rows: *const u16,
        rows_length: usize,
        a: usize,
        b: usize,
    ) -> NdpSlot;

    pub fn plain_rows(
        n: usize,
        column_starts: *const u32,
        column_starts_length: usize,
        rows: *const u16,
        rows_length: usize,
        j: usize,
    ) -> NdpRows;

    pub fn plain_pair(
        n: usize,
        column_starts: *const u32,
        column_starts_length: usize,
        rows: *const u16,
        rows_length: usize,
        slot: usize,
    ) -> NdpPair;

    pub fn plain_matrix_market(
        text: *const u8,
        text_length: usize,
        starts: *mut u32,
        starts_length: usize,
        neighbours: *mut u16,
        neighbours_length: usize,
    ) -> NdpMesh;

    pub fn plain_join(
        n1: usize,
        starts1: *const u32,
        starts1_length: usize,
        neighbours1: *const u16,
        neighbours1_length: usize,
        n2: usize,
        starts2: *const u32,
        starts2_length: usize,
        neighbours2: *const u16,
        neighbours2_length: usize,
        first: *const u16,
        first_length: usize,
        second: *const u16,
        second_length: usize,
        starts: *mut u32,
        starts_length: usize,
        neighbours: *mut u16,
        neighbours_length: usize,
    ) -> NdpMesh;

    pub fn plain_factor(
        unknowns: usize,
        n: usize,
        p: usize,
        s: usize,
        order: *const u16,
        order_length: usize,
        sizes: *const u16,
        sizes_length: usize,
        parents: *const u16,
        parents_length: usize,
        column_starts: *const u32,
        column_starts_length: usize,
        rows: *const u16,
        rows_length: usize,
        diagonal: *mut f64,
        diagonal_length: usize,
        values: *mut f64,
        values_length: usize,
    ) -> NdfReport;

    pub fn plain_solve(
        unknowns: usize,
        n: usize,
        p: usize,
        s: usize,
        order: *const u16,
        order_length: usize,
        sizes: *const u16,
        sizes_length: usize,
        parents: *const u16,
        parents_length: usize,
        column_starts: *const u32,
        column_starts_length: usize,
        rows: *const u16,
        rows_length: usize,
        diagonal: *const f64,
        diagonal_length: usize,
        values: *const f64,
        values_length: usize,
        vector: *mut f64,
        vector_length: usize,
    ) -> u32;

    pub fn plain_held(
        n: usize,
        column_starts: *const u32,
        column_starts_length: usize,
        rows: *const u16,
        rows_length: usize,
        diagonal: *const f64,
        diagonal_length: usize,
        values: *const f64,
        values_length: usize,
        a: usize,
        b: usize,
    ) -> NdfHeld;

    pub fn plain_family(number: u32) -> u32;

    /// From `src/text.c`.
    pub fn header_refusal_text(number: u32) -> *const std::ffi::c_char;
}
