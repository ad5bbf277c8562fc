//! Refusals and their families.

use crate::ffi;
use std::fmt;

/// A refusal, by its number. Every refusal leaves the lent memory as found, but for 31 of [`factor`](crate::factor), which leaves
/// what was reached.
#[derive(Clone, Copy, Debug, PartialEq, Eq, Hash)]
pub struct Refusal(pub u32);

/// What a refusal's number is about: numbers 1 to 9, 10 to 19, 20, 21 and 22, and all others.
#[derive(Clone, Copy, Debug, PartialEq, Eq, Hash)]
pub enum Family {
    Mesh,
    File,
    Program,
    Question,
    None,
}

/// The family of a number.
pub fn family(number: u32) -> Family {
    // SAFETY: the function takes every number and no memory.
    match unsafe { ffi::ndp_family(number) } {
        ffi::NDP_MESH => Family::Mesh,
        ffi::NDP_FILE => Family::File,
        ffi::NDP_PROGRAM => Family::Program,
        ffi::NDP_QUESTION => Family::Question,
        _ => Family::None,
    }
}

/// What each number means, from 0 on, in the words of `include/ndplan.h`.
const TEXTS: [&str; 34] = [
    "accepted",
    "the number of nodes is not 1 to 4096",
    "there is not one start more than nodes, or the starts do not begin at 0, fall, or do not end at the number of neighbour entries",
    "there are more than 65536 neighbour entries",
    "a neighbour is not below the number of nodes",
    "a node lists itself as a neighbour",
    "a node's neighbours are not strictly ascending",
    "an edge is listed by one of its two nodes only",
    "a result buffer other than the rows is too short",
    "the rows buffer is shorter than the slots",
    "the file has fewer than 17 bytes, or fewer than 19 in version 2",
    "the file does not begin with the letters NDP",
    "the file's version is neither 1 nor 2",
    "the nodes n are not 1 to 4096, the parts not 1 to n, the slots above n(n - 1)/2, or a list to be written is too short for these",
    "the file's length is not 17 + 4 nodes + 4 parts + 2 slots in version 1, or 19 + 4 nodes + 4 parts + 2 slots in version 2",
    "the order does not hold each node once",
    "a part's size is 0, the sizes do not sum to the nodes, or a parent is neither 65535 (none) nor the number of a later part",
    "the column starts or row counts do not fit the slots, or a column's rows are not strictly ascending, above it and below the nodes",
    "a row lies outside its column's part and the ancestors of that part",
    "a column's rows after its first are not all rows of the first row's column",
    "the input of the listing program is cut short or over its size",
    "a position is not below the number of nodes",
    "the column starts do not fit the nodes and the rows, or a column's rows are not strictly ascending, above it and below the nodes",
    "the text is not of the coordinate pattern symmetric kind, a number is beyond 32 bits, or the pairs are not as many as stated",
    "the matrix is not square, an index is outside it, or a row number is less than its column's",
    "a pair is given again, diagonal ones too",
    "a list is longer than 26 entries",
    "a slot number is not below the number of slots",
    "the number of unknowns for each node is not 1 to 6",
    "there is more than one unknown for each node",
    "the diagonal's values or the vector's are not as many as the nodes, or the slots' values not as many as the slots",
    "a pivot is not both finite and above zero",
    "the pairs' two lists differ in length, or a pair names a node that does not exist",
    "a node of either mesh is paired twice",
];

impl Refusal {
    /// What this refusal's number means.
    pub fn text(self) -> &'static str {
        TEXTS.get(self.0 as usize).unwrap_or(&"unknown refusal")
    }

    /// The family of this refusal's number.
    pub fn family(self) -> Family {
        family(self.0)
    }
}

impl fmt::Display for Refusal {
    fn fmt(&self, f: &mut fmt::Formatter<'_>) -> fmt::Result {
        write!(f, "refused {}: {}", self.0, self.text())
    }
}

impl std::error::Error for Refusal {}

/// The refusal that a reply of the library tells, where its number is not 0.
pub(crate) fn accepted(number: u32) -> Result<(), Refusal> {
    match number {
        0 => Ok(()),
        _ => Err(Refusal(number)),
    }
}
