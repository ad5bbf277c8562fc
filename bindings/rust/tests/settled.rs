//! Inputs on which other readings of documents 01 and 02 differ, with the answers of the reading taken (docs/DECISIONS.md).
//! The numbers stand here by themselves, so that they do not depend on the plain planner's reading.

use crate::calls::{ample_room, plan, plan_expecting, read_expecting, write_expecting, LentLayout};
use crate::files::file;
use crate::meshes::{from_edges, from_lists};
use plain::{FileParts, MeshLists, PairAnswer};

/// The mesh whose edges are pairs of digits.
fn mesh(n: usize, edges: &[&str]) -> MeshLists {
    let pair = |edge: &&str| (edge.as_bytes()[0] as usize - 48, edge.as_bytes()[1] as usize - 48);
    from_edges(n, &edges.iter().map(pair).collect::<Vec<_>>())
}

fn expect_order(mesh: &MeshLists, order: &[u16]) {
    let planned = plan(1, mesh, &ample_room(mesh.n)).unwrap();
    assert_eq!(planned.order, order);
}

#[test]
fn choice_of_the_root() {
    expect_order(&mesh(7, &["03", "04", "12", "14", "23", "36", "45"]), &[1, 5, 4, 3, 6, 0, 2]);
    expect_order(&mesh(5, &["01", "02", "03", "04", "14", "34"]), &[1, 2, 3, 0, 4]);
    expect_order(&mesh(5, &["01", "02", "03", "04", "13", "34"]), &[1, 2, 4, 0, 3]);
    expect_order(&mesh(6, &["01", "02", "03", "04", "05", "14", "15", "23"]), &[2, 3, 4, 5, 0, 1]);
}

fn expect_parts(mesh: &MeshLists, order: &[u16], sizes: &[u16]) {
    let planned = plan(1, mesh, &ample_room(mesh.n)).unwrap();
    assert_eq!((&planned.order[..], &planned.sizes[..]), (order, sizes));
}

/// Of two ends that are equally far, one with a narrower widest level replaces the root. Without a look at the widths these
/// would have other parts, and all but the first two also by the node count of the last level.
#[test]
fn narrower_end_replaces_the_root() {
    expect_parts(&mesh(5, &["04", "12", "14", "23", "24", "34"]), &[0, 1, 3, 2, 4], &[1, 1, 1, 2]);
    expect_parts(&mesh(5, &["01", "02", "03", "04", "23", "24"]), &[1, 3, 4, 0, 2], &[1, 1, 1, 2]);
    let edges = ["01", "02", "03", "12", "13", "24", "25", "34", "35", "46", "56"];
    expect_parts(&mesh(7, &edges), &[0, 1, 4, 5, 6, 2, 3], &[2, 1, 1, 1, 2]);
    let edges = ["01", "02", "06", "14", "15", "17", "18", "23", "35", "37", "45", "48", "78"];
    expect_parts(&mesh(9, &edges), &[1, 4, 8, 2, 3, 5, 7, 6, 0], &[3, 2, 2, 1, 1]);
    let edges = ["01", "02", "03", "04", "14", "15", "23", "24", "25", "56"];
    expect_parts(&mesh(7, &edges), &[3, 4, 0, 5, 6, 1, 2], &[1, 1, 1, 2, 2]);
}

/// The first candidate that improves replaces the root: in the first mesh not the narrowest of all, by which 1, 4 5, 3, 2
/// and 0 would be the parts; in the second not a later one that is farther, by which 0, 2 3, 5, 7, 6 and 1 4 would be.
#[test]
fn first_narrower_end_replaces_the_root() {
    expect_parts(&mesh(6, &["02", "03", "05", "13", "34", "35", "45"]), &[0, 2, 1, 4, 3, 5], &[2, 1, 1, 2]);
    let edges = ["04", "12", "15", "23", "24", "46", "56", "67"];
    expect_parts(&mesh(8, &edges), &[0, 1, 3, 2, 6, 7, 4, 5], &[1, 1, 1, 1, 2, 2]);
}

/// An end that is equally far and equally wide does not replace the root: otherwise 0 and 3 of the first mesh would replace
/// one another without end. The candidates of the second have narrower last levels, but no narrower widest one; by the last
/// levels every node would be a part.
#[test]
fn equally_wide_end_leaves_the_root() {
    expect_parts(&mesh(5, &["01", "02", "13", "23", "24"]), &[1, 2, 4, 0, 3], &[1, 2, 2]);
    expect_parts(&mesh(5, &["04", "13", "23", "34"]), &[0, 4, 1, 2, 3], &[2, 1, 1, 1]);
}

/// Degree counts neighbours in the region. With nodes already chosen, 1 2 3 4 of the first mesh and 1 2 3 6 of the second
/// would stay uncut, though not all next to one another; the third would be cut in another way two cuts deep; in the
/// fourth another node would be least.
#[test]
fn degree_leaves_out_chosen_nodes() {
    let edges = ["01", "03", "04", "05", "12", "13", "14", "23", "24"];
    expect_parts(&mesh(6, &edges), &[3, 4, 1, 2, 5, 0], &[1, 1, 2, 1, 1]);
    let edges = ["01", "05", "12", "13", "16", "23", "26", "34", "45", "46"];
    expect_parts(&mesh(7, &edges), &[3, 6, 1, 2, 5, 0, 4], &[1, 1, 2, 1, 2]);
    let edges = ["03", "04", "08", "12", "24", "25", "26", "28", "34", "35", "36", "37", "45", "47", "56"];
    expect_parts(&mesh(9, &edges), &[4, 7, 6, 3, 5, 8, 0, 1, 2], &[2, 1, 2, 1, 1, 1, 1]);
    let edges = ["01", "02", "03", "23", "24", "25", "26", "34", "45", "56"];
    expect_parts(&mesh(7, &edges), &[1, 3, 5, 6, 2, 4, 0], &[1, 1, 2, 2, 1]);
}

/// All neighbours in the region, not only those in the last level, by which 1 4, 2 5 and 0 3 would be the parts.
#[test]
fn degree_counts_the_whole_region() {
    let edges = ["01", "02", "13", "14", "23", "25", "34"];
    expect_parts(&mesh(6, &edges), &[0, 3, 4, 1, 5, 2], &[1, 2, 1, 1, 1]);
}

/// A mesh, its nodes as lent and its refusal.
fn expect_refused(n: usize, starts: &[u32], neighbours: &[u16], number: u32) {
    let mesh = MeshLists { n, starts: starts.to_vec(), neighbours: neighbours.to_vec() };
    plan_expecting(1, &mesh, &ample_room(n), &Err(number));
}

#[test]
fn order_of_the_mesh_checks() {
    expect_refused(3, &[0, 0, 0], &[], 2);
    expect_refused(0, &[], &[], 1);
    expect_refused(0, &[7, 3], &[9], 1);
    expect_refused(65536 + 2, &[0, 1, 2], &[1, 0], 1);
    expect_refused(usize::MAX, &[0, 1, 2], &[1, 0], 1);
    expect_refused(2, &[0, 4_294_967_295, 2], &[1, 0], 2);
    expect_refused(2, &[0, 2, 1], &[1, 0], 2);
    expect_refused(2, &[1, 1, 2], &[1, 0], 2);
    expect_refused(2, &[0, 1, 1], &[1, 0], 2);
    expect_refused(2, &[0, 1, 2, 2], &[1, 0], 2);
    expect_refused(2, &[0, 1, 2], &[0, 2], 4);
    expect_refused(3, &[0, 2, 3, 4], &[2, 1, 1, 0], 5);
    expect_refused(3, &[0, 2, 3, 3], &[2, 1, 0], 6);
    expect_refused(3, &[0, 2, 2, 2], &[1, 1], 6);
    expect_refused(3, &[0, 2, 3, 3], &[1, 2, 0], 7);
    let mut many = vec![0; 65537];
    expect_refused(2, &[0, 65536, 65536], &many, 2);
    expect_refused(2, &[0, 65537, 65537], &many, 3);
    many[0] = 9;
    expect_refused(2, &[0, 65537, 65537], &many, 3);
    many.pop();
    expect_refused(2, &[0, 65536, 65536], &many, 4);
}

/// Before 8 comes 7, before 9 comes 8.
#[test]
fn buffers_are_looked_at_last() {
    let mut room = ample_room(2);
    room.order = 0;
    room.rows = 0;
    plan_expecting(1, &from_lists(&[vec![1], vec![]]), &room, &Err(7));
    plan_expecting(1, &from_lists(&[vec![1], vec![0]]), &room, &Err(8));
    room.order = 2;
    plan_expecting(1, &from_lists(&[vec![1], vec![0]]), &room, &Err(9));
}

#[test]
fn order_of_the_file_checks() {
    let room = ample_room(8);
    let refused = |file: &[u8], number| read_expecting(file, &room, &Err(number));
    let one = [0, 1, 65535, 0];
    refused(b"XDP\x03\x00", 10);
    refused(&[b"XDP\x03".to_vec(), vec![0; 13]].concat(), 11);
    refused(&file(3, 0, [0, 0, 0], &[]), 12);
    refused(&file(257, 1, [1, 1, 0], &one), 12);
    refused(&file(2, 0, [0, 0, 0], &[]), 28);
    for version in [1, 2] {
        let refused = |counts, words: &[u16], number| refused(&file(version, 1, counts, words), number);
        refused([0, 0, 0], &[], 13);
        refused([65541, 1, 0], &one, 13);
        refused([4097, 1, 0], &one, 13);
        refused([1, 2, 0], &one, 13);
        refused([1, 65537, 0], &one, 13);
        refused([1, 1, 1], &one, 13);
        refused([1, 1, 65536], &one, 13);
        refused([1, 1, 0], &[0, 1, 65535, 0, 0], 14);
        refused([1, 1, 0], &[1, 0, 65535, 9], 15);
        refused([1, 1, 0], &[0, 0, 65535, 9], 16);
        refused([1, 1, 0], &[0, 1, 0, 9], 16);
        refused([1, 1, 0], &[0, 1, 65535, 1], 17);
    }
    assert_eq!([1, 2].map(|version| file(version, 1, [1, 1, 0], &one).len()), [25, 27]);
}

/// Sums are exact: they do not wrap at 16 bits.
#[test]
fn sums_of_a_file_are_exact() {
    let order = [0, 1, 2, 3, 4];
    let sizes = [&order[..], &[65535, 65535, 5, 65535, 1, 65535], &[0; 5]].concat();
    let counts = [&order[..], &[5, 65535], &[65535, 6, 0, 0, 0], &[1, 2, 3, 4, 4]].concat();
    for version in [1, 2] {
        read_expecting(&file(version, 1, [5, 3, 0], &sizes), &ample_room(5), &Err(16));
        read_expecting(&file(version, 1, [5, 1, 5], &counts), &ample_room(5), &Err(17));
    }
}

#[test]
fn the_writer_needs_each_slice() {
    let one = FileParts {
        unknowns: 1,
        n: 2,
        p: 1,
        s: 1,
        order: vec![1, 0],
        sizes: vec![2],
        parents: vec![65535],
        column_starts: vec![0, 1, 1],
        rows: vec![1],
    };
    let refused = |parts: FileParts| write_expecting(&parts, 100, &Err(13));
    refused(FileParts { order: vec![1], ..one.clone() });
    refused(FileParts { sizes: vec![], ..one.clone() });
    refused(FileParts { parents: vec![], ..one.clone() });
    refused(FileParts { column_starts: vec![0, 1], ..one.clone() });
    refused(FileParts { rows: vec![], ..one.clone() });
    refused(FileParts { s: 2, rows: vec![1, 1], ..one.clone() });
    write_expecting(&FileParts { column_starts: vec![1, 1, 1], ..one.clone() }, 100, &Err(17));
    write_expecting(&FileParts { column_starts: vec![0, 0, 0], ..one.clone() }, 100, &Err(17));
    write_expecting(&FileParts { column_starts: vec![0, 2, 1], ..one }, 100, &Err(17));
}

#[test]
fn questions_look_at_the_whole_layout() {
    let starts = [0, 1, 2, 4, 5, 5];
    assert_eq!(LentLayout::of(5, &starts, &[1, 4, 3, 5, 4]).slot_of_pair(0, 1), Err(22));
    assert_eq!(LentLayout::of(5, &starts, &[2, 4, 3, 4, 4]).slot_of_pair(0, 1), Ok(PairAnswer::NoSlot));
    assert_eq!(LentLayout::of(5, &starts, &[1, 4, 3, 4, 4, 0, 0]).column(3), Ok((4, 1)));
    assert_eq!(LentLayout::of(5, &starts, &[1, 4, 3, 4]).column(0), Err(22));
    assert_eq!(LentLayout::of(5, &[0, 1, 2, 4, 5, 5, 5], &[1, 4, 3, 4, 4]).slot_of_pair(0, 1), Err(22));
    assert_eq!(LentLayout::of(5, &starts, &[1, 4, 3, 4, 4]).slot_of_pair(5, 5), Err(21));
    assert_eq!(LentLayout::of(5, &starts, &[1, 4, 3, 5, 4]).slot_of_pair(5, 5), Err(22));
    assert_eq!(LentLayout::of(0, &[], &[]).slot_of_pair(0, 0), Err(1));
    assert_eq!(LentLayout::of(4097, &[0; 4098], &[]).column(0), Err(1));
}

/// The slots end at the last start, not at the rows' end; a slot's column is the last that starts at the slot or before it.
#[test]
fn slots_end_at_the_last_start() {
    let (starts, rows) = ([0, 1, 2, 4, 5, 5], [1, 4, 3, 4, 4, 0, 4, 9]);
    let mut longer = LentLayout::of(5, &starts, &rows);
    assert_eq!((longer.pair_of_slot(4), longer.pair_of_slot(5)), (Ok((4, 3)), Err(27)));
    assert_eq!((longer.pair_of_slot(7), longer.pair_of_slot(8)), (Err(27), Err(27)));
    let mut exact = LentLayout::of(5, &starts, &rows[..5]);
    assert_eq!((exact.pair_of_slot(4), exact.pair_of_slot(5)), (Ok((4, 3)), Err(27)));
    assert_eq!(LentLayout::of(5, &starts, &[1, 4, 3, 5, 4]).pair_of_slot(0), Err(22));
    assert_eq!(LentLayout::of(5, &starts, &[1, 4, 3, 5, 4]).pair_of_slot(5), Err(22));
    assert_eq!(LentLayout::of(5, &starts, &[1, 4, 3, 4]).pair_of_slot(4), Err(22));
    assert_eq!(LentLayout::of(0, &[], &[]).pair_of_slot(0), Err(1));
    assert_eq!(LentLayout::of(3, &[0; 4], &[1]).pair_of_slot(0), Err(27));
    let mut apart = LentLayout::of(6, &[0, 0, 0, 2, 2, 3, 3], &[4, 5, 5]);
    assert_eq!([0, 1, 2].map(|slot| apart.pair_of_slot(slot)), [Ok((4, 2)), Ok((5, 2)), Ok((5, 4))]);
}
