//! The meshes worked through in document 01, with its numbers.

use crate::calls::{exact_room, longer_room, plan_expecting, read_expecting, write_expecting, LentLayout};
use crate::files::{file_of, parts_of};
use crate::meshes::{clique, from_edges, from_lists, path, ring, star};
use plain::{FileParts, MeshLists, PairAnswer, Planned, Room};

const NONE: u16 = 65535;

/// Plans a mesh and expects this plan, in exact and in longer buffers. Then writes it, expects a file of `19 + 4n + 4p + 2s`
/// bytes, and reads the plan back, also from its version 1 file.
fn expect_plan(mesh: &MeshLists, plan: &Planned) {
    let (n, slots) = (mesh.n, plan.rows.len());
    let expected = Ok(plan.clone());
    for room in [exact_room(n, slots), longer_room(n, slots)] {
        plan_expecting(1, mesh, &room, &expected);
    }
    let file = file_of(2, &parts_of(plan));
    assert_eq!(file.len(), 19 + 4 * n + 4 * plan.sizes.len() + 2 * slots);
    write_expecting(&parts_of(plan), file.len(), &Ok(file.clone()));
    read_expecting(&file, &exact_room(n, slots), &expected);
    read_expecting(&file_of(1, &parts_of(plan)), &exact_room(n, slots), &expected);
}

fn planned(
    order: &[u16],
    positions: &[u16],
    parts: &[(u16, u16)],
    starts: &[u32],
    rows: &[u16],
    multiplications: u64,
) -> Planned {
    Planned {
        order: order.to_vec(),
        positions: positions.to_vec(),
        sizes: parts.iter().map(|part| part.0).collect(),
        parents: parts.iter().map(|part| part.1).collect(),
        column_starts: starts.to_vec(),
        rows: rows.to_vec(),
        unknowns: 1,
        multiplications,
    }
}

/// The file of mesh 4.
pub const MESH_4_FILE: [u8; 61] = [
    78, 68, 80, 2, 0, 1, 0, 5, 0, 0, 0, 3, 0, 0, 0, 5, 0, 0, 0, 0, 0, 1, 0, 3, 0, 4, 0, 2, 0, 2, 0, 2, 0, 2, 0, 2, 0,
    1, 0, 255, 255, 1, 0, 1, 0, 2, 0, 1, 0, 0, 0, 1, 0, 4, 0, 3, 0, 4, 0, 4, 0,
];

pub fn mesh_4() -> Planned {
    let parts = [(2, 2), (2, 2), (1, NONE)];
    planned(&[0, 1, 3, 4, 2], &[0, 1, 4, 2, 3], &parts, &[0, 1, 2, 4, 5, 5], &[1, 4, 3, 4, 4], 11)
}

#[test]
fn mesh_1_one_node() {
    expect_plan(&from_edges(1, &[]), &planned(&[0], &[0], &[(1, NONE)], &[0, 0], &[], 0));
}

#[test]
fn mesh_2_two_nodes() {
    let parts = [(1, NONE), (1, NONE)];
    expect_plan(&from_edges(2, &[]), &planned(&[0, 1], &[0, 1], &parts, &[0, 0, 0], &[], 0));
}

#[test]
fn mesh_3_triangle() {
    let plan = planned(&[0, 1, 2], &[0, 1, 2], &[(3, NONE)], &[0, 2, 3, 3], &[1, 2, 2], 7);
    expect_plan(&clique(3), &plan);
    plan_expecting(1, &clique(3), &exact_room(3, 2), &Err(9));
}

#[test]
fn mesh_4_path() {
    expect_plan(&path(5), &mesh_4());
    write_expecting(&parts_of(&mesh_4()), 64, &Ok(MESH_4_FILE.to_vec()));
    read_expecting(&MESH_4_FILE, &exact_room(5, 5), &Ok(mesh_4()));
}

/// The columns as the listing shows them, and every pair.
#[test]
fn mesh_4_questions() {
    let plan = mesh_4();
    let mut layout = LentLayout::of(5, &plan.column_starts, &plan.rows);
    let spans = [(0, 1), (1, 1), (2, 2), (4, 1), (5, 0)];
    for (j, span) in spans.into_iter().enumerate() {
        assert_eq!(layout.column(j), Ok(span));
    }
    let slots = [(0, 1, 0), (1, 4, 1), (2, 3, 2), (2, 4, 3), (3, 4, 4)];
    for (a, b) in (0..5).flat_map(|a| (0..5).map(move |b| (a, b))) {
        let slot = slots.iter().find(|(column, row, _)| (*column, *row) == (a.min(b), a.max(b)));
        let expected = match slot {
            Some((_, _, slot)) => PairAnswer::Slot(*slot),
            None if a == b => PairAnswer::Diagonal,
            None => PairAnswer::NoSlot,
        };
        assert_eq!(layout.slot_of_pair(a, b), Ok(expected));
    }
}

/// Every slot's row and column.
#[test]
fn mesh_4_slots() {
    let plan = mesh_4();
    let mut layout = LentLayout::of(5, &plan.column_starts, &plan.rows);
    let pairs = [(1, 0), (4, 1), (3, 2), (4, 2), (4, 3)];
    assert_eq!([0, 1, 2, 3, 4].map(|slot| layout.pair_of_slot(slot)), pairs.map(Ok));
    assert_eq!(layout.pair_of_slot(5), Err(27));
}

#[test]
fn mesh_5_ring() {
    let parts = [(1, 2), (1, 2), (2, NONE)];
    expect_plan(&ring(4), &planned(&[0, 2, 1, 3], &[0, 2, 1, 3], &parts, &[0, 2, 4, 5, 5], &[2, 3, 2, 3, 3], 12));
}

#[test]
fn mesh_6_star() {
    let parts = [(1, 3), (1, 3), (1, 3), (1, NONE)];
    expect_plan(&star(4), &planned(&[1, 2, 3, 0], &[3, 0, 1, 2], &parts, &[0, 1, 2, 3, 3], &[3, 3, 3], 6));
}

#[test]
fn meshes_7_to_9_are_refused() {
    let no_nodes = MeshLists { n: 0, starts: vec![0], neighbours: vec![] };
    plan_expecting(1, &no_nodes, &exact_room(4, 4), &Err(1));
    plan_expecting(1, &from_lists(&[vec![1], vec![]]), &exact_room(4, 4), &Err(7));
    plan_expecting(1, &from_lists(&[vec![5, 0], vec![]]), &exact_room(4, 4), &Err(4));
}

#[test]
fn mesh_10_is_cut_short() {
    let mut file = b"NDP".to_vec();
    file.extend([2, 0, 1, 0, 0, 0, 1, 0, 0, 0, 0, 0, 0, 0]);
    assert_eq!(file.len(), 17);
    read_expecting(&file, &exact_room(4, 4), &Err(10));
    read_expecting(&file[..16], &exact_room(4, 4), &Err(10));
}

/// A file and the writer's slices that hold the same are refused alike.
fn expect_contents_refused(parts: FileParts, number: u32) {
    for version in [1, 2] {
        read_expecting(&file_of(version, &parts), &longer_room(parts.n, parts.s), &Err(number));
    }
    write_expecting(&parts, 100, &Err(number));
}

#[test]
fn meshes_11_and_12_are_refused() {
    let order = |n| (0..n).collect();
    let (unknowns, n, p, s) = (1, 3, 1, 2);
    let (sizes, parents, column_starts, rows) = (vec![3], vec![NONE], vec![0, 2, 2, 2], vec![1, 2]);
    expect_contents_refused(FileParts { unknowns, n, p, s, order: order(3), sizes, parents, column_starts, rows }, 19);
    let (n, p, s) = (2, 2, 1);
    let (sizes, parents, column_starts, rows) = (vec![1, 1], vec![NONE, NONE], vec![0, 1, 1], vec![1]);
    expect_contents_refused(FileParts { unknowns, n, p, s, order: order(2), sizes, parents, column_starts, rows }, 18);
}

#[test]
fn mesh_13_no_entries() {
    let none = |n: usize| MeshLists { n, starts: vec![0; n + 1], neighbours: vec![] };
    let numbers: Vec<u16> = (0..4096).collect();
    let parts = vec![(1, NONE); 4096];
    expect_plan(&none(4096), &planned(&numbers, &numbers, &parts, &[0; 4097], &[], 0));
    plan_expecting(1, &none(4097), &exact_room(4097, 0), &Err(1));
}

/// Rows and another buffer too short: 8. Each of the five others is needed whole.
#[test]
fn short_buffers_of_mesh_4() {
    let exact = exact_room(5, 5);
    let short = [
        (Room { order: 4, ..exact }, 8),
        (Room { positions: 4, ..exact }, 8),
        (Room { sizes: 4, ..exact }, 8),
        (Room { parents: 4, ..exact }, 8),
        (Room { column_starts: 5, ..exact }, 8),
        (Room { rows: 4, ..exact }, 9),
        (Room { rows: 4, sizes: 3, ..exact }, 8),
        (Room { rows: 0, ..exact }, 9),
    ];
    for (room, number) in short {
        plan_expecting(1, &path(5), &room, &Err(number));
        read_expecting(&MESH_4_FILE, &room, &Err(number));
        read_expecting(&file_of(1, &parts_of(&mesh_4())), &room, &Err(number));
    }
    write_expecting(&parts_of(&mesh_4()), 60, &Err(8));
}
