//! Generated meshes: planned, written, read back and asked about.

use crate::calls::{self, ample_room, exact_room, longer_room, owned_expecting, unknowns_for, Expected, LentLayout};
use crate::files::{self, parts_of};
use crate::meshes;
use crate::paths::reached_through_earlier;
use crate::random::Random;
use ndplan::{Mesh, Plan};
use plain::{MeshLists, Planned, Room};

/// Plans an accepted mesh in exact and in longer buffers, and refuses buffers that are one entry too short.
fn compare_planning(mesh: &MeshLists) -> Planned {
    let unknowns = unknowns_for(mesh.n);
    let expected = plain::plan(unknowns, mesh, &ample_room(mesh.n));
    let planned = expected.clone().unwrap();
    let (n, slots) = (mesh.n, planned.rows.len());
    for room in [exact_room(n, slots), longer_room(n, slots)] {
        calls::plan_expecting(unknowns, mesh, &room, &expected);
    }
    for (room, number) in short_rooms(n, slots) {
        calls::plan_expecting(unknowns, mesh, &room, &Err(number));
    }
    let lists = Mesh { nodes: n, starts: &mesh.starts, neighbours: &mesh.neighbours };
    owned_expecting(&Plan::of(unknowns, &lists), &expected);
    planned
}

/// Rooms that lack one entry, with their refusals.
fn short_rooms(n: usize, slots: usize) -> Vec<(Room, u32)> {
    let exact = exact_room(n, slots);
    let mut short = vec![
        (Room { order: n - 1, ..exact }, 8),
        (Room { positions: n - 1, ..exact }, 8),
        (Room { sizes: n - 1, ..exact }, 8),
        (Room { parents: n - 1, rows: 0, ..exact }, 8),
        (Room { column_starts: n, ..longer_room(n, slots) }, 8),
    ];
    if slots > 0 {
        short.push((Room { rows: slots - 1, ..longer_room(n, slots) }, 9));
    }
    short
}

/// Each column's rows are the later positions that a path through earlier ones reaches.
pub fn compare_paths(mesh: &MeshLists, planned: &Planned) {
    for j in 0..mesh.n {
        let rows = &planned.rows[planned.column_starts[j] as usize..planned.column_starts[j + 1] as usize];
        assert!(rows == reached_through_earlier(mesh, &planned.order, &planned.positions, j), "column {j} by paths");
    }
}

/// Writes a plan and reads it back.
pub fn compare_round_trip(planned: &Planned) {
    let (n, slots) = (planned.order.len(), planned.rows.len());
    let length = files::length(n, planned.sizes.len(), slots);
    let file = calls::write(&parts_of(planned), length).unwrap();
    calls::write_expecting(&parts_of(planned), length + 5, &Ok(file.clone()));
    calls::write_expecting(&parts_of(planned), length - 1, &Err(8));
    let expected: Expected = Ok(planned.clone());
    for room in [exact_room(n, slots), longer_room(n, slots)] {
        calls::read_expecting(&file, &room, &expected);
    }
    for (room, number) in short_rooms(n, slots) {
        calls::read_expecting(&file, &room, &Err(number));
    }
    let owned = Plan::read(&file);
    owned_expecting(&owned, &expected);
    assert!(owned.unwrap().write().as_ref() == Ok(&file), "the owned plan's file");
}

/// Asks for every column and for pairs: all of them in a small plan, some in a large one. Then for slots.
fn compare_questions(planned: &Planned, random: &mut Random) {
    let n = planned.order.len();
    let mut rows = planned.rows.clone();
    rows.extend([0, 65535, 1].iter().take(random.below(4)));
    let mut layout = LentLayout::of(n, &planned.column_starts, &rows);
    for j in 0..n.min(60) + 2 {
        assert_eq!(layout.column(j).is_ok(), j < n);
    }
    let pairs: Vec<(usize, usize)> = match n {
        1..=12 => (0..n + 2).flat_map(|a| (0..n + 2).map(move |b| (a, b))).collect(),
        _ => (0..60).map(|_| (random.below(n), random.below(n))).collect(),
    };
    for (a, b) in pairs {
        let answer = layout.slot_of_pair(a, b);
        assert_eq!(answer.is_ok(), a < n && b < n);
        assert_eq!(answer, layout.slot_of_pair(b, a));
    }
    compare_slots(&mut layout, planned.rows.len(), random);
}

/// Asks for slots: all of them in a small plan, some in a large one, and for two numbers behind them.
fn compare_slots(layout: &mut LentLayout, slots: usize, random: &mut Random) {
    let asked: Vec<usize> = match slots {
        0..=66 => (0..slots).collect(),
        _ => (0..60).map(|_| random.below(slots)).collect(),
    };
    for slot in asked.into_iter().chain([slots, slots + 1]) {
        assert_eq!(layout.pair_of_slot(slot).is_ok(), slot < slots);
    }
}

fn compare_all(mesh: &MeshLists, random: &mut Random) {
    let planned = compare_planning(mesh);
    compare_paths(mesh, &planned);
    compare_round_trip(&planned);
    compare_questions(&planned, random);
}

/// Every mesh of at most five nodes, and every mesh of six nodes without the questions.
#[test]
fn all_small_meshes() {
    let mut random = Random(1);
    for n in 1..=6 {
        for mesh in meshes::all(n) {
            match n {
                6 => compare_paths(&mesh, &calls::plan(1, &mesh, &longer_room(6, 15)).unwrap()),
                _ => compare_all(&mesh, &mut random),
            }
        }
    }
}

#[test]
fn generated_meshes() {
    let mut random = Random(2);
    for (count, size) in [(8000, 24), (1300, 120), (260, 400), (80, 900)] {
        for _ in 0..count {
            let mesh = meshes::any(size, &mut random);
            compare_all(&mesh, &mut random);
        }
    }
}

/// One of each kind, near 900 nodes.
#[test]
fn each_kind_of_mesh() {
    let mut random = Random(3);
    let kinds = [
        meshes::path(900),
        meshes::ring(899),
        meshes::star(27),
        meshes::clique(27),
        meshes::full_tree(900),
        meshes::wide_ring(200, 13),
        meshes::tree(900, 900, &mut random),
        meshes::tree(900, 3, &mut random),
        meshes::grid(30, 30, false),
        meshes::grid(15, 60, true),
        meshes::plate_with_holes(32, 32, 6, &mut random),
        meshes::random_graph(700, 2100, &mut random),
        meshes::random_graph(700, 20000, &mut random),
        meshes::broom(60, 25, 25),
        meshes::bush(60, 300, 5, &mut random),
        meshes::side_by_side(&[
            meshes::grid(14, 14, true),
            meshes::path(200),
            meshes::star(25),
            meshes::from_edges(40, &[]),
        ]),
    ];
    for mesh in &kinds {
        compare_all(mesh, &mut random);
        compare_all(&meshes::shuffled(mesh, &mut random), &mut random);
    }
}
