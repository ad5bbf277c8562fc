//! Meshes and files at the limits.

use crate::calls::{self, ample_room, exact_room, longer_room, read_expecting, unknowns_for, write_expecting};
use crate::files::{file_of, parts_of};
use crate::meshes;
use crate::plans::{compare_paths, compare_round_trip};
use crate::random::Random;
use plain::{MeshLists, Planned};

fn compare(mesh: &MeshLists) -> Planned {
    let unknowns = unknowns_for(mesh.n);
    let planned = calls::plan(unknowns, mesh, &ample_room(mesh.n)).unwrap();
    calls::plan_expecting(unknowns, mesh, &exact_room(mesh.n, planned.rows.len()), &Ok(planned.clone()));
    planned
}

#[test]
fn meshes_of_4096_nodes() {
    let mut random = Random(4);
    let meshes = [
        meshes::path(4096),
        meshes::shuffled(&meshes::grid(64, 64, false), &mut random),
        meshes::grid(64, 64, true),
        meshes::shuffled(&meshes::tree(4096, 4096, &mut random), &mut random),
        meshes::full_tree(4096),
    ];
    for mesh in &meshes {
        let planned = compare(mesh);
        compare_paths(mesh, &planned);
        compare_round_trip(&planned);
    }
}

/// Components of each size side by side: the first regions are their own trees.
#[test]
fn many_components() {
    let mesh = meshes::side_by_side(&(1..=90).map(meshes::path).collect::<Vec<_>>());
    assert_eq!(mesh.n, 4095);
    let planned = compare(&mesh);
    let trees = planned.parents.iter().filter(|parent| **parent == 65535).count();
    assert_eq!(trees, 90);
}

/// A mesh with exactly 65,536 entries is accepted; with one pair more, it is refused with 3.
#[test]
fn entries_at_the_limit() {
    let mut random = Random(5);
    let mut edges = meshes::edges_of(&meshes::random_graph(2600, 100_000, &mut random));
    random.shuffle(&mut edges);
    edges.truncate(32769);
    let above = meshes::from_edges(2600, &edges);
    assert_eq!(above.neighbours.len(), 65538);
    assert_eq!(calls::plan(1, &above, &ample_room(2600)), Err(3));
    edges.pop();
    let most = meshes::from_edges(2600, &edges);
    assert_eq!(most.neighbours.len(), 65536);
    let planned = compare(&most);
    assert!(planned.rows.len() > 500_000);
    compare_paths(&most, &planned);
}

/// The largest plan that a file holds: one part of 4,096 nodes with a slot for every pair.
#[test]
fn every_slot_of_4096_nodes() {
    let n = 4096;
    let numbers: Vec<u16> = (0..n as u16).collect();
    let planned = Planned {
        order: numbers.clone(),
        positions: numbers,
        sizes: vec![n as u16],
        parents: vec![65535],
        column_starts: (0..=n).map(|j| (j * (2 * n - 1 - j) / 2) as u32).collect(),
        rows: (0..n as u16).flat_map(|j| j + 1..n as u16).collect(),
        unknowns: 1,
        multiplications: 11_461_632_000,
    };
    assert_eq!(planned.rows.len(), ndplan::MAX_SLOTS);
    let (room, expected) = (longer_room(n, planned.rows.len()), Ok(planned.clone()));
    let file = file_of(2, &parts_of(&planned));
    assert_eq!(file.len(), 19 + 4 * n + 4 + 2 * planned.rows.len());
    write_expecting(&parts_of(&planned), file.len(), &Ok(file.clone()));
    read_expecting(&file, &room, &expected);
    read_expecting(&file_of(1, &parts_of(&planned)), &room, &expected);
}
