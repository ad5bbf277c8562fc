//! Meshes joined along pairs, worked through after document 02. The lists stand here by themselves, or are those of a mesh that
//! is made in another way, so that they depend on no other joining.

use crate::calls::{ample_room, owned_expecting, plan};
use crate::join_calls::{join_expecting, node_by_node, Joining};
use crate::join_sentence::by_sentence;
use crate::made_meshes::{room_of, AMPLE};
use crate::meshes::{self, clique, edges_of, from_edges, from_lists, grid, path, ring, side_by_side, star};
use crate::random::Random;
use ndplan::{Mesh, OwnedMesh, Pairing, Plan};
use plain::MeshLists;

/// The two meshes give this one, by the library and by the sentence, and it can be planned.
fn gives(first: &MeshLists, second: &MeshLists, pairs: &[(u16, u16)], mesh: &MeshLists) {
    let (joining, expected) = (Joining::new(first, second, pairs), Ok(mesh.clone()));
    assert_eq!(by_sentence(&joining, room_of(mesh)), expected);
    for room in [room_of(mesh), AMPLE] {
        join_expecting(&joining, room, &expected);
    }
    assert!(plan(1, mesh, &ample_room(mesh.n)).is_ok());
}

#[test]
fn chains_end_to_end() {
    gives(&path(3), &path(3), &[(2, 0)], &path(5));
    let lists = [vec![1, 4], vec![0, 2], vec![1], vec![4], vec![0, 3]];
    gives(&path(3), &path(3), &[(0, 2)], &from_lists(&lists));
    let lists = [vec![1, 3], vec![0, 2], vec![1], vec![0, 4], vec![3]];
    gives(&path(3), &path(3), &[(0, 0)], &from_lists(&lists));
    let lists = [vec![1], vec![0, 2], vec![1, 4], vec![4], vec![2, 3]];
    gives(&path(3), &path(3), &[(2, 2)], &from_lists(&lists));
    gives(&path(200), &path(300), &[(199, 0)], &path(499));
}

/// Two chains joined at both ends are a ring.
#[test]
fn chains_to_a_ring() {
    gives(&path(4), &path(4), &[(3, 0), (0, 3)], &ring(6));
    gives(&path(4), &path(4), &[(0, 3), (3, 0)], &ring(6));
    let lists = [vec![1, 2], vec![0, 2], vec![0, 1]];
    gives(&path(3), &path(2), &[(0, 0), (2, 1)], &from_lists(&lists));
}

/// The last row of the heel is the first row of the forefoot; the edges of that row are in both.
#[test]
fn heel_and_forefoot() {
    let seam = [(3, 0), (4, 1), (5, 2)];
    gives(&grid(3, 2, false), &grid(3, 2, false), &seam, &grid(3, 3, false));
    for (width, heel, forefoot) in [(3, 2, 2), (9, 20, 31), (1, 4, 5), (20, 1, 3), (30, 15, 16)] {
        let last = (heel - 1) * width;
        let seam: Vec<_> = (0..width).rev().map(|v| ((last + v) as u16, v as u16)).collect();
        for diagonals in [false, true] {
            let [first, second] = [heel, forefoot].map(|height| grid(width, height, diagonals));
            gives(&first, &second, &seam, &grid(width, heel + forefoot - 1, diagonals));
        }
    }
}

/// The heel comes second and was meshed the other way round, so the seam runs backwards along it.
///
/// The joined mesh, with the seam 0-1-2 and the heel behind it:
/// ```text
/// 3 4 5
/// 0 1 2
/// 8 7 6
/// ```
#[test]
fn a_seam_that_runs_backwards() {
    let lists = [
        vec![1, 3, 8],
        vec![0, 2, 4, 7],
        vec![1, 5, 6],
        vec![0, 4],
        vec![1, 3, 5],
        vec![2, 4],
        vec![2, 7],
        vec![1, 6, 8],
        vec![0, 7],
    ];
    gives(&grid(3, 2, false), &grid(3, 2, false), &[(2, 0), (1, 1), (0, 2)], &from_lists(&lists));
}

/// Equal lists merge, and the result is the mesh itself.
#[test]
fn a_mesh_with_itself_node_by_node() {
    let mut random = Random(64);
    for mesh in [path(1), path(2), clique(27), star(27), ring(64)].into_iter().chain(some_meshes(&mut random)) {
        gives(&mesh, &mesh, &node_by_node(mesh.n), &mesh);
    }
}

fn some_meshes(random: &mut Random) -> Vec<MeshLists> {
    (0..150).map(|_| meshes::any(80, random)).collect()
}

/// The same mesh under other numbers gives the mesh itself too.
#[test]
fn a_mesh_with_itself_renumbered() {
    let mut random = Random(65);
    for mesh in some_meshes(&mut random) {
        let mut number: Vec<u16> = (0..mesh.n as u16).collect();
        random.shuffle(&mut number);
        let edges = edges_of(&mesh).into_iter().map(|(v, w)| (number[v].into(), number[w].into()));
        let renumbered = from_edges(mesh.n, &edges.collect::<Vec<_>>());
        let pairs: Vec<_> = (0..mesh.n as u16).map(|v| (v, number[v as usize])).collect();
        gives(&mesh, &renumbered, &pairs, &mesh);
    }
}

/// Without pairs the meshes stand side by side.
#[test]
fn no_pairs() {
    let mut random = Random(66);
    for first in some_meshes(&mut random) {
        let second = meshes::any(80, &mut random);
        gives(&first, &second, &[], &side_by_side(&[first.clone(), second.clone()]));
    }
    gives(&path(1), &path(1), &[], &from_edges(2, &[]));
}

/// Partners go anywhere, so a list of the second mesh comes in no order.
#[test]
fn lists_of_the_second_are_put_in_order() {
    let unjoined = |n: usize| from_edges(n, &[]);
    let lists = [vec![2], vec![], vec![0, 4, 5], vec![], vec![2], vec![2]];
    gives(&unjoined(5), &star(4), &[(2, 0), (4, 1), (0, 2)], &from_lists(&lists));
    let down: Vec<_> = (0..27).map(|v| (26 - v, v)).collect();
    gives(&unjoined(27), &clique(27), &down, &clique(27));
    gives(&unjoined(27), &star(27), &down, &from_edges(27, &(0..26).map(|v| (v, 26)).collect::<Vec<_>>()));
    let lists = [vec![1], vec![0, 2, 3, 4, 5], vec![1, 3, 4, 5], vec![1, 2, 5], vec![1, 2, 5], vec![1, 2, 3, 4]];
    let (first, second) = (from_edges(4, &[(0, 1), (1, 2), (2, 3)]), from_edges(5, &edges_of(&clique(5))[1..]));
    gives(&first, &second, &[(1, 4), (3, 0), (2, 2)], &from_lists(&lists));
}

/// A list of the joined mesh with entries of the first only, of the second only, and of both, in turn.
#[test]
fn lists_merge() {
    let (first, second) = (from_edges(6, &[(0, 1), (0, 3), (0, 5)]), from_edges(7, &[(0, 1), (0, 2), (0, 3), (0, 6)]));
    let pairs = [(0, 0), (2, 1), (3, 2), (4, 3), (5, 5), (1, 4)];
    let lists = [vec![1, 2, 3, 4, 5, 6], vec![0], vec![0], vec![0], vec![0], vec![0], vec![0]];
    gives(&first, &second, &pairs, &from_lists(&lists));
}

/// The unpaired nodes of the second follow without gaps, wherever the paired ones stand among them.
#[test]
fn numbers_of_unpaired_nodes() {
    for paired in 0..64u16 {
        let nodes: Vec<u16> = (0..6).filter(|v| paired >> v & 1 == 1).collect();
        let pairs: Vec<(u16, u16)> = nodes.iter().rev().map(|v| (6 - v, *v)).collect();
        let mut next = 7;
        let number = [0, 1, 2, 3, 4, 5].map(|v| match nodes.contains(&v) {
            true => 6 - v as usize,
            false => {
                next += 1;
                next - 1
            }
        });
        let edges: Vec<_> = (1..6).map(|v| (number[v - 1], number[v])).collect();
        gives(&from_edges(7, &[]), &path(6), &pairs, &from_edges(13 - nodes.len(), &edges));
    }
}

/// One mesh and one list lent twice: the path 0-1-2 with itself along its middle, and along all of it.
#[test]
fn one_mesh_lent_twice() {
    let half = Mesh { nodes: 3, starts: &[0, 1, 3, 4], neighbours: &[1, 0, 2, 1] };
    for (nodes, starts, neighbours) in [
        (&[1][..], &[0u32, 1, 5, 6, 7, 8][..], &[1u16, 0, 2, 3, 4, 1, 1, 1][..]),
        (&[0, 1, 2], half.starts, half.neighbours),
        (&[], &[0, 1, 3, 4, 5, 7, 8], &[1, 0, 2, 1, 4, 3, 5, 4]),
    ] {
        let joined = OwnedMesh::join(&half, &half, &Pairing { first: nodes, second: nodes }).unwrap();
        let lists = joined.lists();
        assert_eq!((lists.nodes, lists.starts, lists.neighbours), (starts.len() - 1, starts, neighbours));
    }
}

/// The joined mesh is planned as the same mesh that was lent whole.
#[test]
fn joined_meshes_are_planned() {
    let (heel, forefoot) = (grid(12, 20, true), grid(12, 31, true));
    let seam: [Vec<u16>; 2] = [(228..240).collect(), (0..12).collect()];
    let [heel, forefoot] =
        [&heel, &forefoot].map(|half| Mesh { nodes: half.n, starts: &half.starts, neighbours: &half.neighbours });
    let joined = OwnedMesh::join(&heel, &forefoot, &Pairing { first: &seam[0], second: &seam[1] }).unwrap();
    let foot = grid(12, 50, true);
    owned_expecting(&Plan::of(1, &joined.lists()), &plan(1, &foot, &ample_room(foot.n)));
}
