//! Joined meshes at the limits of nodes, entries and lists, and long lists of pairs. What is expected stands here by itself, or
//! is the sentence's.

use crate::generated_joins::drawn_pairs;
use crate::join_calls::{join_expecting, node_by_node, Joining};
use crate::join_sentence::by_sentence;
use crate::made_meshes::{room_of, AMPLE};
use crate::meshes::{self, edges_of, from_edges, path, side_by_side, star, wide_ring};
use crate::random::Random;
use plain::MeshLists;

fn accepted(first: &MeshLists, second: &MeshLists, pairs: &[(u16, u16)], mesh: &MeshLists) {
    let joining = Joining::new(first, second, pairs);
    let (starts, neighbours) = room_of(mesh);
    for room in [(starts, neighbours), AMPLE] {
        join_expecting(&joining, room, &Ok(mesh.clone()));
    }
    join_expecting(&joining, (starts - 1, neighbours), &Err(8));
    if neighbours > 0 {
        join_expecting(&joining, (starts, neighbours - 1), &Err(8));
    }
}

fn refused(first: &MeshLists, second: &MeshLists, pairs: &[(u16, u16)], number: u32) {
    for room in [(0, 0), AMPLE] {
        join_expecting(&Joining::new(first, second, pairs), room, &Err(number));
    }
}

/// 4,096 nodes exactly, and one more.
#[test]
fn nodes_at_the_limit() {
    accepted(&path(2048), &path(2049), &[(2047, 0)], &path(4096));
    refused(&path(2049), &path(2049), &[(2048, 0)], 1);
    accepted(&path(2048), &path(2048), &[], &side_by_side(&[path(2048), path(2048)]));
    refused(&path(2048), &path(2049), &[], 1);
    accepted(&path(4095), &path(2), &[(4094, 0)], &path(4096));
    refused(&path(4096), &path(2), &[(4095, 0)], 1);
    accepted(&path(4096), &path(1), &[(17, 0)], &path(4096));
    refused(&path(1), &path(4096), &[], 1);
    refused(&path(4096), &path(4096), &[], 1);
}

/// The mesh of n nodes with the edges of the first mesh and those of the second, whose nodes get these numbers.
fn with_both_edges(n: usize, first: &MeshLists, second: &MeshLists, number: impl Fn(usize) -> usize) -> MeshLists {
    let numbered = edges_of(second).into_iter().map(|(v, w)| (number(v), number(w)));
    from_edges(n, &edges_of(first).into_iter().chain(numbered).collect::<Vec<_>>())
}

/// Two meshes of 4,096 nodes each are one mesh of as many where every node is paired.
#[test]
fn every_node_paired() {
    accepted(&path(4096), &path(4096), &node_by_node(4096), &path(4096));
    refused(&path(4096), &path(4096), &node_by_node(4095), 1);
    refused(&path(4096), &path(4096), &node_by_node(4096)[1..], 1);
    let mut random = Random(67);
    let [first, second] = [meshes::grid(64, 64, true), meshes::tree(4096, 4, &mut random)];
    let pairs = drawn_pairs(4096, [&first, &second], &mut random);
    let mut number = vec![0; 4096];
    pairs.iter().for_each(|(v, w)| number[*w as usize] = *v as usize);
    accepted(&first, &second, &pairs, &with_both_edges(4096, &first, &second, |w| number[w]));
}

/// Meshes of about 4,096 nodes after joining, by the sentence.
#[test]
fn large_meshes_by_the_sentence() {
    let mut random = Random(68);
    let plate = meshes::shuffled(&meshes::grid(50, 50, true), &mut random);
    for (second, count) in [
        (meshes::shuffled(&meshes::grid(50, 50, false), &mut random), 1000),
        (meshes::tree(2000, 4, &mut random), 404),
        (meshes::random_graph(2500, 9000, &mut random), 2500),
    ] {
        let joining = Joining::new(&plate, &second, &drawn_pairs(count, [&plate, &second], &mut random));
        let mesh = by_sentence(&joining, AMPLE).unwrap();
        assert_eq!(mesh.n, 2500 + second.n - count);
        join_expecting(&joining, room_of(&mesh), &Ok(mesh));
    }
}

/// Entries count after equal ones have merged: each of these meshes has 40,960 or more.
#[test]
fn entries_that_merge() {
    let mesh = wide_ring(2048, 10);
    assert_eq!(mesh.neighbours.len(), 40960);
    accepted(&mesh, &mesh, &node_by_node(2048), &mesh);
    refused(&mesh, &mesh, &[], 3);
    let most = wide_ring(4096, 8);
    assert_eq!(most.neighbours.len(), 65536);
    accepted(&most, &most, &node_by_node(4096), &most);
}

/// 65,536 entries exactly, and two more.
#[test]
fn entries_at_the_limit() {
    let half = wide_ring(2048, 8);
    accepted(&half, &half, &[], &side_by_side(&[half.clone(), half.clone()]));
    let more = from_edges(2048, &[edges_of(&half), vec![(0, 1000)]].concat());
    assert_eq!(more.neighbours.len(), 32770);
    refused(&half, &more, &[], 3);
    refused(&more, &half, &[], 3);
    refused(&half, &more, &[(5, 0)], 3);
}

/// Two meshes of 65,540 entries together: along the path 0-1-2 of both, four of them merge, along 0-1 two, at a node none.
#[test]
fn entries_that_merge_to_the_limit() {
    let mesh = side_by_side(&[path(3), wide_ring(31, 9), wide_ring(2013, 8)]);
    assert_eq!((mesh.n, mesh.neighbours.len()), (2047, 32770));
    let joined = with_both_edges(4091, &mesh, &mesh, |w| if w < 3 { w } else { w + 2044 });
    assert_eq!(joined.neighbours.len(), 65536);
    accepted(&mesh, &mesh, &node_by_node(3), &joined);
    for count in 0..3 {
        refused(&mesh, &mesh, &node_by_node(count), 3);
    }
}

/// The star's centre is paired with the node that makes its list long: 26 entries are accepted, 27 are not.
#[test]
fn lists_at_the_limit() {
    let joined = |leaves: usize| from_edges(leaves + 1, &(1..=leaves).map(|leaf| (0, leaf)).collect::<Vec<_>>());
    accepted(&star(14), &star(14), &[(0, 0)], &joined(26));
    refused(&star(14), &star(15), &[(0, 0)], 26);
    refused(&star(15), &star(14), &[(0, 0)], 26);
    accepted(&star(27), &path(1), &[(0, 0)], &joined(26));
    refused(&star(27), &path(2), &[(0, 1)], 26);
    refused(&path(2), &star(27), &[(0, 0)], 26);
    refused(&star(27), &star(27), &[(0, 0)], 26);
}

/// A list's entries count after equal ones have merged.
#[test]
fn lists_that_merge() {
    let leaves = |count: usize| node_by_node(1 + count);
    accepted(&star(27), &star(15), &leaves(14), &star(27));
    refused(&star(27), &star(15), &leaves(13), 26);
    accepted(&star(15), &star(27), &leaves(14), &star(27));
    refused(&star(15), &star(27), &leaves(13), 26);
    accepted(&star(27), &star(27), &leaves(26), &star(27));
    refused(&star(27), &star(27), &leaves(25), 26);
}

/// The long list is that of any node of the first mesh, of the last one too.
#[test]
fn a_long_list_anywhere() {
    for v in [0, 1, 50, 99] {
        let edges: Vec<_> = (1..100).map(|k| (v, (v + k) % 100)).take(20).collect();
        let first = from_edges(100, &edges);
        for w in [0, 3, 7] {
            let second = from_edges(8, &(1..8).map(|k| (w, (w + k) % 8)).collect::<Vec<_>>());
            refused(&first, &second, &[(v as u16, w as u16)], 26);
            let fewer = from_edges(8, &(2..8).map(|k| (w, (w + k) % 8)).collect::<Vec<_>>());
            let joining = Joining::new(&first, &fewer, &[(v as u16, w as u16)]);
            join_expecting(&joining, AMPLE, &Ok(by_sentence(&joining, AMPLE).unwrap()));
        }
    }
}

/// Joins along two lists, whatever their lengths.
fn lists_refused(first: Vec<u16>, second: Vec<u16>, number: u32) {
    let joining = Joining { meshes: [path(3), path(5)], pairs: [first, second] };
    for room in [(0, 0), AMPLE] {
        join_expecting(&joining, room, &Err(number));
    }
}

/// More pairs than any mesh has nodes: a node is paired twice, unless a pair names a node that does not exist.
#[test]
fn long_lists_of_pairs() {
    for length in [4097, 65535, 65536, 65537, 100_000] {
        let [first, second] = [3, 5].map(|n| (0..length).map(|k| (k % n) as u16).collect::<Vec<_>>());
        lists_refused(first.clone(), second.clone(), 33);
        lists_refused(first.clone(), second[1..].to_vec(), 32);
        lists_refused(first[..3].to_vec(), second.clone(), 32);
        lists_refused(first.clone(), vec![], 32);
        for at in [0, length / 2, length - 1] {
            let [mut outside_first, mut outside_second] = [first.clone(), second.clone()];
            outside_first[at] = 3;
            outside_second[at] = 5;
            lists_refused(outside_first, second.clone(), 32);
            lists_refused(first.clone(), outside_second, 32);
        }
    }
}

/// Lists whose lengths are alike but for 65,536.
#[test]
fn lengths_that_differ_above_16_bits() {
    lists_refused(vec![0, 2], [0; 65538].to_vec(), 32);
    lists_refused([0; 65536].to_vec(), vec![], 32);
    lists_refused(vec![], [4; 65536].to_vec(), 32);
}

/// A repeat of the last pair but one, or of the first, in lists of all nodes of the largest meshes.
#[test]
fn repeats_among_4096_pairs() {
    let mesh = path(4096);
    for (at, node) in [(4095, 4094), (4095, 0), (1, 0), (2048, 2047)] {
        for which in [0, 1] {
            let mut joining = Joining::new(&mesh, &mesh, &node_by_node(4096));
            joining.pairs[which][at] = node;
            for room in [(0, 0), AMPLE] {
                join_expecting(&joining, room, &Err(33));
            }
        }
    }
}
