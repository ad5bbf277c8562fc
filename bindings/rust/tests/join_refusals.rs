//! Refusals of the joining: every check by itself, and every two of them, of which the earlier one answers.

use crate::damaged_meshes::damaged;
use crate::generated_joins::drawn_pairs;
use crate::join_calls::{join_expecting, Joining};
use crate::join_sentence::join;
use crate::made_meshes::{Room, AMPLE};
use crate::meshes::{self, from_edges, from_lists, path, side_by_side, wide_ring};
use crate::random::Random;
use plain::MeshLists;

/// What a check of the joining is about.
#[derive(Clone, Copy, Debug, PartialEq)]
enum About {
    First,
    Second,
    Pairs,
    Joined,
}

/// A check, and what it is about.
type Fault = (About, u32);

/// The checks of each of the two meshes, in their order.
const MESH_CHECKS: [u32; 8] = [1, 2, 3, 4, 5, 6, 26, 7];

/// All checks in their order.
fn all_checks() -> Vec<Fault> {
    let stages = [
        (About::First, &MESH_CHECKS[..]),
        (About::Second, &MESH_CHECKS),
        (About::Pairs, &[32, 33]),
        (About::Joined, &[1, 3, 26, 8]),
    ];
    stages.into_iter().flat_map(|(about, checks)| checks.iter().map(move |check| (about, *check))).collect()
}

/// Two sound meshes and sound pairs. The joined mesh has those of the faults 1, 3 and 26 that are among these, and no other.
fn halves(faults: &[Fault], random: &mut Random) -> Joining {
    let joined = |check: u32| faults.contains(&(About::Joined, check));
    if [1, 3, 26].into_iter().any(joined) {
        let ring = wide_ring(if joined(1) { 2100 } else { 2048 }, if joined(3) { 10 } else { 7 });
        let pairs: &[(u16, u16)] = if joined(26) { &[(5, 9)] } else { &[] };
        return Joining::new(&ring, &ring, pairs);
    }
    let [first, second] = [(); 2].map(|()| side_by_side(&[path(28), meshes::any(30, random)]));
    let pairs = drawn_pairs(random.below(28), [&path(28), &path(28)], random);
    Joining::new(&first, &second, &pairs)
}

/// One pair more. A node of it, or both, are paired already.
fn pair_twice(joining: &mut Joining, random: &mut Random) {
    if joining.pairs[0].is_empty() {
        joining.pairs = [vec![3], vec![4]];
    }
    let place = random.below(joining.pairs[0].len() + 1);
    let again = random.pick(&[[true, false], [false, true], [true, true]]);
    for (list, again) in joining.pairs.iter_mut().zip(again) {
        let (paired, unpaired) = (random.pick(list), (0..).find(|v| !list.contains(v)).unwrap());
        list.insert(place, if again { paired } else { unpaired });
    }
}

/// An entry more in one list, or a pair more with a node that does not exist.
fn unfit_pair(joining: &mut Joining, random: &mut Random) {
    let which = random.below(2);
    let n = joining.meshes[which].n as u16;
    let place = random.below(joining.pairs[0].len() + 1);
    match random.below(2) {
        0 => joining.pairs[which].insert(place, random.below(n.into()) as u16),
        _ => {
            joining.pairs[which].insert(place, random.pick(&[n, n + 1, 4096, 65535]));
            joining.pairs[1 - which].insert(place, 0);
        }
    }
}

/// The mesh with these faults: the earlier the check, the later its damage is done.
fn damaged_by(mesh: &MeshLists, checks: &[u32], random: &mut Random) -> MeshLists {
    let mut mesh = match checks.contains(&3) {
        true => wide_ring(2600, 13),
        false => mesh.clone(),
    };
    for check in checks.iter().rev().filter(|check| **check != 3) {
        mesh = damaged(&mesh, *check, random);
    }
    mesh
}

/// What is joined with these faults, which come in their order, and the room for it.
fn with_faults(faults: &[Fault], random: &mut Random) -> (Joining, Room) {
    let mut joining = halves(faults, random);
    let nodes = joining.meshes[0].n + joining.meshes[1].n - joining.pairs[0].len();
    let room = match faults.contains(&(About::Joined, 8)) {
        true => random.pick(&[(0, 0), (nodes, AMPLE.1), (AMPLE.0, 1)]),
        false => AMPLE,
    };
    let of = |about: About| faults.iter().filter(|fault| fault.0 == about).map(|fault| fault.1).collect::<Vec<_>>();
    if of(About::Pairs).contains(&33) {
        pair_twice(&mut joining, random);
    }
    if of(About::Pairs).contains(&32) {
        unfit_pair(&mut joining, random);
    }
    for (mesh, about) in joining.meshes.iter_mut().zip([About::First, About::Second]) {
        *mesh = damaged_by(mesh, &of(about), random);
    }
    (joining, room)
}

/// Each fault by itself and each two: the earlier check answers.
#[test]
fn every_two_faults() {
    let (mut random, checks) = (Random(70), all_checks());
    assert_eq!(checks.len(), 22);
    for (at, later) in checks.iter().enumerate() {
        for earlier in &checks[..=at] {
            let faults = if earlier == later { vec![*later] } else { vec![*earlier, *later] };
            for _ in 0..12 {
                let (joining, room) = with_faults(&faults, &mut random);
                join_expecting(&joining, room, &Err(earlier.1));
            }
        }
    }
}

/// Without a fault all is accepted.
#[test]
fn no_fault() {
    let mut random = Random(71);
    for _ in 0..100 {
        let (joining, room) = with_faults(&[], &mut random);
        assert!(join(&joining, room).is_ok());
    }
}

/// Joins two meshes along no pairs, in buffers of every length.
fn meshes_refused(first: &MeshLists, second: &MeshLists, number: u32) {
    for room in [(0, 0), (3, 1), AMPLE] {
        join_expecting(&Joining::new(first, second, &[]), room, &Err(number));
    }
}

/// All checks of the first mesh come before those of the second, and the answer does not tell which mesh was refused.
#[test]
fn the_first_mesh_before_the_second() {
    let no_nodes = MeshLists { n: 0, starts: vec![0], neighbours: vec![] };
    let (one_sided, sound) = (from_lists(&[vec![1], vec![]]), path(2));
    meshes_refused(&one_sided, &no_nodes, 7);
    meshes_refused(&no_nodes, &one_sided, 1);
    meshes_refused(&one_sided, &sound, 7);
    meshes_refused(&sound, &one_sided, 7);
    meshes_refused(&no_nodes, &sound, 1);
    meshes_refused(&sound, &no_nodes, 1);
    meshes_refused(&from_edges(4097, &[]), &sound, 1);
    meshes_refused(&sound, &from_edges(4097, &[]), 1);
}

/// Joins a path of 4 nodes and one of 6 along these lists, which are refused with this number, or accepted.
fn lists_expecting(first: &[u16], second: &[u16], number: Option<u32>) {
    let joining = Joining { meshes: [path(4), path(6)], pairs: [first.to_vec(), second.to_vec()] };
    match number {
        Some(number) => join_expecting(&joining, AMPLE, &Err(number)),
        None => assert!(join(&joining, AMPLE).is_ok()),
    }
}

/// Each node that exists can be paired, and no other.
#[test]
fn nodes_that_do_not_exist() {
    for node in (0..10).chain([4095, 4096, 32768, 65535]) {
        lists_expecting(&[node], &[0], (node >= 4).then_some(32));
        lists_expecting(&[0], &[node], (node >= 6).then_some(32));
    }
    for place in 0..3 {
        let (mut first, mut second) = (vec![0, 1, 2], vec![0, 1, 2]);
        first[place] = 4;
        lists_expecting(&first, &[0, 1, 2], Some(32));
        second[place] = 6;
        lists_expecting(&[0, 1, 2], &second, Some(32));
    }
}

#[test]
fn lists_of_unlike_length() {
    for (first, second) in (0..=4).flat_map(|first| (0..=4).map(move |second| (first, second))) {
        lists_expecting(&[3, 1, 0, 2][..first], &[5, 0, 2, 1][..second], (first != second).then_some(32));
    }
    lists_expecting(&[1, 1], &[0], Some(32));
    lists_expecting(&[1], &[2, 2], Some(32));
    lists_expecting(&[1, 1], &[2, 2, 2], Some(32));
    lists_expecting(&[1, 1, 9], &[2, 3, 4], Some(32));
}

/// Every two places of either list, and of both.
#[test]
fn nodes_paired_twice() {
    for (at, again) in (0..4).flat_map(|at| (0..at).map(move |again| (at, again))) {
        let (mut first, mut second) = ([3, 1, 0, 2], [5, 0, 2, 1]);
        first[at] = first[again];
        lists_expecting(&first, &[5, 0, 2, 1], Some(33));
        second[at] = second[again];
        lists_expecting(&[3, 1, 0, 2], &second, Some(33));
        lists_expecting(&first, &second, Some(33));
    }
    lists_expecting(&[2, 2, 2], &[0, 1, 2], Some(33));
}

/// The same number in both lists is two nodes, one of each mesh.
#[test]
fn equal_numbers_in_both_lists() {
    for (first, second) in [([0, 1], [1, 0]), ([2, 3], [2, 3]), ([3, 0], [0, 3])] {
        lists_expecting(&first, &second, None);
    }
}

/// Both buffers are needed whole: one start more than nodes, and room for all entries that are left.
#[test]
fn short_buffers() {
    let joining = Joining::new(&path(3), &path(4), &[(1, 1), (2, 2)]);
    let mesh = from_lists(&[vec![1], vec![0, 2, 3], vec![1, 4], vec![1], vec![2]]);
    for room in [(6, 8), (7, 8), (6, 9), (20, 20)] {
        join_expecting(&joining, room, &Ok(mesh.clone()));
    }
    for room in [(5, 8), (6, 7), (0, 8), (6, 0), (0, 0), (5, 99), (99, 7)] {
        join_expecting(&joining, room, &Err(8));
    }
}
