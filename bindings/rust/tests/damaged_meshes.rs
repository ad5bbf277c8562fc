//! Damaged meshes and short buffers.

use crate::calls::{self, ample_room, exact_room, longer_room, owned_expecting, unknowns_for, NO_UNKNOWNS};
use crate::meshes::{self, from_lists, lists_of, LIMIT};
use crate::random::Random;
use ndplan::{Mesh, Plan};
use plain::{MeshLists, Room};
use std::collections::BTreeSet;

/// The checks of planning in their order, but 3, which asks for more entries than these meshes have.
const CHECKS: [u32; 10] = [28, 1, 2, 4, 5, 6, 26, 7, 8, 9];

/// A mesh with one damage, which the check of this number finds and no earlier one does. The mesh has an edge, and 28 nodes
/// or more where the check is 26; damages of later checks come before those of earlier ones.
pub fn damaged(mesh: &MeshLists, check: u32, random: &mut Random) -> MeshLists {
    match check {
        1 => MeshLists { n: random.pick(&[0, 4097, 65536, 65536 + mesh.n, usize::MAX]), ..mesh.clone() },
        2 => with_bad_starts(mesh, random),
        26 => with_long_list(mesh, random),
        _ => with_bad_list(mesh, check, random),
    }
}

fn with_bad_starts(mesh: &MeshLists, random: &mut Random) -> MeshLists {
    let mut mesh = mesh.clone();
    let (inner, length) = (random.below(mesh.n), mesh.neighbours.len() as u32);
    match random.below(7) {
        0 => mesh.starts.push(length),
        1 => mesh.starts.truncate(inner),
        2 => mesh.starts[0] = 1,
        3 => mesh.starts[inner] = u32::MAX,
        4 => mesh.starts[inner] = length + 1,
        5 => mesh.starts[mesh.n] -= 1,
        _ => mesh.starts[mesh.n] += 1,
    }
    mesh
}

fn with_bad_list(mesh: &MeshLists, check: u32, random: &mut Random) -> MeshLists {
    let mut lists = lists_of(mesh);
    let filled: Vec<usize> = (0..mesh.n).filter(|v| !lists[*v].is_empty()).collect();
    let v = random.pick(&filled);
    let at = random.below(lists[v].len());
    match check {
        4 => lists[v][at] = random.pick(&[mesh.n as u16, mesh.n as u16 + 1, 4096, 65535]),
        5 => {
            lists[v].push(v as u16);
            lists[v].sort();
        }
        6 => {
            let entry = lists[v][at];
            let place = random.pick(&[0, at, lists[v].len()]);
            lists[v].insert(place, entry);
        }
        7 => drop(lists[v].remove(at)),
        _ => unreachable!("no damage for check {check}"),
    }
    from_lists(&lists)
}

/// One list longer than the limit, by one entry or by as many as there are nodes. Half of the time the new entries are
/// one-sided.
fn with_long_list(mesh: &MeshLists, random: &mut Random) -> MeshLists {
    let mut lists = lists_of(mesh);
    let v = random.below(mesh.n);
    let mut new: Vec<usize> = (0..mesh.n).filter(|w| *w != v && !lists[v].contains(&(*w as u16))).collect();
    random.shuffle(&mut new);
    if random.below(2) == 0 {
        new.truncate(LIMIT + 1 - lists[v].len());
    }
    let mirrored = random.below(2) == 0;
    for w in new {
        lists[v].push(w as u16);
        if mirrored && !lists[w].contains(&(v as u16)) {
            lists[w].push(v as u16);
            lists[w].sort();
        }
    }
    lists[v].sort();
    from_lists(&lists)
}

/// An exact or a longer room, in which one buffer is too short for 8 and the rows are too short for 9, where these are among the checks.
fn room_for(checks: [u32; 2], n: usize, slots: usize, random: &mut Random) -> Room {
    let mut room = if random.below(2) == 0 { exact_room(n, slots) } else { longer_room(n, slots) };
    if checks.contains(&9) {
        room.rows = random.below(slots);
    }
    if checks.contains(&8) {
        let short = random.below(n);
        match random.below(5) {
            0 => room.order = short,
            1 => room.positions = short,
            2 => room.sizes = short,
            3 => room.parents = short,
            _ => room.column_starts = random.pick(&[short, n]),
        }
    }
    room
}

/// Each damage by itself and each pair: the earlier check answers.
#[test]
fn pairs_of_damages() {
    let mut random = Random(6);
    let mut met = BTreeSet::new();
    for round in 0..800 {
        let beside = meshes::path(if round % 2 == 0 { 2 } else { LIMIT + 2 });
        let whole = meshes::side_by_side(&[meshes::any(1 + round / 20, &mut random), beside]);
        let slots = calls::plan(1, &whole, &ample_room(whole.n)).unwrap().rows.len();
        for (at, second) in CHECKS.into_iter().enumerate() {
            for first in CHECKS[..at].iter().copied().chain([0]) {
                if [first, second].contains(&26) && whole.n < LIMIT + 2 {
                    continue;
                }
                let mut mesh = whole.clone();
                for check in [second, first].into_iter().filter(|check| ![0, 8, 9, 28].contains(check)) {
                    mesh = damaged(&mesh, check, &mut random);
                }
                let room = room_for([first, second], whole.n, slots, &mut random);
                let unknowns = match [first, second].contains(&28) {
                    true => random.pick(&NO_UNKNOWNS),
                    false => unknowns_for(round),
                };
                let answer = calls::plan(unknowns, &mesh, &room);
                let expected = if first == 0 { second } else { first };
                assert_eq!(answer.err(), Some(expected), "damages {first} and {second}: {mesh:?}");
                met.insert((first, second));
            }
        }
    }
    assert_eq!(met.len(), 10 * 11 / 2, "{met:?}");
}

/// More than 65,536 entries: 3, whatever else is wrong with the lists; 2 and 1 come before it.
#[test]
fn too_many_entries() {
    let mut lists = lists_of(&meshes::clique(257));
    assert_eq!(lists.concat().len(), 65792);
    let room = longer_room(257, 0);
    assert_eq!(calls::plan(1, &from_lists(&lists), &room), Err(3));
    for (v, bad) in [(0, 65535), (1, 1), (2, 3), (3, 0)] {
        lists[v][0] = bad;
        assert_eq!(calls::plan(1, &from_lists(&lists), &room), Err(3));
    }
    let mut mesh = from_lists(&lists);
    mesh.starts[9] = 0;
    assert_eq!(calls::plan(1, &mesh, &room), Err(2));
    mesh.n = 4097;
    assert_eq!(calls::plan(1, &mesh, &room), Err(1));
}

/// Lists of random numbers, sorted or not, mirrored or not; and the owned plan's refusals.
#[test]
fn random_lists() {
    let mut random = Random(7);
    let mut met = BTreeSet::new();
    for _ in 0..30000 {
        let n = 1 + random.below(5);
        let bound = n + random.below(2);
        let mut lists: Vec<Vec<u16>> = vec![vec![]; n];
        for list in &mut lists {
            list.extend((0..random.below(3)).map(|_| random.below(bound) as u16));
            if random.below(4) > 0 {
                list.sort();
            }
        }
        let mut mesh = from_lists(&lists);
        if random.below(8) == 0 {
            let at = random.below(n + 1);
            mesh.starts[at] = random.below(5) as u32;
        }
        let room = room_for([0, random.pick(&[0, 0, 8])], n, 10, &mut random);
        met.extend(calls::plan(unknowns_for(n), &mesh, &room).err());
        let lists = Mesh { nodes: mesh.n, starts: &mesh.starts, neighbours: &mesh.neighbours };
        owned_expecting(&Plan::of(unknowns_for(n), &lists), &plain::plan(unknowns_for(n), &mesh, &ample_room(n)));
    }
    assert_eq!(met, BTreeSet::from([2, 4, 5, 6, 7, 8]));
}

/// An owned plan asks for no more room than the most nodes need.
#[test]
fn owned_plans_of_too_many_nodes() {
    for nodes in [0, 4097, 65537, usize::MAX] {
        let owned = Plan::of(6, &Mesh { nodes, starts: &[0, 0], neighbours: &[] });
        assert_eq!(owned, Err(ndplan::Refusal(1)));
    }
}
