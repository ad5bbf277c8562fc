//! Small and generated meshes joined along generated pairs, sound and not, compared with the sentence.

use crate::calls::{self, ample_room, unknowns_for};
use crate::join_calls::{join_expecting, Joining};
use crate::join_sentence::{by_sentence, join};
use crate::made_meshes::{room_of, Expected, AMPLE};
use crate::meshes::{self, from_lists, lists_of};
use crate::random::Random;
use plain::MeshLists;
use std::collections::BTreeMap;

/// Exact and longer buffers, and buffers that lack an entry.
fn join_in_rooms(joining: &Joining, mesh: &MeshLists) {
    let (starts, neighbours) = room_of(mesh);
    for room in [(starts, neighbours), (starts + 3, neighbours + 7)] {
        join_expecting(joining, room, &Ok(mesh.clone()));
    }
    join_expecting(joining, (starts - 1, neighbours + 1), &Err(8));
    if neighbours > 0 {
        join_expecting(joining, (starts + 1, neighbours - 1), &Err(8));
    }
}

/// So many pairs of different nodes, or as many as there are nodes, drawn at random and in no order.
pub fn drawn_pairs(count: usize, meshes: [&MeshLists; 2], random: &mut Random) -> Vec<(u16, u16)> {
    let [first, second] = meshes.map(|mesh| {
        let mut nodes: Vec<u16> = (0..mesh.n as u16).collect();
        random.shuffle(&mut nodes);
        nodes
    });
    first.into_iter().zip(second).take(count).collect()
}

/// All ways to pair some of n1 nodes with some of n2, in one order each.
fn all_pairings(n1: u16, n2: u16) -> Vec<Vec<(u16, u16)>> {
    let mut all = vec![vec![]];
    for v in 0..n1 {
        let with_v = |pairs: &Vec<(u16, u16)>| {
            let free = (0..n2).filter(|w| pairs.iter().all(|pair| pair.1 != *w));
            free.map(|w| [&pairs[..], &[(v, w)]].concat()).collect::<Vec<_>>()
        };
        let more: Vec<_> = all.iter().flat_map(with_v).collect();
        all.extend(more);
    }
    all
}

/// Every two meshes of at most three nodes, either of them also of four, along all pairs.
#[test]
fn all_small_meshes() {
    let mut random = Random(60);
    assert_eq!([all_pairings(3, 3).len(), all_pairings(3, 4).len()], [34, 73]);
    for (n1, n2) in (1..=4).flat_map(|n1| (1..=4).map(move |n2| (n1, n2))).filter(|sizes| *sizes != (4, 4)) {
        let (pairings, seconds) = (all_pairings(n1, n2), meshes::all(n2.into()));
        for (first, second) in meshes::all(n1.into()).iter().flat_map(|a| seconds.iter().map(move |b| (a, b))) {
            for mut pairs in pairings.clone() {
                random.shuffle(&mut pairs);
                assert!(join(&Joining::new(first, second, &pairs), (8, 24)).is_ok());
            }
        }
    }
}

/// Two generated meshes and few pairs, many or all.
fn generated(size: usize, random: &mut Random) -> Joining {
    let [first, second] = [(); 2].map(|()| meshes::any(size, random));
    let most = 1 + first.n.min(second.n);
    let some = random.below(most);
    let count = random.pick(&[0, 1, 2, most / 4, some, most]);
    Joining::new(&first, &second, &drawn_pairs(count, [&first, &second], random))
}

/// What is accepted can be planned. Joined meshes with too long a list, with merged entries, and with some, all or no nodes of
/// the second unpaired are all met.
#[test]
fn generated_meshes() {
    let (mut random, mut met) = (Random(61), [0; 5]);
    for (count, size) in [(6000, 12), (1500, 50), (150, 300)] {
        for _ in 0..count {
            let joining = generated(size, &mut random);
            let joined = join(&joining, AMPLE);
            if let Ok(mesh) = &joined {
                join_in_rooms(&joining, mesh);
                assert!(calls::plan(unknowns_for(mesh.n), mesh, &ample_room(mesh.n)).is_ok());
            }
            kinds_of(&joining, &joined).into_iter().zip(&mut met).for_each(|(kind, met)| *met += kind as usize);
        }
    }
    assert!(met.iter().all(|count| *count > 100), "{met:?}");
}

/// Which of the kinds above a joined mesh is of.
fn kinds_of(joining: &Joining, joined: &Expected) -> [bool; 5] {
    let [first, second] = &joining.meshes;
    match joined {
        Err(number) => [*number == 26, false, false, false, false],
        Ok(mesh) => {
            let merged = mesh.neighbours.len() < first.neighbours.len() + second.neighbours.len();
            let unpaired = mesh.n - first.n;
            [false, merged, unpaired > 0 && unpaired < second.n, unpaired == second.n, unpaired == 0]
        }
    }
}

/// The pairs are a list in any order: every order gives the same mesh.
#[test]
fn pairs_in_any_order() {
    let mut random = Random(62);
    for _ in 0..300 {
        let [first, second] = [(); 2].map(|()| meshes::any(40, &mut random));
        let mut pairs = drawn_pairs(1 + random.below(8), [&first, &second], &mut random);
        let expected = by_sentence(&Joining::new(&first, &second, &pairs), AMPLE);
        for _ in 0..4 {
            random.shuffle(&mut pairs);
            join_expecting(&Joining::new(&first, &second, &pairs), AMPLE, &expected);
        }
    }
}

/// Lists and pairs of random numbers, sound or not.
#[test]
fn random_numbers() {
    let (mut random, mut met) = (Random(63), BTreeMap::new());
    for _ in 0..200_000 {
        let [first, second] = [(); 2].map(|()| random_lists(&mut random));
        let bound = 1 + random.below(5);
        let lengths = random.pick(&[(0, 0), (1, 1), (2, 2), (2, 2), (3, 3), (1, 2), (3, 2)]);
        let [one, other] = [lengths.0, lengths.1].map(|length| drawn(length, bound, &mut random));
        let room = random.pick(&[(9, 30), (9, 30), (5, 4), (4, 30)]);
        let joining = Joining { meshes: [first, second], pairs: [one, other] };
        *met.entry(join(&joining, room).err().unwrap_or(0)).or_insert(0) += 1;
    }
    assert!(met.values().all(|count| *count > 200), "{met:?}");
    assert_eq!(met.into_keys().collect::<Vec<_>>(), [0, 1, 2, 4, 5, 6, 7, 8, 32, 33]);
}

/// So many numbers below a bound.
fn drawn(length: usize, bound: usize, random: &mut Random) -> Vec<u16> {
    (0..length).map(|_| random.below(bound) as u16).collect()
}

/// A small mesh, one time of four with a list of random numbers, or with another number of nodes or another start.
fn random_lists(random: &mut Random) -> MeshLists {
    let mut mesh = meshes::any(4, random);
    match random.below(16) {
        0 => mesh.n = random.below(6),
        1 => mesh.starts[random.below(mesh.n + 1)] = random.below(4) as u32,
        2 | 3 => {
            let mut lists = lists_of(&mesh);
            let v = random.below(mesh.n);
            lists[v] = drawn(random.below(3), mesh.n + 1, random);
            mesh = from_lists(&lists);
        }
        _ => (),
    }
    mesh
}
