//! Matrix Market texts of generated meshes, in any spelling, whole and damaged: bytes, lengths, numbers and pairs.

use crate::made_meshes::{room_of, Room, AMPLE};
use crate::meshes::{self, LIMIT};
use crate::random::Random;
use crate::texts::{self, read_expecting, Matrix};
use plain::MeshLists;
use std::collections::BTreeSet;

/// Bytes that mean something in a text, or nearly do.
const BYTES: [u8; 22] = *b" \t\r\n%0123459amM+-.\x0b\x0c\0\xff";

/// A matrix with some diagonal pairs, its pairs in no order.
fn some_matrix(mesh: &MeshLists, random: &mut Random) -> Matrix {
    let mut matrix = Matrix::of(mesh);
    let diagonal = (1..=matrix.rows).filter(|_| random.below(4) == 0).map(|v| (v, v));
    matrix.pairs.extend(diagonal.collect::<Vec<_>>());
    matrix.stated = matrix.pairs.len() as u64;
    random.shuffle(&mut matrix.pairs);
    matrix
}

/// Small texts with room for their meshes.
fn small_texts(count: usize, size: usize, random: &mut Random) -> Vec<(Vec<u8>, Room)> {
    let made = (0..count).map(|_| {
        let mesh = meshes::any(size, random);
        (some_matrix(&mesh, random).spelt(random), room_of(&mesh))
    });
    made.collect()
}

/// Every text of a mesh gives that mesh, and one entry less in either buffer is refused.
#[test]
fn whole_texts() {
    let mut random = Random(20);
    for (count, size) in [(2600, 12), (520, 100), (52, 900)] {
        for _ in 0..count {
            let mesh = meshes::any(size, &mut random);
            let (text, (starts, neighbours)) = (some_matrix(&mesh, &mut random).spelt(&mut random), room_of(&mesh));
            for room in [(starts, neighbours), (starts + 3, neighbours + 7), AMPLE] {
                read_expecting(&text, room, &Ok(mesh.clone()));
            }
            read_expecting(&text, (starts - 1, neighbours), &Err(8));
            if neighbours > 0 {
                read_expecting(&text, (starts + 1, neighbours - 1), &Err(8));
            }
        }
    }
}

/// Cut at every byte. Only the last line may lose bytes and leave a text of this kind.
#[test]
fn lengths() {
    let (mut random, mut met) = (Random(21), BTreeSet::new());
    for (text, room) in small_texts(150, 12, &mut random) {
        for length in 0..text.len() {
            met.insert(texts::read(&text[..length], room).err());
        }
    }
    assert!(met.is_superset(&BTreeSet::from([None, Some(23)])), "{met:?}");
}

/// Every byte changed: each bit, and bytes that mean something.
#[test]
fn bytes() {
    let (mut random, mut met) = (Random(22), BTreeSet::new());
    for (text, room) in small_texts(60, 8, &mut random) {
        for at in 0..text.len() {
            let flips = (0..8).map(|bit| text[at] ^ (1 << bit));
            for new in flips.chain(BYTES) {
                let mut changed = text.clone();
                changed[at] = new;
                met.insert(texts::read(&changed, room).err());
            }
        }
    }
    assert_eq!(met, BTreeSet::from([None, Some(8), Some(23), Some(24), Some(25)]));
}

/// Bytes put in, taken out, exchanged and doubled, one to three at a time.
#[test]
fn edits() {
    let (mut random, mut met) = (Random(23), BTreeSet::new());
    for (text, room) in small_texts(300, 10, &mut random) {
        for _ in 0..300 {
            let mut changed = text.clone();
            for _ in 0..1 + random.below(3) {
                let (at, other) = (random.below(changed.len()), random.below(changed.len()));
                match random.below(4) {
                    0 => changed.insert(at, random.pick(&BYTES)),
                    1 => drop(changed.remove(at)),
                    2 => changed.swap(at, other),
                    _ => changed.insert(at, changed[at]),
                }
            }
            met.insert(texts::read(&changed, room).err());
        }
    }
    assert!(met.is_superset(&BTreeSet::from([None, Some(8), Some(23), Some(24), Some(25)])), "{met:?}");
}

/// Lines put in, taken out and exchanged.
#[test]
fn lines() {
    let (mut random, mut met) = (Random(24), BTreeSet::new());
    for (text, room) in small_texts(400, 8, &mut random) {
        let lines: Vec<&[u8]> = text.split_inclusive(|byte| *byte == b'\n').collect();
        for _ in 0..60 {
            let mut lines = lines.clone();
            let (at, other) = (random.below(lines.len()), random.below(lines.len()));
            match random.below(4) {
                0 => lines.swap(at, other),
                1 => lines.insert(at, lines[other]),
                2 => drop(lines.remove(at)),
                _ => lines.insert(at, random.pick(&[&b"\n"[..], b"% x\n", b"1 1\n", b"\r\r\n", b"2 1", b"0 0 0\n"])),
            }
            met.insert(texts::read(&lines.concat(), room).err());
        }
    }
    assert!(met.is_superset(&BTreeSet::from([None, Some(23)])), "{met:?}");
}

/// A matrix with one damage, which the check of this number finds and no earlier one does. The matrix has a pair, and 28
/// rows or more where the check is 26; damages of later checks come before those of earlier ones.
fn damaged(matrix: &Matrix, check: u32, random: &mut Random) -> Matrix {
    let mut matrix = matrix.clone();
    let (n, at) = (matrix.rows, random.below(matrix.pairs.len()));
    match check {
        1 => {
            let large = random.pick(&[4097, 65536 + n, 4_000_000_000]);
            (matrix.rows, matrix.columns) = (large, large);
        }
        23 => match random.below(4) {
            0 => matrix.stated += 1,
            1 => matrix.stated -= 1,
            2 => matrix.stated += 1 << 32,
            _ => matrix.pairs[at].0 += 1 << 32,
        },
        24 => match random.below(5) {
            0 => matrix.columns += 1,
            1 => matrix.columns -= 1,
            2 => matrix.pairs[at].0 = n + 1,
            3 => matrix.pairs[at].1 = 0,
            _ => matrix.pairs[at] = (1, 2),
        },
        25 => {
            let place = random.below(matrix.pairs.len() + 1);
            matrix.pairs.insert(place, matrix.pairs[at]);
            matrix.stated += 1;
        }
        26 => lengthen_list(&mut matrix, random),
        _ => unreachable!("no damage for check {check}"),
    }
    matrix
}

/// Joins a node to others, so that its list gets longer than the limit, by one entry or by more.
fn lengthen_list(matrix: &mut Matrix, random: &mut Random) {
    let n = matrix.rows as usize;
    let v = 1 + random.below(n) as u64;
    let mut new: Vec<_> = (1..=n as u64).filter(|w| *w != v).map(|w| (v.max(w), v.min(w))).collect();
    new.retain(|pair| !matrix.pairs.contains(pair));
    random.shuffle(&mut new);
    let length = n - 1 - new.len();
    new.truncate(LIMIT + 1 - length + random.pick(&[0, 0, 1, n]));
    matrix.pairs.extend(new);
    matrix.stated = matrix.pairs.len() as u64;
    random.shuffle(&mut matrix.pairs);
}

/// Each damage by itself and each pair: the earlier check answers.
#[test]
fn pairs_of_damages() {
    let mut random = Random(25);
    let checks = [23, 24, 25, 1, 26, 8];
    let mut met = BTreeSet::new();
    for round in 0..1200 {
        let beside = meshes::path(if round % 2 == 0 { 2 } else { LIMIT + 2 });
        let mesh = meshes::side_by_side(&[meshes::any(1 + round / 20, &mut random), beside]);
        let whole = some_matrix(&mesh, &mut random);
        for (first, second) in (0..6).flat_map(|first| (first..6).map(move |second| (first, second))) {
            let mut matrix = whole.clone();
            let mut damages = vec![checks[second]];
            if first < second {
                damages.push(checks[first]);
            }
            if damages.contains(&26) && mesh.n < LIMIT + 2 {
                continue;
            }
            for check in damages.iter().filter(|check| **check != 8) {
                matrix = damaged(&matrix, *check, &mut random);
            }
            let (starts, neighbours) = room_of(&mesh);
            let room = match damages.contains(&8) {
                true => random.pick(&[(starts - 1, neighbours), (starts, neighbours - 1), (0, 0)]),
                false => random.pick(&[(starts, neighbours), (starts, neighbours + 2 * starts), AMPLE]),
            };
            read_expecting(&matrix.spelt(&mut random), room, &Err(checks[first]));
            met.insert((first, second));
        }
    }
    assert_eq!(met.len(), 6 * 7 / 2, "{met:?}");
}

/// Numbers drawn at random: pairs within and without the matrix, on either side of the diagonal, once or again.
#[test]
fn random_pairs() {
    let (mut random, mut met) = (Random(26), BTreeSet::new());
    for _ in 0..60000 {
        let (rows, bound) = (random.below(5) as u64, 1 + random.below(5));
        let columns = if random.below(12) == 0 { random.below(5) as u64 } else { rows };
        let number = |random: &mut Random| random.below(bound) as u64 + u64::from(random.below(8) > 0);
        let mut pairs: Vec<(u64, u64)> =
            (0..random.below(5)).map(|_| (number(&mut random), number(&mut random))).collect();
        if random.below(3) > 0 {
            pairs.iter_mut().for_each(|pair| *pair = (pair.0.max(pair.1), pair.0.min(pair.1)));
        }
        let stated = pairs.len() as u64 + u64::from(random.below(12) == 0);
        let matrix = Matrix { rows, columns, stated, pairs };
        let room = random.pick(&[(5, 8), (5, 8), (4, 4), (3, 2)]);
        met.insert(texts::read(&matrix.spelt(&mut random), room).err());
    }
    assert_eq!(met, BTreeSet::from([None, Some(1), Some(8), Some(23), Some(24), Some(25)]));
}
