//! Damaged files: bytes, words, fields, lengths and versions.

use crate::calls::{self, ample_room, exact_room, longer_room, owned_expecting, unknowns_for};
use crate::files::{self, counts_at, file_of, parts_of};
use crate::meshes;
use crate::paths::reached_through_earlier;
use crate::random::Random;
use ndplan::Plan;
use plain::{MeshLists, Planned, Room};
use std::collections::BTreeSet;

/// A plan that is sound and that no dissection gives: a mesh eliminated in a random order, in one part or in a chain of parts.
pub fn other_plan(mesh: &MeshLists, random: &mut Random) -> Planned {
    let mut order: Vec<u16> = (0..mesh.n as u16).collect();
    random.shuffle(&mut order);
    let mut positions = vec![0; mesh.n];
    for (position, node) in order.iter().enumerate() {
        positions[*node as usize] = position as u16;
    }
    let columns: Vec<Vec<u16>> = (0..mesh.n).map(|j| reached_through_earlier(mesh, &order, &positions, j)).collect();
    let mut column_starts = vec![0];
    for column in &columns {
        column_starts.push(column_starts[column_starts.len() - 1] + column.len() as u32);
    }
    let mut sizes = vec![1];
    for _ in 1..mesh.n {
        match random.below(3) {
            0 => sizes.push(1),
            _ => *sizes.last_mut().unwrap() += 1,
        }
    }
    let last = sizes.len() as u16 - 1;
    let parents = (0..=last).map(|part| if part == last { 65535 } else { part + 1 }).collect();
    let multiplications = columns.iter().map(|rows| (rows.len() * (rows.len() + 3) / 2) as u64).sum();
    let unknowns = unknowns_for(mesh.n);
    Planned { order, positions, sizes, parents, column_starts, rows: columns.concat(), unknowns, multiplications }
}

/// Small plans of both kinds.
pub fn small_plans(count: usize, size: usize, random: &mut Random) -> Vec<Planned> {
    let mut plans = vec![calls::plan(6, &meshes::path(5), &ample_room(5)).unwrap()];
    for round in 0..count {
        let mesh = meshes::any(size, random);
        plans.push(match round % 2 {
            0 => calls::plan(unknowns_for(mesh.n), &mesh, &ample_room(mesh.n)).unwrap(),
            _ => other_plan(&mesh, random),
        });
    }
    plans
}

/// The files of small plans, in each version with its number.
fn small_files(count: usize, size: usize, random: &mut Random) -> Vec<(u16, Vec<u8>)> {
    let plans = small_plans(count, size, random);
    plans.iter().flat_map(|plan| [1, 2].map(|version| (version, file_of(version, &parts_of(plan))))).collect()
}

/// The fields of a file's header: n, parts and slots.
fn counts_of(version: u16, file: &[u8]) -> [usize; 3] {
    let first = counts_at(version);
    [first, first + 4, first + 8].map(|at| u32::from_le_bytes(file[at..at + 4].try_into().unwrap()) as usize)
}

/// Reads a file into room that is exact, longer or too short for the whole file, and into an owned plan.
fn compare(file: &[u8], [n, _, s]: [usize; 3], random: &mut Random, met: &mut BTreeSet<u32>) {
    let (exact, longer) = (exact_room(n, s), longer_room(n, s));
    let room = match random.below(8) {
        0..=2 => exact,
        3..=5 => longer,
        6 => Room { rows: s.saturating_sub(1), ..longer },
        _ => Room { sizes: n - 1, ..exact },
    };
    met.extend(calls::read(file, &room).err());
    // No file has more nodes or slots than bytes.
    owned_expecting(&Plan::read(file), &plain::read(file, &longer_room(file.len(), file.len())));
}

/// Every length below the file's own, and a few above it.
#[test]
fn lengths() {
    let (mut random, mut met) = (Random(8), BTreeSet::new());
    for (version, file) in small_files(30, 12, &mut random) {
        let counts = counts_of(version, &file);
        for length in 0..file.len() {
            compare(&file[..length], counts, &mut random, &mut met);
        }
        for more in 1..5 {
            compare(&[&file[..], &vec![0; more]].concat(), counts, &mut random, &mut met);
        }
    }
    assert_eq!(met, BTreeSet::from([10, 14]));
}

/// Every byte changed: each bit, and some values.
#[test]
fn bytes() {
    let (mut random, mut met) = (Random(9), BTreeSet::new());
    for (version, file) in small_files(40, 12, &mut random) {
        let counts = counts_of(version, &file);
        for at in 0..file.len() {
            let old = file[at];
            let flips = (0..8).map(|bit| old ^ (1 << bit));
            for new in flips.chain([0, 1, 255, old.wrapping_add(1), old.wrapping_sub(1)]) {
                let mut changed = file.clone();
                changed[at] = new;
                compare(&changed, counts, &mut random, &mut met);
            }
        }
    }
    assert_eq!(met, BTreeSet::from([8, 9, 11, 12, 13, 14, 15, 16, 17, 18, 19, 28]));
}

/// Every version but 1 and 2 is refused with 12, even where the rest of the file is sound or its counts are not.
#[test]
fn versions() {
    let mut random = Random(10);
    for (own, mut file) in small_files(4, 12, &mut random) {
        let [n, _, s] = counts_of(own, &file);
        for version in [0u16, 3, 4, 255, 256, 257, 258, 512, 513, 32769, 65535] {
            file[3..5].copy_from_slice(&version.to_le_bytes());
            assert_eq!(calls::read(&file, &exact_room(n, s)), Err(12));
            let mut no_nodes = file.clone();
            no_nodes[5..11].fill(0);
            assert_eq!(calls::read(&no_nodes, &exact_room(n, s)), Err(12));
            no_nodes[1] = 0;
            assert_eq!(calls::read(&no_nodes, &exact_room(n, s)), Err(11));
        }
    }
}

/// Header fields at their borders, in a file of the old length and in one of the length that the new fields ask for.
#[test]
fn fields() {
    let (mut random, mut met) = (Random(11), BTreeSet::new());
    for (version, file) in small_files(20, 9, &mut random) {
        let (first, counts) = (counts_at(version), counts_of(version, &file));
        let [n, p, s] = counts;
        let pairs = n * (n - 1) / 2;
        let borders =
            [0, 1, n - 1, n, n + 1, p + 1, s + 1, pairs, pairs + 1, 4096, 4097, 65536 + n, 1 << 31, u32::MAX as usize];
        for (field, value) in (0..3).flat_map(|field| borders.map(|value| (field, value))) {
            let mut changed = file.clone();
            changed[first + 4 * field..][..4].copy_from_slice(&(value as u32).to_le_bytes());
            compare(&changed, counts, &mut random, &mut met);
            let [n, p, s] = counts_of(version, &changed);
            if n.max(p).max(s) < 10000 {
                changed.resize(files::length(n, p, s) - 7 + first, 0);
                compare(&changed, counts, &mut random, &mut met);
            }
        }
    }
    assert!(met.is_superset(&BTreeSet::from([13, 14, 15, 16, 17])), "{met:?}");
}

/// A number that may stand at the border of some rule.
pub fn border(n: usize, p: usize, old: u16, random: &mut Random) -> u16 {
    let (n, p) = (n as u16, p as u16);
    let borders = [0, 1, n - 1, n, n + 1, p - 1, p, p + 1, 65534, 65535, old.wrapping_add(1), old.wrapping_sub(1)];
    match random.below(3) {
        0 => random.below(n as usize) as u16,
        _ => random.pick(&borders),
    }
}

/// Words changed, one to three at a time, or exchanged.
#[test]
fn words() {
    let (mut random, mut met) = (Random(12), BTreeSet::new());
    for (count, size, edits) in [(60, 6, 600), (60, 14, 600), (10, 300, 150)] {
        for (version, file) in small_files(count, size, &mut random) {
            let counts = counts_of(version, &file);
            for _ in 0..edits {
                let mut changed = file.clone();
                change_words(&mut changed[counts_at(version) + 12..], counts, &mut random);
                compare(&changed, counts, &mut random, &mut met);
            }
        }
    }
    assert_eq!(met, BTreeSet::from([8, 9, 15, 16, 17, 18, 19]));
}

/// Changes what stands behind a file's header.
fn change_words(bytes: &mut [u8], [n, p, _]: [usize; 3], random: &mut Random) {
    let words = bytes.len() / 2;
    for _ in 0..1 + random.below(3) {
        let (at, other) = (2 * random.below(words), 2 * random.below(words));
        if random.below(3) == 0 {
            bytes.swap(at, other);
            bytes.swap(at + 1, other + 1);
        } else {
            let old = u16::from_le_bytes([bytes[at], bytes[at + 1]]);
            bytes[at..at + 2].copy_from_slice(&border(n, p, old, random).to_le_bytes());
        }
    }
}

/// Plans that no dissection gives are read and written all the same.
#[test]
fn other_plans_are_accepted() {
    let mut random = Random(13);
    for round in 0..200 {
        let mesh = meshes::any(4 + round / 2, &mut random);
        crate::plans::compare_round_trip(&other_plan(&mesh, &mut random));
    }
}
