//! Matrix Market texts at the limits, and texts that are refused only after a search for repeats among many pairs.

use crate::made_meshes::AMPLE;
use crate::meshes;
use crate::random::Random;
use crate::texts::{read_expecting, Matrix};
use plain::MeshLists;

/// How many pairs the library searches for repeats at a time.
const BLOCK: usize = 36864;

/// The first `count` pairs of a band, column by column: each column has its diagonal and the rows up to `width` below it.
fn band(n: u64, width: u64, count: usize) -> Vec<(u64, u64)> {
    let pairs = (1..=n).flat_map(|column| (column..=n.min(column + width)).map(move |row| (row, column)));
    let pairs: Vec<_> = pairs.take(count).collect();
    assert_eq!(pairs.len(), count);
    pairs
}

fn refused(n: u64, pairs: &[(u64, u64)], number: u32) {
    read_expecting(&Matrix::new(n, pairs.to_vec()).text(), AMPLE, &Err(number));
}

/// The mesh's text in file order, backwards and shuffled, without and with every diagonal pair.
fn compare(mesh: &MeshLists, random: &mut Random) {
    let mut pairs = Matrix::of(mesh).pairs;
    for _ in 0..2 {
        for order in 0..3 {
            match order {
                0 => pairs.sort_by_key(|(row, column)| (*column, *row)),
                1 => pairs.reverse(),
                _ => random.shuffle(&mut pairs),
            }
            let text = Matrix::new(mesh.n as u64, pairs.clone()).text();
            let (starts, neighbours) = (mesh.n + 1, mesh.neighbours.len());
            read_expecting(&text, (starts, neighbours), &Ok(mesh.clone()));
            read_expecting(&text, (starts, neighbours - 1), &Err(8));
            read_expecting(&text, (starts - 1, neighbours), &Err(8));
        }
        pairs.extend((1..=mesh.n as u64).map(|v| (v, v)));
    }
}

#[test]
fn meshes_of_4096_nodes() {
    let mut random = Random(30);
    compare(&meshes::shuffled(&meshes::grid(64, 64, true), &mut random), &mut random);
    compare(&meshes::full_tree(4096), &mut random);
    compare(&meshes::path(4096), &mut random);
}

/// A mesh of `edges` different edges.
fn edges(n: usize, edges: usize, random: &mut Random) -> MeshLists {
    let mut all = meshes::edges_of(&meshes::random_graph(n, 2 * edges, random));
    random.shuffle(&mut all);
    all.truncate(edges);
    assert_eq!(all.len(), edges);
    meshes::from_edges(n, &all)
}

/// 65,536 entries, and with every diagonal pair 36,864 pairs, are accepted; one pair more is 3, unless a pair is given again.
#[test]
fn entries_at_the_limit() {
    let mut random = Random(31);
    let most = edges(4096, 32768, &mut random);
    compare(&most, &mut random);
    let mut pairs = Matrix::of(&edges(4096, 32769, &mut random)).pairs;
    refused(4096, &pairs, 3);
    pairs.extend((1..=4096).map(|v| (v, v)));
    assert_eq!(pairs.len(), BLOCK + 1);
    random.shuffle(&mut pairs);
    refused(4096, &pairs, 3);
    pairs[BLOCK] = pairs[0];
    refused(4096, &pairs, 25);
    pairs[BLOCK] = (4097, 1);
    refused(4096, &pairs, 24);
    refused(257, &band(257, 256, 257 * 129), 3);
}

/// A repeat in every place beside the borders of the blocks, in texts that would be refused with 1.
#[test]
fn repeats_at_the_borders_of_blocks() {
    let mut random = Random(32);
    for count in [BLOCK - 1, BLOCK, BLOCK + 1, 2 * BLOCK - 1, 2 * BLOCK, 2 * BLOCK + 1] {
        let mut pairs = band(6000, 15, count);
        refused(6000, &pairs, 1);
        random.shuffle(&mut pairs);
        refused(6000, &pairs, 1);
        let near = [0, 1, BLOCK - 1, BLOCK, BLOCK + 1, 2 * BLOCK - 1, 2 * BLOCK, count - 1];
        let places: Vec<usize> = near.into_iter().filter(|place| *place < count).collect();
        for (first, second) in places.iter().flat_map(|a| places.iter().map(move |b| (*a, *b))).filter(|(a, b)| a < b) {
            let mut again = pairs.clone();
            again[second] = again[first];
            refused(6000, &again, 25);
        }
    }
}

/// The same pairs sorted by rows, by columns and backwards, with a repeat of the first at the end.
#[test]
fn repeats_in_sorted_texts() {
    let mut pairs = band(5000, 12, 60000);
    for order in 0..3 {
        match order {
            0 => pairs.sort(),
            1 => pairs.sort_by_key(|(row, column)| (*column, *row)),
            _ => pairs.reverse(),
        }
        refused(5000, &pairs, 1);
        pairs.push(pairs[0]);
        refused(5000, &pairs, 25);
        pairs.pop();
    }
}

/// Indices that differ only above 16 or 32 bits of the row or of the column are not alike.
#[test]
fn wide_indices() {
    let n = u32::MAX as u64;
    let mut pairs = vec![];
    for high in [0, 1 << 16, 1 << 24, 1 << 31, (1 << 32) - (1 << 16)] {
        for low in [1, 2, 0x8000, 0xFFFE] {
            pairs.extend([(n, high + low), (high + low, 1), (high + low, high + low)]);
        }
    }
    pairs.sort();
    pairs.dedup();
    refused(n, &pairs, 1);
    for at in 0..pairs.len() {
        let again = [&pairs[..], &[pairs[at]]].concat();
        refused(n, &again, 25);
    }
    refused(n - 1, &pairs, 24);
}

/// More pairs than a matrix of this size has places: some pair is given again.
#[test]
fn more_pairs_than_places() {
    let all = band(300, 299, 300 * 301 / 2);
    refused(300, &all, 3);
    refused(300, &[&all[..], &all[..1]].concat(), 25);
    refused(200, &vec![(7, 5); 100_000], 25);
    refused(2, &[(1, 1), (2, 1), (2, 2), (1, 1)], 25);
}

/// Many blocks: a repeat of the first pair at the very end, and none.
#[test]
fn half_a_million_pairs() {
    let mut pairs = band(50_000, 10, 500_000);
    Random(33).shuffle(&mut pairs);
    refused(50_000, &pairs, 1);
    pairs[499_999] = pairs[0];
    refused(50_000, &pairs, 25);
}
