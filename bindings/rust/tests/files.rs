//! The bytes of plan files, field after field, in both versions.

use plain::{FileParts, Planned};

/// The length of the file that is written. A version 1 file is 2 bytes shorter.
pub fn length(n: usize, p: usize, s: usize) -> usize {
    19 + 4 * n + 4 * p + 2 * s
}

/// Where n stands in a file of this version. Parts and slots follow in four bytes each, then the words.
pub fn counts_at(version: u16) -> usize {
    match version {
        1 => 5,
        _ => 7,
    }
}

/// A file of n, parts and slots and of the words behind them, whether they fit or not. Version 1 does not hold the unknowns.
pub fn file(version: u16, unknowns: u16, counts: [u32; 3], words: &[u16]) -> Vec<u8> {
    let held = unknowns.to_le_bytes()[..counts_at(version) - 5].to_vec();
    let words = words.iter().flat_map(|word| word.to_le_bytes()).collect();
    [b"NDP".to_vec(), version.to_le_bytes().to_vec(), held, counts.map(u32::to_le_bytes).concat(), words].concat()
}

/// The file of a plan, whether it is sound or not.
pub fn file_of(version: u16, plan: &FileParts) -> Vec<u8> {
    let mut words: Vec<u16> = plan.order.clone();
    for (size, parent) in plan.sizes.iter().zip(&plan.parents) {
        words.extend([*size, *parent]);
    }
    words.extend(plan.column_starts.windows(2).map(|pair| (pair[1] - pair[0]) as u16));
    words.extend(&plan.rows);
    file(version, plan.unknowns as u16, [plan.n, plan.p, plan.s].map(|count| count as u32), &words)
}

/// What the writer is to be lent for a plan, each list as long as it is used.
pub fn parts_of(plan: &Planned) -> FileParts {
    FileParts {
        unknowns: plan.unknowns,
        n: plan.order.len(),
        p: plan.sizes.len(),
        s: plan.rows.len(),
        order: plan.order.clone(),
        sizes: plan.sizes.clone(),
        parents: plan.parents.clone(),
        column_starts: plan.column_starts.clone(),
        rows: plan.rows.clone(),
    }
}
