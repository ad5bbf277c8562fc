//! Damaged plans lent to the writer.

use crate::calls::{self, NO_UNKNOWNS};
use crate::damaged_files::{border, small_plans};
use crate::files::{self, parts_of};
use crate::random::Random;
use plain::FileParts;
use std::collections::BTreeSet;

fn plans(count: usize, size: usize, random: &mut Random) -> Vec<FileParts> {
    small_plans(count, size, random).iter().map(parts_of).collect()
}

fn length_of(plan: &FileParts) -> usize {
    files::length(plan.n, plan.p, plan.s)
}

/// One entry of one slice, changed.
pub fn change_an_entry(plan: &mut FileParts, random: &mut Random) {
    let (n, p, s) = (plan.n, plan.p, plan.s as u32);
    let list = match random.below(5) {
        0 => &mut plan.order,
        1 => &mut plan.sizes,
        2 => &mut plan.parents,
        3 if s > 0 => &mut plan.rows,
        _ => {
            let at = random.below(n + 1);
            let old = plan.column_starts[at];
            let borders = [0, s, s + 1, old.wrapping_add(1), old.wrapping_sub(1), u32::MAX, old ^ 65536];
            plan.column_starts[at] = random.pick(&borders);
            return;
        }
    };
    let at = random.below(list.len());
    list[at] = border(n, p, list[at], random);
}

/// Slices longer than their counts, with numbers behind that would be refused.
pub fn lengthen(plan: &mut FileParts, random: &mut Random) {
    for list in [&mut plan.order, &mut plan.sizes, &mut plan.parents, &mut plan.rows] {
        list.extend((0..random.below(4)).map(|_| 65000));
    }
    plan.column_starts.extend((0..random.below(4)).map(|_| u32::MAX));
}

/// A slice shorter than its count.
pub fn shorten(plan: &mut FileParts, random: &mut Random) {
    let list = match random.below(5) {
        0 => &mut plan.order,
        1 => &mut plan.sizes,
        2 => &mut plan.parents,
        3 => &mut plan.rows,
        _ => return plan.column_starts.truncate(random.below(plan.n + 1)),
    };
    list.truncate(random.below(list.len().max(1)));
}

#[test]
fn entries_and_output() {
    let (mut random, mut met) = (Random(14), BTreeSet::new());
    for (count, size, edits) in [(60, 6, 600), (60, 14, 600), (10, 300, 100)] {
        for plan in plans(count, size, &mut random) {
            let length = length_of(&plan);
            for _ in 0..edits {
                let mut changed = plan.clone();
                for _ in 0..random.below(4) {
                    change_an_entry(&mut changed, &mut random);
                }
                if random.below(2) == 0 {
                    lengthen(&mut changed, &mut random);
                }
                let room = random.pick(&[length, length, length + 4, length - 1, 0]);
                met.extend(calls::write(&changed, room).err());
            }
        }
    }
    assert_eq!(met, BTreeSet::from([8, 15, 16, 17, 18, 19]));
}

/// A short slice, or a count at a border, is 13 before the lists are looked at, and 28 comes before it.
#[test]
fn counts_and_short_slices() {
    let mut random = Random(15);
    let mut met = BTreeSet::new();
    for plan in plans(60, 14, &mut random) {
        let (n, p, s) = (plan.n, plan.p, plan.s);
        let pairs = n * (n - 1) / 2;
        let counts = [0, 1, n - 1, n + 1, p - 1, p + 1, s + 1, pairs, pairs + 1, 4096, 4097, 65536 + n, usize::MAX];
        for (field, value) in (0..4).flat_map(|field| counts.map(|value| (field, value))) {
            let mut changed = plan.clone();
            *[&mut changed.n, &mut changed.p, &mut changed.s, &mut changed.unknowns][field] = value;
            lengthen(&mut changed, &mut random);
            met.extend(calls::write(&changed, length_of(&plan) + 9).err());
        }
        for _ in 0..20 {
            let mut changed = plan.clone();
            change_an_entry(&mut changed, &mut random);
            shorten(&mut changed, &mut random);
            let short = changed.rows.len() < s || changed.column_starts.len() <= n || changed.order.len() < n;
            let answer = calls::write(&changed, random.pick(&[0, 1000]));
            assert!(!short || answer == Err(13));
            met.extend(answer.err());
            changed.unknowns = random.pick(&NO_UNKNOWNS);
            assert_eq!(calls::write(&changed, random.pick(&[0, 1000])), Err(28));
        }
    }
    assert!(met.is_superset(&BTreeSet::from([13, 15, 16, 17, 28])), "{met:?}");
}
