//! Damaged layouts, positions and slots for the questions.

use crate::calls::{self, ample_room, LentLayout};
use crate::damaged_files::border;
use crate::meshes;
use crate::random::Random;
use std::collections::BTreeSet;

/// A layout as lent.
#[derive(Clone)]
struct Parts {
    n: usize,
    starts: Vec<u32>,
    rows: Vec<u16>,
}

fn change(layout: &mut Parts, random: &mut Random) {
    let n = layout.n;
    let at = random.below(layout.starts.len());
    let old = layout.starts[at];
    match random.below(8) {
        0 => layout.n = random.pick(&[0, 4097, 65536 + n, usize::MAX]),
        1 => layout.n = random.pick(&[n - 1, n + 1]),
        2 => layout.starts.push(old),
        3 => layout.starts.truncate(at),
        4 => layout.starts[at] = random.pick(&[0, 1, old.wrapping_add(1), old.wrapping_sub(1), u32::MAX, old ^ 65536]),
        5 => layout.rows.truncate(random.below(layout.rows.len() + 1)),
        6 => layout.rows.extend([0, 65535]),
        _ if layout.rows.is_empty() => layout.starts[at] = old.wrapping_add(1),
        _ => {
            let at = random.below(layout.rows.len());
            layout.rows[at] = border(n, n, layout.rows[at], random);
        }
    }
}

/// Asks for a slot, and gives its refusal: the one that every question on the layout has, or else 27 from the last start on.
fn compare_slot(layout: &mut LentLayout, parts: &Parts, random: &mut Random) -> Option<u32> {
    let (last, length) = (parts.starts.last().map_or(0, |last| *last as usize), parts.rows.len());
    let slots = [0, last.saturating_sub(1), last, last + 1, length, 1 << 32, usize::MAX, random.below(length + 1)];
    let slot = random.pick(&slots);
    let refusal = layout.pair_of_slot(slot).err();
    assert_eq!(refusal, layout.column(0).err().or((slot >= last).then_some(27)));
    refusal
}

#[test]
fn layouts() {
    let (mut random, mut met) = (Random(16), BTreeSet::new());
    for round in 0..3000 {
        let mesh = meshes::any(3 + round / 100, &mut random);
        let plan = calls::plan(1, &mesh, &ample_room(mesh.n)).unwrap();
        let sound = Parts { n: mesh.n, starts: plan.column_starts, rows: plan.rows };
        for _ in 0..8 {
            let mut parts = sound.clone();
            for _ in 0..random.below(3) {
                if !parts.starts.is_empty() && parts.n == mesh.n {
                    change(&mut parts, &mut random);
                }
            }
            let mut layout = LentLayout::of(parts.n, &parts.starts, &parts.rows);
            let n = mesh.n;
            let positions = [0, n - 1, n, n + 1, 65536, usize::MAX, random.below(n), random.below(n)];
            let (a, b) = (random.pick(&positions), random.pick(&positions));
            let pair = layout.slot_of_pair(a, b);
            let column = layout.column(a);
            if a == b {
                assert_eq!(pair.err(), column.err());
            }
            met.extend(pair.err().into_iter().chain(column.err()));
            met.extend(compare_slot(&mut layout, &parts, &mut random));
        }
    }
    assert_eq!(met, BTreeSet::from([1, 21, 22, 27]));
}

/// 1 comes before 22, and 22 before 21 and 27.
#[test]
fn order_of_the_checks() {
    let mut bad = LentLayout::of(2, &[0, 1, 1], &[2]);
    assert_eq!((bad.slot_of_pair(9, 9), bad.column(9)), (Err(22), Err(22)));
    assert_eq!((bad.pair_of_slot(0), bad.pair_of_slot(1), bad.pair_of_slot(9)), (Err(22), Err(22), Err(22)));
    let mut none = LentLayout::of(0, &[3], &[2]);
    assert_eq!((none.slot_of_pair(9, 9), none.column(9)), (Err(1), Err(1)));
    assert_eq!((none.pair_of_slot(0), none.pair_of_slot(9)), (Err(1), Err(1)));
    let mut sound = LentLayout::of(2, &[0, 1, 1], &[1]);
    assert_eq!((sound.slot_of_pair(0, 2), sound.slot_of_pair(2, 0), sound.column(2)), (Err(21), Err(21), Err(21)));
    assert_eq!((sound.slot_of_pair(usize::MAX, 0), sound.column(usize::MAX)), (Err(21), Err(21)));
    assert_eq!((sound.pair_of_slot(0), sound.pair_of_slot(1)), (Ok((1, 0)), Err(27)));
    assert_eq!((sound.pair_of_slot(1 << 32), sound.pair_of_slot(usize::MAX)), (Err(27), Err(27)));
}
