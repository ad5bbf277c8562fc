//! From a slot to its pair of positions and back, both ways, in plans and in layouts that no planner made. The pairs that
//! are expected are counted off here, column after column, so that they do not depend on the plain program.

use crate::calls::{self, ample_room, LentLayout};
use crate::meshes;
use crate::random::Random;
use ndplan::{Mesh, OwnedMesh, Pair, Plan, Refusal};
use plain::{MeshLists, PairAnswer};

/// The row and the column of each slot. `columns` holds the rows of each column.
fn counted(columns: &[Vec<u16>]) -> Vec<(u32, u32)> {
    let of_column = |(j, rows): (usize, &Vec<u16>)| rows.iter().map(|row| (*row as u32, j as u32)).collect::<Vec<_>>();
    columns.iter().enumerate().flat_map(of_column).collect()
}

/// The layout with these columns, and with more rows behind the last slot.
fn lent(columns: &[Vec<u16>], behind: &[u16]) -> LentLayout {
    let MeshLists { n, starts, neighbours } = meshes::from_lists(columns);
    LentLayout::of(n, &starts, &[&neighbours, behind].concat())
}

/// Every slot gives its pair, and the pair gives the slot.
fn slots_lead_home(layout: &mut LentLayout, pairs: &[(u32, u32)]) {
    for (slot, &(row, column)) in pairs.iter().enumerate() {
        assert_eq!(layout.pair_of_slot(slot), Ok((row, column)));
        assert_eq!(layout.slot_of_pair(row as usize, column as usize), Ok(PairAnswer::Slot(slot as u32)));
    }
}

/// Every pair of positions that has a slot, the later position first, is the slot's pair. Gives the number of these pairs.
fn pairs_lead_home(layout: &mut LentLayout, n: usize) -> usize {
    let mut found = 0;
    for (row, column) in (0..n).flat_map(|row| (0..row).map(move |column| (row, column))) {
        if let PairAnswer::Slot(slot) = layout.slot_of_pair(row, column).unwrap() {
            assert_eq!(layout.pair_of_slot(slot as usize), Ok((row as u32, column as u32)));
            found += 1;
        }
    }
    found
}

/// The slots end where their number does, at the rows' end or before it. No slot is found again 2^16 or 2^32 numbers on.
fn refused_behind(layout: &mut LentLayout, slots: usize, length: usize) {
    let last = slots.saturating_sub(1);
    let wide = [65536 + last, 1 << 32, (1 << 32) + last, (1 << 48) + last, usize::MAX - 1, usize::MAX];
    for slot in (slots..length + 2).chain(wide) {
        assert_eq!(layout.pair_of_slot(slot), Err(27), "slot {slot} of {slots}");
    }
}

fn compare(columns: &[Vec<u16>], behind: &[u16]) {
    let (mut layout, pairs) = (lent(columns, behind), counted(columns));
    slots_lead_home(&mut layout, &pairs);
    assert_eq!(pairs_lead_home(&mut layout, columns.len()), pairs.len());
    refused_behind(&mut layout, pairs.len(), pairs.len() + behind.len());
}

/// Every layout of at most five nodes. The rows behind the slots could be rows, or could not.
#[test]
fn all_small_layouts() {
    for n in 1..=5 {
        let pairs: Vec<(usize, u16)> = (0..n).flat_map(|j| (j as u16 + 1..n as u16).map(move |i| (j, i))).collect();
        for chosen in 0..1usize << pairs.len() {
            let mut columns = vec![vec![]; n];
            let with_slot = pairs.iter().enumerate().filter(|(k, _)| chosen >> k & 1 == 1);
            with_slot.for_each(|(_, (j, i))| columns[*j].push(*i));
            compare(&columns, &[]);
            compare(&columns, &[4, 0, 65535]);
        }
    }
}

/// Columns with rows drawn at random. Runs of columns are without rows, at the front and at the end too.
fn drawn_columns(n: usize, random: &mut Random) -> Vec<Vec<u16>> {
    let (mut columns, mut full) = (Vec::new(), random.below(2) == 0);
    let (run, share) = (1 + random.below(6), 1 + random.below(9));
    for j in 0..n as u16 {
        full = full != (random.below(run) == 0);
        columns.push((j + 1..n as u16).filter(|_| full && random.below(10) < share).collect());
    }
    columns
}

#[test]
fn drawn_layouts() {
    let (mut random, mut empty_before, mut no_slots) = (Random(50), 0, 0);
    for round in 0..900 {
        let columns = drawn_columns(1 + random.below(4 + round / 20), &mut random);
        let behind: Vec<u16> = (0..random.below(5)).map(|_| random.below(65536) as u16).collect();
        compare(&columns, &behind);
        empty_before += columns.windows(2).filter(|pair| pair[0].is_empty() && !pair[1].is_empty()).count();
        no_slots += columns.concat().is_empty() as usize;
    }
    assert!(empty_before > 1000 && no_slots > 20, "{empty_before} {no_slots}");
}

/// All rows are in one column of the most nodes, and all columns before it or behind it share a start.
#[test]
fn one_column_with_rows() {
    for j in [0, 1, 2, 2047, 2048, 4093, 4094] {
        let mut columns = vec![vec![]; 4096];
        columns[j] = if j < 4000 { vec![j as u16 + 1, 4000, 4095] } else { vec![4095] };
        let mut layout = lent(&columns, &[4095, 4095]);
        slots_lead_home(&mut layout, &counted(&columns));
        refused_behind(&mut layout, columns[j].len(), columns[j].len() + 2);
    }
}

fn columns_of(plan: &Plan) -> Vec<Vec<u16>> {
    (0..plan.counts().nodes).map(|j| plan.column(j).unwrap().to_vec()).collect()
}

fn owned(mesh: &MeshLists) -> Plan {
    Plan::of(1, &Mesh { nodes: mesh.n, starts: &mesh.starts, neighbours: &mesh.neighbours }).unwrap()
}

#[test]
fn plans_of_small_meshes() {
    let mut random = Random(51);
    for round in 0..600 {
        let mesh = meshes::any(3 + round / 20, &mut random);
        let planned = calls::plan(1, &mesh, &ample_room(mesh.n)).unwrap();
        let columns = columns_of(&owned(&mesh));
        assert_eq!(columns.concat(), planned.rows);
        compare(&columns, &[0, 1][..random.below(3)]);
    }
}

/// All slots of an owned plan, both ways, and the number behind them.
fn compare_owned(plan: &Plan) {
    let pairs = counted(&columns_of(plan));
    assert_eq!(pairs.len(), plan.counts().slots);
    for (slot, &(row, column)) in pairs.iter().enumerate() {
        assert_eq!(plan.pair(slot), Ok(Pair { row, column }));
        assert_eq!(plan.slot(row as usize, column as usize), Ok(ndplan::PairAnswer::Slot(slot as u32)));
    }
    assert_eq!(plan.pair(pairs.len()), Err(Refusal(27)));
}

/// The foot with every pair of positions, and plates of about 900 nodes with every slot.
#[test]
fn plans_of_the_foot_and_of_plates() {
    let samples = concat!(env!("CARGO_MANIFEST_DIR"), "/../../samples");
    let text = std::fs::read(format!("{samples}/foot.mtx")).unwrap();
    let foot = Plan::of(1, &OwnedMesh::read_matrix_market(&text).unwrap().lists()).unwrap();
    compare_owned(&foot);
    compare(&columns_of(&foot), &[7]);
    let mut random = Random(52);
    let plates = [
        meshes::grid(30, 30, true),
        meshes::shuffled(&meshes::grid(30, 30, true), &mut random),
        meshes::plate_with_holes(32, 32, 6, &mut random),
        meshes::grid(9, 100, false),
    ];
    for plate in &plates {
        compare_owned(&owned(plate));
    }
}

/// The most slots: every pair of 4,096 positions has one. Asked at both ends of columns, and where 16 bits end.
#[test]
fn the_most_slots() {
    let columns: Vec<Vec<u16>> = (0..4096).map(|j| (j + 1..4096).collect()).collect();
    let (mut layout, pairs) = (lent(&columns, &[]), counted(&columns));
    assert_eq!(pairs.len(), ndplan::MAX_SLOTS);
    let slots = [0, 4094, 4095, 8188, 8189, 65535, 65536, 4_000_000, 8_386_557, 8_386_558, 8_386_559];
    for slot in slots {
        assert_eq!(layout.pair_of_slot(slot), Ok(pairs[slot]));
    }
    assert_eq!([0, 4095, 8_386_559].map(|slot| pairs[slot]), [(1, 0), (2, 1), (4095, 4094)]);
    assert_eq!(layout.pair_of_slot(8_386_560), Err(27));
}
