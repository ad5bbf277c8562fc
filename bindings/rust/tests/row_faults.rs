//! Rows that break 17, 18 or both, in files that are read and in plans that are written: 17 is answered wherever it stands.

use crate::calls::{self, ample_room, exact_room, read_expecting, write_expecting};
use crate::files::file_of;
use crate::meshes;
use crate::random::Random;
use plain::{FileParts, Planned};
use std::collections::BTreeSet;

const NONE: u16 = 65535;

/// A plan by its parts and by the rows of each column.
#[derive(Clone)]
struct Columns {
    sizes: Vec<u16>,
    parents: Vec<u16>,
    rows: Vec<Vec<u16>>,
}

impl Columns {
    fn of(planned: &Planned) -> Columns {
        let ends = planned.column_starts.windows(2);
        Columns {
            sizes: planned.sizes.clone(),
            parents: planned.parents.clone(),
            rows: ends.map(|ends| planned.rows[ends[0] as usize..ends[1] as usize].to_vec()).collect(),
        }
    }

    fn nodes(&self) -> u16 {
        self.rows.len() as u16
    }

    fn column(&self, j: u16) -> &[u16] {
        &self.rows[j as usize]
    }

    /// The same plan with other rows in column j.
    fn with(&self, j: u16, rows: Vec<u16>) -> Columns {
        let mut changed = self.clone();
        changed.rows[j as usize] = rows;
        changed
    }

    /// The part of position i, which is below n.
    fn part(&self, i: u16) -> u16 {
        let mut end = 0;
        let holds = |size: &u16| {
            end += size;
            i < end
        };
        self.sizes.iter().position(holds).unwrap() as u16
    }

    /// Whether row i, which is below n, lies in column j's part or in one of its ancestors.
    fn inside(&self, j: u16, i: u16) -> bool {
        let (mut part, wanted) = (self.part(j), self.part(i));
        while part != wanted && part != NONE {
            part = self.parents[part as usize];
        }
        part == wanted
    }

    /// The rows that column j may have, and the later positions that it may not have.
    fn allowed(&self, j: u16) -> (Vec<u16>, Vec<u16>) {
        (j + 1..self.nodes()).partition(|i| self.inside(j, *i))
    }

    fn breaks_17(&self) -> bool {
        let ascending = |rows: &[u16]| rows.windows(2).all(|pair| pair[0] < pair[1]);
        let between = |rows: &[u16], j: u16| rows.iter().all(|row| j < *row && *row < self.nodes());
        (0..self.nodes()).any(|j| !ascending(self.column(j)) || !between(self.column(j), j))
    }

    /// A row of n or more lies in no part.
    fn breaks_18(&self) -> bool {
        let outside = |row: u16, j: u16| row >= self.nodes() || !self.inside(j, row);
        (0..self.nodes()).any(|j| self.column(j).iter().any(|row| outside(*row, j)))
    }

    /// What the writer is lent. The order is the positions' own.
    fn lent(&self) -> FileParts {
        let mut column_starts = vec![0];
        for rows in &self.rows {
            column_starts.push(column_starts[column_starts.len() - 1] + rows.len() as u32);
        }
        FileParts {
            unknowns: 1,
            n: self.rows.len(),
            p: self.sizes.len(),
            s: self.rows.concat().len(),
            order: (0..self.nodes()).collect(),
            sizes: self.sizes.clone(),
            parents: self.parents.clone(),
            column_starts,
            rows: self.rows.concat(),
        }
    }

    /// Reads the plan in both versions of the file and writes it, and compares with the plain program and with the two rules.
    /// Gives the refusal, or 0.
    fn answer(&self) -> u32 {
        let lent = self.lent();
        let (room, file) = (exact_room(lent.n, lent.s), file_of(2, &lent));
        let read = calls::read(&file, &room);
        assert_eq!(calls::read(&file_of(1, &lent), &room), read);
        let (number, length) = (read.err().unwrap_or(0), file.len());
        assert_eq!(calls::write(&lent, length), if number == 0 { Ok(file) } else { Err(number) });
        match (self.breaks_17(), self.breaks_18()) {
            (true, _) => assert_eq!(number, 17),
            (false, true) => assert_eq!(number, 18),
            (false, false) => assert!(number == 0 || number == 19, "{number}"),
        }
        number
    }
}

/// Rows with one more at its place.
fn with_row(rows: &[u16], row: u16) -> Vec<u16> {
    let mut longer = [rows, &[row]].concat();
    longer.sort_unstable();
    longer
}

/// The rows of column j, each time with another fault of 17: a row that is not above the column, one of n or more, one that
/// stands twice, and rows that do not ascend.
fn with_faults_of_17(rows: &[u16], j: u16, n: u16) -> Vec<Vec<u16>> {
    let mut faulty: Vec<Vec<u16>> = [0, j, n, n + 1, 4096, 65535].map(|row| [rows, &[row]].concat()).to_vec();
    faulty.push([&[j], rows].concat());
    if let Some(last) = rows.last() {
        faulty.push([rows, &[*last]].concat());
    }
    if rows.len() > 1 {
        faulty.push(rows.iter().rev().copied().collect());
    }
    faulty
}

/// Every two columns, also the same one twice: a fault of 17 in the first, and one of 18 in the second, each also alone.
fn compare_pairs(plan: &Columns) {
    let n = plan.nodes();
    assert_eq!(plan.answer(), 0);
    for a in 0..n {
        for rows in with_faults_of_17(plan.column(a), a, n) {
            assert_eq!(plan.with(a, rows).answer(), 17);
        }
    }
    for b in 0..n {
        for outside in plan.allowed(b).1 {
            let faulty = plan.with(b, with_row(plan.column(b), outside));
            assert_eq!(faulty.answer(), 18);
            for a in 0..n {
                for rows in with_faults_of_17(faulty.column(a), a, n) {
                    assert_eq!(faulty.with(a, rows).answer(), 17);
                }
            }
        }
    }
}

#[test]
fn every_pair_of_columns() {
    let grid = [(0, 1), (1, 2), (3, 4), (4, 5), (0, 3), (1, 4), (2, 5)];
    let regions = meshes::side_by_side(&[meshes::path(3), meshes::path(5), meshes::path(2)]);
    for mesh in [meshes::path(5), meshes::path(9), meshes::star(6), meshes::from_edges(6, &grid), regions] {
        let planned = calls::plan(1, &mesh, &ample_room(mesh.n)).unwrap();
        compare_pairs(&Columns::of(&planned));
    }
}

/// A fault of 18 in each two columns, and the columns between, before and behind without any.
#[test]
fn two_faults_of_18() {
    let planned = calls::plan(1, &meshes::path(9), &ample_room(9)).unwrap();
    let plan = Columns::of(&planned);
    for a in 0..9 {
        for outside in plan.allowed(a).1 {
            let faulty = plan.with(a, with_row(plan.column(a), outside));
            for b in 0..9 {
                for other in plan.allowed(b).1.into_iter().filter(|row| !faulty.column(b).contains(row)) {
                    assert_eq!(faulty.with(b, with_row(faulty.column(b), other)).answer(), 18);
                }
            }
        }
    }
}

/// Each plan of `p` parts of one position, or of one and two in turn, whose columns have no rows: every choice of parents.
fn forests(p: u16, two: bool) -> Vec<Columns> {
    let sizes: Vec<u16> = (0..p).map(|part| if two && part % 2 == 1 { 2 } else { 1 }).collect();
    let positions = sizes.iter().sum::<u16>() as usize;
    let mut chosen: Vec<Vec<u16>> = vec![vec![]];
    for part in 0..p {
        let parents = (part + 1..p).chain([NONE]);
        chosen =
            parents.flat_map(|parent| chosen.iter().map(move |before| [&before[..], &[parent]].concat())).collect();
    }
    let plan = |parents| Columns { sizes: sizes.clone(), parents, rows: vec![vec![]; positions] };
    chosen.into_iter().map(plan).collect()
}

/// Whether a part that is not below some part stands between it and one that is: then the parts are in no postorder.
fn is_mixed(plan: &Columns) -> bool {
    let p = plan.sizes.len() as u16;
    let places = Columns { sizes: vec![1; p as usize], parents: plan.parents.clone(), rows: vec![vec![]; p as usize] };
    (0..p).any(|top| (0..top).any(|low| places.inside(low, top) && (low..top).any(|part| !places.inside(part, top))))
}

/// Every choice of parents for four and five parts. With the rows that are allowed a plan is accepted, and with one more
/// it is refused with 18; so it is where a column has that one alone.
#[test]
fn parts_in_any_order() {
    let mut mixed = 0;
    for plan in [forests(4, true), forests(5, false)].concat() {
        mixed += usize::from(is_mixed(&plan));
        let rows: Vec<Vec<u16>> = (0..plan.nodes()).map(|j| plan.allowed(j).0).collect();
        let full = Columns { rows: rows.clone(), ..plan.clone() };
        assert_eq!(full.answer(), 0);
        for j in 0..plan.nodes() {
            for outside in plan.allowed(j).1 {
                assert_eq!(plan.with(j, vec![outside]).answer(), 18);
                assert_eq!(full.with(j, with_row(&rows[j as usize], outside)).answer(), 18);
            }
        }
    }
    // All choices but those in postorder, 14 of 24 and 42 of 120.
    assert_eq!(mixed, 10 + 78);
}

/// Every pair of columns in each plan whose parts are in no postorder. A column has the first row that is allowed.
#[test]
fn every_pair_of_columns_in_mixed_parts() {
    for plan in forests(4, true).into_iter().filter(is_mixed) {
        let first = |j| plan.allowed(j).0.into_iter().take(1).collect();
        compare_pairs(&Columns { rows: (0..plan.nodes()).map(first).collect(), ..plan.clone() });
    }
}

/// Three rows of which one lies outside, in every order: 18 where they ascend, and 17 otherwise.
#[test]
fn rows_in_every_order() {
    let orders = [[0, 1, 2], [0, 2, 1], [1, 0, 2], [1, 2, 0], [2, 0, 1], [2, 1, 0]];
    let plan = Columns { sizes: vec![1; 5], parents: vec![2, 3, 4, 4, NONE], rows: vec![vec![]; 5] };
    for rows in [[1, 2, 4], [2, 3, 4]] {
        for order in orders {
            let number = if order == [0, 1, 2] { 18 } else { 17 };
            assert_eq!(plan.with(0, order.map(|k| rows[k]).to_vec()).answer(), number);
        }
    }
}

/// The rows of both lists, ascending, each once.
fn joined(rows: &[u16], others: &[u16]) -> Vec<u16> {
    let rows: BTreeSet<u16> = rows.iter().chain(others).copied().collect();
    rows.into_iter().collect()
}

/// A sound plan of parts and rows that chance has chosen: a column's rows after its first are put in the first row's column.
fn drawn(random: &mut Random) -> Columns {
    let p = 1 + random.below(9) as u16;
    let sizes: Vec<u16> = (0..p).map(|_| 1 + random.below(4) as u16).collect();
    let later = |part: u16, random: &mut Random| part + 1 + random.below((p - part - 1) as usize) as u16;
    let parents =
        (0..p).map(|part| if part + 1 == p || random.below(6) == 0 { NONE } else { later(part, random) }).collect();
    let positions = sizes.iter().sum::<u16>();
    let mut plan = Columns { sizes, parents, rows: vec![vec![]; positions as usize] };
    for j in 0..positions {
        let more: Vec<u16> = plan.allowed(j).0.into_iter().filter(|_| random.below(3) == 0).collect();
        plan = plan.with(j, joined(plan.column(j), &more));
        if let [first, later @ ..] = plan.column(j) {
            plan = plan.with(*first, joined(plan.column(*first), later));
        }
    }
    plan
}

/// One row changed, or two exchanged, or a part's parent changed.
fn change(plan: &mut Columns, random: &mut Random) {
    let (n, p) = (plan.nodes(), plan.sizes.len());
    let filled: Vec<usize> = (0..plan.rows.len()).filter(|j| !plan.rows[*j].is_empty()).collect();
    if filled.is_empty() || random.below(6) == 0 {
        let part = random.below(p);
        plan.parents[part] = if part + 1 == p { NONE } else { (part + 1 + random.below(p - part - 1)) as u16 };
        return;
    }
    let rows = &mut plan.rows[random.pick(&filled)];
    let (at, other) = (random.below(rows.len()), random.below(rows.len()));
    match random.below(4) {
        0 => rows.swap(at, other),
        1 => rows[at] = random.pick(&[n, n + 1, 4095, 4096, 65535]),
        _ => rows[at] = random.below(n as usize) as u16,
    }
}

#[test]
fn drawn_plans() {
    let (mut random, mut met) = (Random(16), BTreeSet::new());
    for _ in 0..2000 {
        let plan = drawn(&mut random);
        assert_eq!(plan.answer(), 0);
        for _ in 0..12 {
            let mut changed = plan.clone();
            for _ in 0..1 + random.below(3) {
                change(&mut changed, &mut random);
            }
            met.insert(changed.answer());
        }
    }
    assert_eq!(met, BTreeSet::from([0, 17, 18, 19]));
}

/// A file, and the same plan lent to the writer, with the refusal that both get. The numbers stand here by themselves.
fn expect_refused(sizes: &[u16], parents: &[u16], rows: &[&[u16]], number: u32) {
    let rows: Vec<Vec<u16>> = rows.iter().map(|rows| rows.to_vec()).collect();
    let plan = Columns { sizes: sizes.to_vec(), parents: parents.to_vec(), rows };
    for version in [1, 2] {
        read_expecting(&file_of(version, &plan.lent()), &ample_room(plan.rows.len()), &Err(number));
    }
    write_expecting(&plan.lent(), 100, &Err(number));
}

#[test]
fn the_lower_number_is_answered() {
    expect_refused(&[2], &[NONE], &[&[7], &[]], 17);
    expect_refused(&[1, 1], &[NONE, NONE], &[&[1], &[]], 18);
    expect_refused(&[1, 1], &[NONE, NONE], &[&[2], &[]], 17);
    // 18 in column 0, and 17 in the last column, or in the last that can have a row.
    expect_refused(&[2, 2, 1], &[2, 2, NONE], &[&[2], &[4], &[], &[], &[4]], 17);
    expect_refused(&[2, 2, 1], &[2, 2, NONE], &[&[2], &[4], &[], &[5], &[]], 17);
    // 17 in column 0, and 18 behind it.
    expect_refused(&[2, 2, 1], &[2, 2, NONE], &[&[0], &[3], &[], &[], &[]], 17);
    expect_refused(&[2, 2, 1], &[2, NONE, NONE], &[&[5], &[], &[], &[4], &[]], 17);
    // 18 alone, in the first column, one between and the last that can have a row.
    expect_refused(&[2, 2, 1], &[2, 2, NONE], &[&[2], &[4], &[3], &[4], &[]], 18);
    expect_refused(&[2, 2, 1], &[2, 2, NONE], &[&[1], &[3], &[3], &[4], &[]], 18);
    expect_refused(&[2, 2, 1], &[2, NONE, NONE], &[&[1], &[4], &[3], &[4], &[]], 18);
    // Both in one column: rows that do not ascend, one of them outside. Then ascending.
    expect_refused(&[2, 2, 1], &[2, 2, NONE], &[&[4, 3], &[], &[], &[], &[]], 17);
    expect_refused(&[2, 2, 1], &[2, 2, NONE], &[&[3, 1], &[], &[], &[], &[]], 17);
    expect_refused(&[2, 2, 1], &[2, 2, NONE], &[&[3, 4], &[], &[], &[], &[]], 18);
}

/// Part 0 is below part 2, and part 1, which stands between them, is not.
#[test]
fn a_part_between_two_of_another_branch() {
    let parents = [2, 3, 3, NONE];
    let sound =
        Columns { sizes: vec![1; 4], parents: parents.to_vec(), rows: vec![vec![2, 3], vec![3], vec![3], vec![]] };
    assert_eq!(sound.answer(), 0);
    expect_refused(&[1; 4], &parents, &[&[1], &[3], &[3], &[]], 18);
    expect_refused(&[1; 4], &parents, &[&[2, 3], &[2, 3], &[3], &[]], 18);
    expect_refused(&[1; 4], &[2, 3, NONE, NONE], &[&[2, 3], &[3], &[], &[]], 18);
    expect_refused(&[1; 4], &parents, &[&[1], &[3], &[4], &[]], 17);
    expect_refused(&[1; 4], &parents, &[&[0], &[2], &[3], &[]], 17);
}
