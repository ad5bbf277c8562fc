//! Document 02's limit for every node: a list of 26 entries is accepted, one of 27 is refused with 26, by planning after 6
//! and before 7, by the reader of texts after 3 and before 8. What is refused, and with which number, stands here by
//! itself, so that it does not depend on the plain program.

use crate::calls::{ample_room, exact_room, longer_room, plan_expecting, read_expecting, write_expecting};
use crate::calls::{plan, LentLayout};
use crate::files::{file_of, parts_of};
use crate::made_meshes::AMPLE;
use crate::meshes::{
    clique, edges_of, from_edges, from_lists, full_tree, lists_of, path, side_by_side, star, wide_ring,
};
use crate::random::Random;
use crate::texts::{self, Matrix};
use ndplan::{Mesh, Plan, Refusal};
use plain::{MeshLists, PairAnswer, Planned, Room};

/// The plan of a star: each leaf is a part, then the centre.
fn plan_of_star(leaves: u16) -> Planned {
    let n = leaves + 1;
    Planned {
        order: (1..n).chain([0]).collect(),
        positions: [leaves].into_iter().chain(0..leaves).collect(),
        sizes: vec![1; n.into()],
        parents: (0..leaves).map(|_| leaves).chain([65535]).collect(),
        column_starts: (0..n.into()).chain([leaves.into()]).collect(),
        rows: vec![leaves; leaves.into()],
        unknowns: 1,
        multiplications: 2 * u64::from(leaves),
    }
}

/// The plan of nodes that are all next to one another: one part, and a slot for every pair.
fn plan_of_clique(n: u16) -> Planned {
    let (wide, numbers) = (u32::from(n), (0..n).collect::<Vec<u16>>());
    Planned {
        order: numbers.clone(),
        positions: numbers,
        sizes: vec![n],
        parents: vec![65535],
        column_starts: (0..=wide).map(|j| j * (2 * wide - 1 - j) / 2).collect(),
        rows: (0..n).flat_map(|j| j + 1..n).collect(),
        unknowns: 1,
        multiplications: (0..u64::from(n)).map(|count| count * (count + 3) / 2).sum(),
    }
}

fn accepted(mesh: &MeshLists, planned: &Planned) {
    let slots = planned.rows.len();
    for room in [exact_room(mesh.n, slots), longer_room(mesh.n, slots)] {
        plan_expecting(1, mesh, &room, &Ok(planned.clone()));
    }
    texts::read_expecting(&Matrix::of(mesh).text(), (mesh.n + 1, mesh.neighbours.len()), &Ok(mesh.clone()));
}

/// A mesh that is sound but for its lists' lengths.
fn refused(mesh: &MeshLists) {
    let none = Room { order: 0, positions: 0, sizes: 0, parents: 0, column_starts: 0, rows: 0 };
    for room in [none, ample_room(mesh.n)] {
        plan_expecting(1, mesh, &room, &Err(26));
    }
    let lists = Mesh { nodes: mesh.n, starts: &mesh.starts, neighbours: &mesh.neighbours };
    assert_eq!(Plan::of(1, &lists), Err(Refusal(26)));
    for room in [(0, 0), AMPLE] {
        texts::read_expecting(&Matrix::of(mesh).text(), room, &Err(26));
    }
}

#[test]
fn lists_of_26_are_accepted() {
    assert_eq!((plan_of_star(26).rows.len(), plan_of_star(26).multiplications), (26, 52));
    accepted(&star(27), &plan_of_star(26));
    assert_eq!((plan_of_clique(27).rows.len(), plan_of_clique(27).multiplications), (351, 3627));
    accepted(&clique(27), &plan_of_clique(27));
    for mesh in [full_tree(700), wide_ring(200, 13), side_by_side(&[clique(27), star(27), clique(27)])] {
        assert_eq!(lists_of(&mesh).iter().map(Vec::len).max(), Some(26));
        let planned = plan(1, &mesh, &ample_room(mesh.n)).unwrap();
        accepted(&mesh, &planned);
    }
}

#[test]
fn longer_lists_are_refused() {
    for mesh in [star(28), star(29), star(4096), clique(28), clique(256), wide_ring(40, 14), wide_ring(2000, 14)] {
        refused(&mesh);
    }
}

/// Every list at the limit: as many nodes as the entries allow, and one more.
#[test]
fn every_list_of_26() {
    let most = wide_ring(2520, 13);
    assert!(lists_of(&most).iter().all(|list| list.len() == 26));
    assert_eq!(most.neighbours.len(), 65520);
    let planned = plan(1, &most, &ample_room(2520)).unwrap();
    accepted(&most, &planned);
    let above = wide_ring(2521, 13);
    plan_expecting(1, &above, &ample_room(2521), &Err(3));
    texts::read_expecting(&Matrix::of(&above).text(), AMPLE, &Err(3));
}

/// The star of so many leaves with each node as its centre, alone and between other meshes.
fn stars_in_all_places(leaves: usize) -> Vec<MeshLists> {
    let star = |centre: usize| from_edges(leaves + 1, &(0..=leaves).map(|v| (centre, v)).collect::<Vec<_>>());
    let all: Vec<MeshLists> = (0..=leaves).map(star).collect();
    let between = all.iter().map(|star| side_by_side(&[path(3), star.clone(), clique(5)])).collect::<Vec<_>>();
    [all, between].concat()
}

/// The long list is the first, the last or any between, and its entries stand before the node, behind it or on both sides.
#[test]
fn one_long_list_anywhere() {
    stars_in_all_places(27).iter().for_each(refused);
    for mesh in stars_in_all_places(26) {
        let planned = plan(1, &mesh, &ample_room(mesh.n)).unwrap();
        accepted(&mesh, &planned);
    }
}

/// The star of 27 leaves, with one list changed.
fn changed_star(v: usize, change: impl Fn(&mut Vec<u16>)) -> MeshLists {
    let mut lists = lists_of(&star(28));
    change(&mut lists[v]);
    from_lists(&lists)
}

fn expect(mesh: &MeshLists, number: u32) {
    for room in [exact_room(mesh.n, 0), ample_room(mesh.n)] {
        plan_expecting(1, mesh, &room, &Err(number));
    }
}

/// Before 26 come 1 to 6: in the long list, and in another one.
#[test]
fn earlier_checks_of_a_mesh() {
    expect(&MeshLists { n: 4097, ..star(28) }, 1);
    expect(&MeshLists { n: 27, ..star(28) }, 2);
    let mut falling = star(28);
    falling.starts[5] = 0;
    expect(&falling, 2);
    expect(&clique(257), 3);
    for last in [28, 29, 65535] {
        expect(&changed_star(0, |list| list[26] = last), 4);
        expect(&changed_star(9, |list| list[0] = last), 4);
    }
    expect(&changed_star(0, |list| list[0] = 0), 5);
    expect(&changed_star(0, |list| list.insert(0, 0)), 5);
    expect(&changed_star(9, |list| list.push(9)), 5);
    expect(&changed_star(0, |list| list.swap(25, 26)), 6);
    expect(&changed_star(0, |list| list[26] = 26), 6);
    expect(&changed_star(0, |list| list.reverse()), 6);
    expect(&changed_star(9, |list| list.push(0)), 6);
}

/// After 26 comes 7: 27 entries that are one-sided, all or one of them, here or elsewhere. With 26 entries it is 7.
#[test]
fn one_sided_lists() {
    for leaf in [1, 14, 27] {
        expect(&changed_star(leaf.into(), Vec::clear), 26);
        expect(&changed_star(0, |list| list.retain(|w| *w != leaf)), 7);
    }
    let one_sided = |entries: u16| from_lists(&[vec![(1..=entries).collect()], vec![vec![]; 28]].concat());
    expect(&one_sided(27), 26);
    expect(&one_sided(28), 26);
    expect(&one_sided(26), 7);
    let elsewhere = |mesh: MeshLists| from_lists(&[vec![vec![1], vec![]], shifted(&mesh, 2)].concat());
    expect(&elsewhere(star(28)), 26);
    expect(&elsewhere(star(27)), 7);
}

/// The lists of the mesh with every node's number larger.
fn shifted(mesh: &MeshLists, by: u16) -> Vec<Vec<u16>> {
    lists_of(mesh).iter().map(|list| list.iter().map(|w| w + by).collect()).collect()
}

/// After 26 come 8 and 9; with 26 entries they are answered.
#[test]
fn short_buffers() {
    let short = |n: usize, slots: usize| {
        let exact = exact_room(n, slots);
        let five = [
            Room { order: n - 1, ..exact },
            Room { positions: n - 1, ..exact },
            Room { sizes: n - 1, ..exact },
            Room { parents: n - 1, ..exact },
            Room { column_starts: n, ..exact },
        ];
        five.map(|room| (room, 8)).into_iter().chain([(Room { rows: slots - 1, ..exact }, 9)])
    };
    for (room, number) in short(27, 26) {
        plan_expecting(1, &star(27), &room, &Err(number));
    }
    for (room, _) in short(28, 27) {
        plan_expecting(1, &star(28), &room, &Err(26));
    }
}

/// The text of the star of 27 leaves around a node in the middle, with this change.
fn changed_text(change: impl Fn(&mut Matrix)) -> Vec<u8> {
    let pairs = (1..=28).filter(|v| *v != 14).map(|v: u64| (v.max(14), v.min(14))).collect();
    let mut matrix = Matrix::new(28, pairs);
    change(&mut matrix);
    matrix.text()
}

/// In a text 23, 24, 25, 1 and 3 come before 26, and 8 behind it.
#[test]
fn order_of_a_texts_checks() {
    let again = |matrix: &mut Matrix| {
        matrix.pairs.push(matrix.pairs[3]);
        matrix.stated += 1;
    };
    let larger = |n: u64| move |matrix: &mut Matrix| (matrix.rows, matrix.columns) = (n, n);
    for room in [(0, 0), (28, 54), (29, 53), (29, 54), AMPLE] {
        let expect = |text: Vec<u8>, number: u32| texts::read_expecting(&text, room, &Err(number));
        expect(changed_text(|matrix| matrix.stated += 1), 23);
        expect(changed_text(|matrix| matrix.pairs[26].0 = 29), 24);
        expect(changed_text(again), 25);
        expect(changed_text(larger(4097)), 1);
        expect(changed_text(larger(4096)), 26);
        expect(changed_text(|_| ()), 26);
        expect(Matrix::of(&clique(257)).text(), 3);
    }
}

/// Diagonal pairs give no entry: with them a node may stand in more than 26 pairs.
#[test]
fn diagonal_pairs_do_not_count() {
    for mesh in [star(27), clique(27), star(28)] {
        let mut matrix = Matrix::of(&mesh);
        matrix.pairs.extend((1..=mesh.n as u64).map(|v| (v, v)));
        matrix.stated = matrix.pairs.len() as u64;
        let expected = if mesh.n == 27 { Ok(mesh) } else { Err(26) };
        texts::read_expecting(&matrix.text(), AMPLE, &expected);
    }
}

/// A plan of a mesh over the limit is no plan of ours, but a file may hold it, and it can be written and asked about.
#[test]
fn files_and_questions_have_no_such_limit() {
    for planned in [plan_of_star(27), plan_of_star(4095), plan_of_clique(28)] {
        let (n, slots) = (planned.order.len(), planned.rows.len());
        let file = file_of(2, &parts_of(&planned));
        write_expecting(&parts_of(&planned), file.len(), &Ok(file.clone()));
        read_expecting(&file, &exact_room(n, slots), &Ok(planned.clone()));
        let mut layout = LentLayout::of(n, &planned.column_starts, &planned.rows);
        assert_eq!(layout.slot_of_pair(n - 1, 0), Ok(PairAnswer::Slot(planned.column_starts[1] - 1)));
        assert_eq!(layout.column(0), Ok((0, planned.column_starts[1])));
        assert_eq!(layout.pair_of_slot(slots - 1).map(|pair| pair.0), Ok(n as u32 - 1));
    }
}

/// Nearly all pairs of 27 to 30 nodes, some of them one-sided, against the sentence.
#[test]
fn lengths_around_the_limit() {
    let (mut random, mut met) = (Random(40), [0; 3]);
    for _ in 0..3000 {
        let n = 27 + random.below(4);
        let mut edges = edges_of(&clique(n));
        random.shuffle(&mut edges);
        edges.truncate(edges.len() - random.below(3 * n));
        let mesh = from_edges(n, &edges);
        let mut lists = lists_of(&mesh);
        if random.below(3) == 0 {
            let v = random.below(n);
            let at = random.below(lists[v].len());
            lists[v].remove(at);
        }
        let long = lists.iter().any(|list| list.len() > 26);
        let one_sided = lists.concat().len() % 2 == 1;
        let expected = [(long, 26), (one_sided, 7)].into_iter().find(|check| check.0).map(|check| check.1);
        assert_eq!(plan(1, &from_lists(&lists), &ample_room(n)).err(), expected, "{lists:?}");
        met[[None, Some(7), Some(26)].iter().position(|kind| *kind == expected).unwrap()] += 1;
        let long = lists_of(&mesh).iter().any(|list| list.len() > 26);
        let read = texts::read(&Matrix::of(&mesh).text(), (n + 1, mesh.neighbours.len()));
        assert_eq!(read, if long { Err(26) } else { Ok(mesh) });
    }
    assert!(met.iter().all(|count| *count > 100), "{met:?}");
}
