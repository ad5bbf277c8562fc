//! Generated meshes.

use crate::random::Random;
use plain::MeshLists;
use std::collections::BTreeSet;

/// The most entries of a list.
pub const LIMIT: usize = 26;

/// The mesh with these lists, whether or not they are in order.
pub fn from_lists(lists: &[Vec<u16>]) -> MeshLists {
    let mut starts = vec![0];
    for list in lists {
        starts.push(starts[starts.len() - 1] + list.len() as u32);
    }
    MeshLists { n: lists.len(), starts, neighbours: lists.concat() }
}

pub fn lists_of(mesh: &MeshLists) -> Vec<Vec<u16>> {
    (0..mesh.n).map(|v| mesh.list(v).to_vec()).collect()
}

/// The mesh of n nodes with these edges. An edge from a node to itself is left out, and a repeated one is taken once.
pub fn from_edges(n: usize, edges: &[(usize, usize)]) -> MeshLists {
    let mut lists = vec![BTreeSet::new(); n];
    for &(v, w) in edges.iter().filter(|(v, w)| v != w) {
        lists[v].insert(w as u16);
        lists[w].insert(v as u16);
    }
    let lists: Vec<Vec<u16>> = lists.into_iter().map(|list| list.into_iter().collect()).collect();
    from_lists(&lists)
}

pub fn edges_of(mesh: &MeshLists) -> Vec<(usize, usize)> {
    (0..mesh.n).flat_map(|v| mesh.list(v).iter().map(move |w| (v, *w as usize))).filter(|(v, w)| v < w).collect()
}

/// Every mesh of n nodes.
pub fn all(n: usize) -> Vec<MeshLists> {
    let pairs = edges_of(&clique(n));
    let chosen = |set: usize| (0..pairs.len()).filter(|k| set >> k & 1 == 1).map(|k| pairs[k]).collect::<Vec<_>>();
    (0..1 << pairs.len()).map(|set| from_edges(n, &chosen(set))).collect()
}

pub fn path(n: usize) -> MeshLists {
    from_edges(n, &(1..n).map(|v| (v - 1, v)).collect::<Vec<_>>())
}

pub fn ring(n: usize) -> MeshLists {
    from_edges(n, &(0..n).map(|v| (v, (v + 1) % n)).collect::<Vec<_>>())
}

pub fn star(n: usize) -> MeshLists {
    from_edges(n, &(1..n).map(|v| (0, v)).collect::<Vec<_>>())
}

/// Every node that has nodes hanging on it has as many as the limit allows, but the last one may have fewer.
pub fn full_tree(n: usize) -> MeshLists {
    from_edges(n, &(1..n).map(|v| (v.saturating_sub(2) / (LIMIT - 1), v)).collect::<Vec<_>>())
}

/// A ring in which each node is next to the `reach` nodes before it and behind it.
pub fn wide_ring(n: usize, reach: usize) -> MeshLists {
    from_edges(n, &(0..n).flat_map(|v| (1..=reach).map(move |far| (v, (v + far) % n))).collect::<Vec<_>>())
}

pub fn clique(n: usize) -> MeshLists {
    from_edges(n, &(0..n).flat_map(|v| (0..v).map(move |w| (w, v))).collect::<Vec<_>>())
}

/// Each node hangs on one of the `reach` nodes before it.
pub fn tree(n: usize, reach: usize, random: &mut Random) -> MeshLists {
    let edges: Vec<_> = (1..n).map(|v| (v - 1 - random.below(reach.min(v)), v)).collect();
    from_edges(n, &edges)
}

/// A grid, row by row; with diagonals, a plate of triangles.
pub fn grid(width: usize, height: usize, diagonals: bool) -> MeshLists {
    let mut edges = Vec::new();
    for v in 0..width * height {
        let (right, down) = (v % width + 1 < width, v / width + 1 < height);
        edges.extend(right.then_some((v, v + 1)));
        edges.extend(down.then_some((v, v + width)));
        edges.extend((right && down && diagonals).then_some((v, v + width + 1)));
    }
    from_edges(width * height, &edges)
}

/// The mesh without the nodes that `keep` does not hold; the others are numbered anew in the same order.
pub fn kept(mesh: &MeshLists, keep: &[bool]) -> MeshLists {
    let number = |v: usize| keep[..v].iter().filter(|k| **k).count();
    let edges: Vec<_> = edges_of(mesh).into_iter().filter(|(v, w)| keep[*v] && keep[*w]).collect();
    from_edges(number(mesh.n), &edges.iter().map(|(v, w)| (number(*v), number(*w))).collect::<Vec<_>>())
}

/// A plate of triangles with rectangular holes.
pub fn plate_with_holes(width: usize, height: usize, holes: usize, random: &mut Random) -> MeshLists {
    let mut keep = vec![true; width * height];
    for _ in 0..holes {
        let (left, top) = (random.below(width), random.below(height));
        let (right, bottom) = (left + 1 + random.below(width / 4 + 1), top + 1 + random.below(height / 4 + 1));
        for (v, keep) in keep.iter_mut().enumerate() {
            let hole = (left..right).contains(&(v % width)) && (top..bottom).contains(&(v / width));
            *keep = *keep && !hole;
        }
    }
    keep[0] = true;
    kept(&grid(width, height, true), &keep)
}

/// Pairs of nodes drawn at random, without those that would give a list more entries than the limit.
pub fn random_graph(n: usize, pairs: usize, random: &mut Random) -> MeshLists {
    let (mut edges, mut lengths) = (BTreeSet::new(), vec![0; n]);
    for _ in 0..pairs {
        let (v, w) = (random.below(n), random.below(n));
        if v != w && lengths[v] < LIMIT && lengths[w] < LIMIT && edges.insert((v.min(w), v.max(w))) {
            lengths[v] += 1;
            lengths[w] += 1;
        }
    }
    from_edges(n, &edges.into_iter().collect::<Vec<_>>())
}

/// `hubs` nodes joined to each of `leaves` nodes and to the end of a path. At most 25 of both are within the limit.
pub fn broom(length: usize, leaves: usize, hubs: usize) -> MeshLists {
    let mut edges: Vec<_> = (1..length).map(|v| (v - 1, v)).collect();
    for hub in length..length + hubs {
        edges.push((length - 1, hub));
        edges.extend((length + hubs..length + hubs + leaves).map(|leaf| (hub, leaf)));
    }
    from_edges(length + hubs + leaves, &edges)
}

/// A path, a tree from its end to as many hubs as needed, and leaves that are each joined to `degree` hubs drawn at random, or
/// to fewer where one is drawn again. At most 625 hubs are within the limit.
pub fn bush(length: usize, leaves: usize, degree: usize, random: &mut Random) -> MeshLists {
    let most = LIMIT - 1;
    let hubs = (leaves * degree).div_ceil(most);
    let (first_hub, end) = (length + hubs.div_ceil(most), length - 1);
    let mut edges: Vec<_> = (0..end).map(|v| (v, v + 1)).collect();
    edges.extend((length..first_hub).map(|v| (end, v)));
    edges.extend((0..hubs).map(|hub| (length + hub / most, first_hub + hub)));
    let mut joined: Vec<usize> = (0..leaves * degree).map(|k| first_hub + k % hubs).collect();
    random.shuffle(&mut joined);
    let first_leaf = first_hub + hubs;
    edges.extend(joined.into_iter().enumerate().map(|(k, hub)| (hub, first_leaf + k / degree)));
    from_edges(first_leaf + leaves, &edges)
}

/// The meshes side by side.
pub fn side_by_side(meshes: &[MeshLists]) -> MeshLists {
    let (mut n, mut edges) = (0, Vec::new());
    for mesh in meshes {
        edges.extend(edges_of(mesh).into_iter().map(|(v, w)| (v + n, w + n)));
        n += mesh.n;
    }
    from_edges(n, &edges)
}

/// The mesh with its nodes numbered anew at random.
pub fn shuffled(mesh: &MeshLists, random: &mut Random) -> MeshLists {
    let mut number: Vec<usize> = (0..mesh.n).collect();
    random.shuffle(&mut number);
    from_edges(mesh.n, &edges_of(mesh).iter().map(|(v, w)| (number[*v], number[*w])).collect::<Vec<_>>())
}

/// A mesh of one of the kinds above within the limit, of at most about `size` nodes, half of the time with its nodes shuffled.
pub fn any(size: usize, random: &mut Random) -> MeshLists {
    let n = 1 + random.below(size);
    let width = 1 + random.below((n as f64).sqrt() as usize + 1);
    let height = (n / width).max(1);
    let mesh = match random.below(14) {
        0 => path(n),
        1 => ring(n),
        2 => star(n.min(LIMIT + 1)),
        3 => clique(n.min(LIMIT + 1)),
        4 => tree(n, n, random),
        5 => tree(n, 4, random),
        6 => grid(width, height, random.below(2) == 0),
        7 => plate_with_holes(width, height, 3, random),
        8 => random_graph(n, n * (1 + random.below(4)), random),
        9 => broom(1 + n / 2, (n / 3).min(LIMIT - 1), 1 + random.below(3)),
        10 => full_tree(n),
        11 => random_graph(n, n * (4 + random.below(20)), random),
        12 => bush(1 + n / 4, n / 3 + 1, 1 + random.below(4), random),
        _ => side_by_side(&[
            path(n / 3 + 1),
            grid(width, (height / 3).max(1), true),
            random_graph(n / 3 + 1, n / 3, random),
        ]),
    };
    if random.below(2) == 0 {
        mesh
    } else {
        shuffled(&mesh, random)
    }
}
