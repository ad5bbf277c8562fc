//! The rows of a column by paths, for any order of a mesh's nodes: no planner, but the rule that every layout keeps.

use plain::MeshLists;

/// The later positions at the end of a path from position j whose nodes between are all earlier than j.
pub fn reached_through_earlier(mesh: &MeshLists, order: &[u16], positions: &[u16], j: usize) -> Vec<u16> {
    let mut reached = vec![false; mesh.n];
    reached[j] = true;
    let mut pending = vec![j];
    while let Some(at) = pending.pop() {
        for &w in mesh.list(order[at] as usize) {
            let next = positions[w as usize] as usize;
            if !reached[next] {
                reached[next] = true;
                if next < j {
                    pending.push(next);
                }
            }
        }
    }
    (j + 1..mesh.n).filter(|i| reached[*i]).map(|i| i as u16).collect()
}
