//! The rule for uncut parts, which every plan of a mesh keeps: document 02, E2, "an uncut part is always a set of nodes
//! that are all next to one another". No planner: it looks at the lists that were handed out.

use plain::{MeshLists, Planned};

fn next_to_one_another(mesh: &MeshLists, nodes: &[u16]) -> bool {
    let joined = |v: &u16, w: &u16| v == w || mesh.list(*v as usize).contains(w);
    nodes.iter().all(|v| nodes.iter().all(|w| joined(v, w)))
}

/// The first uncut part that is no clique. A part that is no part's parent is uncut.
pub fn uncut_not_clique(mesh: &MeshLists, planned: &Planned) -> Option<usize> {
    let mut rest = &planned.order[..];
    for (part, size) in planned.sizes.iter().enumerate() {
        let (nodes, behind) = rest.split_at(*size as usize);
        rest = behind;
        let cut = planned.parents.contains(&(part as u16));
        if !cut && !next_to_one_another(mesh, nodes) {
            return Some(part);
        }
    }
    None
}

/// Plans that keep the rule and plans that break it, of the path 0-1-2-3-4; only uncut parts are looked at.
#[test]
fn broken_rule_is_found() {
    let path = crate::meshes::path(5);
    let found = |order: &[u16], sizes: &[u16], parents: &[u16]| {
        let lists = (order.to_vec(), sizes.to_vec(), parents.to_vec());
        let planned = Planned { order: lists.0, sizes: lists.1, parents: lists.2, ..Planned::default() };
        uncut_not_clique(&path, &planned)
    };
    assert_eq!(found(&[0, 1, 3, 4, 2], &[2, 2, 1], &[2, 2, 65535]), None);
    assert_eq!(found(&[0, 2, 4, 1, 3], &[1, 1, 1, 2], &[3, 3, 3, 65535]), None);
    assert_eq!(found(&[0, 1, 2, 3, 4], &[5], &[65535]), Some(0));
    assert_eq!(found(&[0, 1, 3, 4, 2], &[2, 3], &[1, 65535]), None);
    assert_eq!(found(&[0, 1, 3, 4, 2], &[2, 3], &[65535, 65535]), Some(1));
    assert_eq!(found(&[0, 1, 4, 3, 2], &[1, 2, 2], &[2, 2, 65535]), Some(1));
}
