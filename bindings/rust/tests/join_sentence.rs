//! Joining word for word after document 02's sentence, for every two nodes of the joined mesh: slow, and written apart from both
//! the library and plain C.

use crate::join_calls::{join_expecting, Joining};
use crate::made_meshes::{Expected, Room};
use crate::meshes::{from_lists, lists_of};
use plain::MeshLists;

fn refuse(number: u32, fault: bool) -> Result<(), u32> {
    match fault {
        true => Err(number),
        false => Ok(()),
    }
}

/// The checks of a mesh.
fn check_mesh(mesh: &MeshLists) -> Result<(), u32> {
    let (n, starts, entries) = (mesh.n, &mesh.starts, mesh.neighbours.len());
    refuse(1, n == 0 || n > 4096)?;
    refuse(2, starts.len() != n + 1 || starts[0] != 0)?;
    refuse(2, starts.windows(2).any(|two| two[0] > two[1]) || starts[n] as usize != entries)?;
    refuse(3, entries > 65536)?;
    refuse(4, mesh.neighbours.iter().any(|w| *w as usize >= n))?;
    let lists = lists_of(mesh);
    refuse(5, (0..n).any(|v| lists[v].contains(&(v as u16))))?;
    refuse(6, lists.iter().any(|list| list.windows(2).any(|two| two[0] >= two[1])))?;
    refuse(26, lists.iter().any(|list| list.len() > 26))?;
    refuse(7, (0..n).any(|v| lists[v].iter().any(|w| !lists[*w as usize].contains(&(v as u16)))))
}

/// The checks of the pairs, between two meshes that are sound.
fn check_pairs(joining: &Joining) -> Result<(), u32> {
    let no_node = |which: usize| joining.pairs[which].iter().any(|v| *v as usize >= joining.meshes[which].n);
    refuse(32, joining.pairs[0].len() != joining.pairs[1].len() || no_node(0) || no_node(1))?;
    let twice = |list: &Vec<u16>| (0..list.len()).any(|k| list[..k].contains(&list[k]));
    refuse(33, joining.pairs.iter().any(twice))
}

/// For each node of the joined mesh, the node of the first mesh and the node of the second that it comes from.
fn origins(joining: &Joining) -> Vec<[Option<usize>; 2]> {
    let partner = |v: usize| {
        let pair = joining.pairs[0].iter().position(|node| *node as usize == v);
        pair.map(|k| joining.pairs[1][k] as usize)
    };
    let kept = (0..joining.meshes[0].n).map(|v| [Some(v), partner(v)]);
    let unpaired = (0..joining.meshes[1].n).filter(|w| !joining.pairs[1].contains(&(*w as u16)));
    kept.chain(unpaired.map(|w| [None, Some(w)])).collect()
}

/// Whether two nodes of the joined mesh are neighbours: in either mesh, the nodes they come from were.
fn neighbours(meshes: &[MeshLists; 2], a: &[Option<usize>; 2], b: &[Option<usize>; 2]) -> bool {
    (0..2).any(|which| match (a[which], b[which]) {
        (Some(v), Some(w)) => meshes[which].list(v).contains(&(w as u16)),
        _ => false,
    })
}

/// The joined mesh, or the first check that fails.
pub fn by_sentence(joining: &Joining, room: Room) -> Expected {
    joining.meshes.iter().try_for_each(check_mesh)?;
    check_pairs(joining)?;
    let origins = origins(joining);
    refuse(1, origins.len() > 4096)?;
    let list_of = |a: &[Option<usize>; 2]| -> Vec<u16> {
        let next_to = (0..origins.len()).filter(|b| neighbours(&joining.meshes, a, &origins[*b]));
        next_to.map(|b| b as u16).collect()
    };
    let lists: Vec<Vec<u16>> = origins.iter().map(list_of).collect();
    let mesh = from_lists(&lists);
    refuse(3, mesh.neighbours.len() > 65536)?;
    refuse(26, lists.iter().any(|list| list.len() > 26))?;
    refuse(8, room.0 < mesh.n + 1 || room.1 < mesh.neighbours.len())?;
    Ok(mesh)
}

/// Joins and compares with the sentence, whose answer is given back.
pub fn join(joining: &Joining, room: Room) -> Expected {
    let expected = by_sentence(joining, room);
    join_expecting(joining, room, &expected);
    expected
}
