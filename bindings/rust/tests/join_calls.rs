//! Calls of the joining, through the wrapper, the C interface and an owned mesh, on memory between guard words; the answer, both
//! buffers, both meshes and the pairs are compared with what is expected, and so is plain C's answer.

use crate::guarded::Guarded;
use crate::made_meshes::{counts_of, owned_expecting, reply_of, Expected, LentMesh, Room};
use ndplan::ffi::{self, NdpMesh};
use ndplan::{Mesh, OwnedMesh, Pairing};
use plain::MeshLists;

/// What is joined: two meshes, and a list of nodes of each for the pairs.
#[derive(Clone, Debug)]
pub struct Joining {
    pub meshes: [MeshLists; 2],
    pub pairs: [Vec<u16>; 2],
}

impl Joining {
    /// Two meshes, and pairs of a node of the first and a node of the second.
    pub fn new(first: &MeshLists, second: &MeshLists, pairs: &[(u16, u16)]) -> Joining {
        let lists = [pairs.iter().map(|pair| pair.0).collect(), pairs.iter().map(|pair| pair.1).collect()];
        Joining { meshes: [first.clone(), second.clone()], pairs: lists }
    }
}

/// Pairs of each node with the node of the same number.
pub fn node_by_node(n: usize) -> Vec<(u16, u16)> {
    (0..n as u16).map(|v| (v, v)).collect()
}

/// What is lent to be read, between guards.
struct Lent {
    nodes: [usize; 2],
    starts: [Guarded<u32>; 2],
    neighbours: [Guarded<u16>; 2],
    pairs: [Guarded<u16>; 2],
}

impl Lent {
    fn of(joining: &Joining) -> Lent {
        let meshes = joining.meshes.each_ref();
        Lent {
            nodes: meshes.map(|mesh| mesh.n),
            starts: meshes.map(|mesh| Guarded::holding(&mesh.starts)),
            neighbours: meshes.map(|mesh| Guarded::holding(&mesh.neighbours)),
            pairs: joining.pairs.each_ref().map(|list| Guarded::holding(list)),
        }
    }

    fn meshes(&self) -> [Mesh<'_>; 2] {
        [0, 1].map(|which| Mesh {
            nodes: self.nodes[which],
            starts: self.starts[which].shown(),
            neighbours: self.neighbours[which].shown(),
        })
    }

    fn pairing(&self) -> Pairing<'_> {
        Pairing { first: self.pairs[0].shown(), second: self.pairs[1].shown() }
    }

    fn raw_join(&mut self, made: &mut LentMesh) -> NdpMesh {
        // SAFETY: each pointer and length is that of a lent slice, and every slice is an allocation of its own.
        unsafe {
            ffi::ndp_join(
                self.nodes[0],
                self.starts[0].pointer(),
                self.starts[0].len(),
                self.neighbours[0].pointer(),
                self.neighbours[0].len(),
                self.nodes[1],
                self.starts[1].pointer(),
                self.starts[1].len(),
                self.neighbours[1].pointer(),
                self.neighbours[1].len(),
                self.pairs[0].pointer(),
                self.pairs[0].len(),
                self.pairs[1].pointer(),
                self.pairs[1].len(),
                made.starts.pointer(),
                made.starts.len(),
                made.neighbours.pointer(),
                made.neighbours.len(),
            )
        }
    }

    fn check(&self, joining: &Joining) {
        for (which, mesh) in joining.meshes.iter().enumerate() {
            self.starts[which].check(&mesh.starts, "lent starts");
            self.neighbours[which].check(&mesh.neighbours, "lent neighbours");
            self.pairs[which].check(&joining.pairs[which], "lent pairs");
        }
    }
}

/// Joins and compares the library and plain C with what is expected.
pub fn join_expecting(joining: &Joining, room: Room, expected: &Expected) {
    let (mut lent, mut made) = (Lent::of(joining), LentMesh::of(room));
    let [first, second] = lent.meshes();
    let answer = ndplan::join(&first, &second, &lent.pairing(), &mut made.buffers());
    assert_eq!(answer, counts_of(expected), "the wrapper's answer to {}", shown(joining));
    made.check(expected);
    if *expected != Err(8) {
        owned_expecting(&OwnedMesh::join(&first, &second, &lent.pairing()), expected);
    }

    let mut made = LentMesh::of(room);
    let reply = lent.raw_join(&mut made);
    assert_eq!(reply, reply_of(expected), "the C interface's reply to {}", shown(joining));
    made.check(expected);
    lent.check(joining);
    let ([first, second], [nodes, partners]) = (&joining.meshes, &joining.pairs);
    assert_eq!(plain::join(first, second, nodes, partners, room.0, room.1), *expected, "plain C's answer");
}

/// The beginning of what is joined, for messages.
fn shown(joining: &Joining) -> String {
    format!("{joining:?}").chars().take(800).collect()
}
