//! Meshes that the library makes, of a text or of two meshes: the buffers that are lent for them, between guard words, and what
//! is expected of the answers.

use crate::guarded::Guarded;
use ndplan::ffi::NdpMesh;
use ndplan::{MeshBuffers, MeshCounts, OwnedMesh, Refusal};
use plain::MeshLists;

/// What is expected: a mesh, or the number of a refusal.
pub type Expected = Result<MeshLists, u32>;

/// The lengths of the starts and the neighbours.
pub type Room = (usize, usize);

/// Room for every mesh.
pub const AMPLE: Room = (4097 + 5, 65536 + 3);

/// Room for exactly this mesh.
pub fn room_of(mesh: &MeshLists) -> Room {
    (mesh.n + 1, mesh.neighbours.len())
}

/// The two lent results.
pub struct LentMesh {
    pub starts: Guarded<u32>,
    pub neighbours: Guarded<u16>,
}

impl LentMesh {
    pub fn of(room: Room) -> LentMesh {
        LentMesh { starts: Guarded::room(room.0), neighbours: Guarded::room(room.1) }
    }

    pub fn buffers(&mut self) -> MeshBuffers<'_> {
        MeshBuffers { starts: self.starts.lent(), neighbours: self.neighbours.lent() }
    }

    /// Both hold the expected mesh at their fronts, or on a refusal nothing but what they held.
    pub fn check(&self, expected: &Expected) {
        let (front, list): (&[u32], &[u16]) = match expected {
            Ok(mesh) => (&mesh.starts, &mesh.neighbours),
            Err(_) => (&[], &[]),
        };
        self.starts.check(front, "starts");
        self.neighbours.check(list, "neighbours");
    }
}

/// The wrapper's answer.
pub fn counts_of(expected: &Expected) -> Result<MeshCounts, Refusal> {
    match expected {
        Ok(mesh) => Ok(MeshCounts { nodes: mesh.n, entries: mesh.neighbours.len() }),
        Err(number) => Err(Refusal(*number)),
    }
}

/// The C interface's reply: on a refusal every other field is 0.
pub fn reply_of(expected: &Expected) -> NdpMesh {
    match expected {
        Ok(mesh) => NdpMesh { refusal: 0, nodes: mesh.n as u32, entries: mesh.neighbours.len() as u32 },
        Err(number) => NdpMesh { refusal: *number, nodes: 0, entries: 0 },
    }
}

/// An owned mesh holds what is expected, or was refused as expected. It has room enough, so 8 is not expected.
pub fn owned_expecting(owned: &Result<OwnedMesh, Refusal>, expected: &Expected) {
    match (owned, expected) {
        (Ok(owned), Ok(mesh)) => {
            let lists = owned.lists();
            assert_eq!(lists.nodes, mesh.n, "owned nodes");
            assert!(lists.starts == mesh.starts && lists.neighbours == mesh.neighbours, "owned lists");
        }
        _ => assert_eq!(owned.as_ref().err(), expected.as_ref().err().map(|number| Refusal(*number)).as_ref()),
    }
}
