//! Matrix Market texts: matrices in one spelling or in any, and the calls that read them. Each call is made through the
//! wrapper, the C interface and an owned mesh, on memory between guard words.

use crate::guarded::Guarded;
use crate::made_meshes::{counts_of, owned_expecting, reply_of, Expected, LentMesh, Room};
use crate::meshes::edges_of;
use crate::random::Random;
use ndplan::{ffi, OwnedMesh};
use plain::MeshLists;

pub const BANNER: &str = "%%MatrixMarket matrix coordinate pattern symmetric";

/// What a text says: the size line and the pairs, row before column, counted from 1.
#[derive(Clone, Debug)]
pub struct Matrix {
    pub rows: u64,
    pub columns: u64,
    pub stated: u64,
    pub pairs: Vec<(u64, u64)>,
}

impl Matrix {
    /// A square matrix with these pairs.
    pub fn new(n: u64, pairs: Vec<(u64, u64)>) -> Matrix {
        Matrix { rows: n, columns: n, stated: pairs.len() as u64, pairs }
    }

    /// The matrix of a mesh, column by column.
    pub fn of(mesh: &MeshLists) -> Matrix {
        let pairs = edges_of(mesh).into_iter().map(|(v, w)| (w as u64 + 1, v as u64 + 1)).collect();
        Matrix::new(mesh.n as u64, pairs)
    }

    /// The text with single spaces and line feeds.
    pub fn text(&self) -> Vec<u8> {
        let mut text = format!("{BANNER}\n{} {} {}\n", self.rows, self.columns, self.stated);
        for (row, column) in &self.pairs {
            text += &format!("{row} {column}\n");
        }
        text.into_bytes()
    }

    /// The text in any of the allowed spellings.
    pub fn spelt(&self, random: &mut Random) -> Vec<u8> {
        let banner: Vec<String> = BANNER.split(' ').map(|word| any_case(word, random)).collect();
        let mut text = line(&banner, random);
        for _ in 0..random.below(3) {
            text += &(blanks(0, random) + "%" + random.pick(&["", " a comment", "%", "7 7 7", "\t\r x", "é"]) + "\n");
            text += random.pick(&["", "", "\n", " \r\n"]);
        }
        let numbers =
            |list: &[u64], random: &mut Random| list.iter().map(|x| any_zeros(*x, random)).collect::<Vec<_>>();
        text += &line(&numbers(&[self.rows, self.columns, self.stated], random), random);
        for (row, column) in &self.pairs {
            text += &line(&numbers(&[*row, *column], random), random);
        }
        if random.below(3) == 0 {
            text.truncate(text.trim_end_matches([' ', '\t', '\r', '\n']).len());
        }
        text.into_bytes()
    }
}

/// Words with blanks between them and at both ends, a line's end, and blank lines or none.
fn line(words: &[String], random: &mut Random) -> String {
    let mut line = blanks(0, random);
    for (k, word) in words.iter().enumerate() {
        line += &blanks((k > 0).into(), random);
        line += word;
    }
    line + &blanks(0, random) + random.pick(&["\n", "\n", "\n", "\r\n", "\r\n", "\n\n", "\n \t\n", "\r\n\r\n"])
}

/// At least so many spaces or tabs.
fn blanks(least: usize, random: &mut Random) -> String {
    let more = random.pick(&[0, 0, 0, 1, 2]);
    (0..least + more).map(|_| random.pick(&[' ', ' ', '\t'])).collect()
}

fn any_case(word: &str, random: &mut Random) -> String {
    let either = |letter: char, random: &mut Random| match random.below(2) {
        0 => letter.to_ascii_uppercase(),
        _ => letter.to_ascii_lowercase(),
    };
    word.chars().map(|letter| either(letter, random)).collect()
}

fn any_zeros(number: u64, random: &mut Random) -> String {
    "0".repeat(random.pick(&[0, 0, 0, 1, 2, 25])) + &number.to_string()
}

/// Reads a text and compares with the plain reader, whose answer is given back.
pub fn read(text: &[u8], room: Room) -> Expected {
    let expected = plain::matrix_market(text, room.0, room.1);
    read_expecting(text, room, &expected);
    expected
}

/// Reads a text and compares.
pub fn read_expecting(text: &[u8], room: Room, expected: &Expected) {
    let mut bytes = Guarded::holding(text);
    let mut lent = LentMesh::of(room);
    let answer = ndplan::read_matrix_market(bytes.shown(), &mut lent.buffers());
    assert_eq!(answer, counts_of(expected), "the wrapper's answer to {}", shown(text));
    lent.check(expected);

    let mut lent = LentMesh::of(room);
    // SAFETY: each pointer and length is that of a lent slice, and every slice is an allocation of its own.
    let reply = unsafe {
        ffi::ndp_matrix_market(
            bytes.pointer(),
            bytes.len(),
            lent.starts.pointer(),
            lent.starts.len(),
            lent.neighbours.pointer(),
            lent.neighbours.len(),
        )
    };
    assert_eq!(reply, reply_of(expected), "the C interface's reply to {}", shown(text));
    lent.check(expected);
    bytes.check(text, "the text");
    if *expected != Err(8) {
        owned_expecting(&OwnedMesh::read_matrix_market(text), expected);
    }
}

/// The beginning of a text, for messages.
fn shown(text: &[u8]) -> String {
    format!("{:?}", String::from_utf8_lossy(&text[..text.len().min(400)]))
}
