//! Document 02's sentence on Matrix Market texts, clause by clause, with the answers of the reading taken where it leaves
//! room (docs/DECISIONS.md). The numbers and lists stand here by themselves, so that they do not depend on the plain reader.

use crate::made_meshes::AMPLE;
use crate::meshes::{from_edges, path};
use crate::texts::{read_expecting, Matrix, BANNER};
use plain::MeshLists;

fn refused(text: impl AsRef<[u8]>, number: u32) {
    read_expecting(text.as_ref(), AMPLE, &Err(number));
}

fn accepted(text: impl AsRef<[u8]>, mesh: &MeshLists) {
    read_expecting(text.as_ref(), AMPLE, &Ok(mesh.clone()));
}

/// Lines behind the banner.
fn behind_banner(lines: &str) -> String {
    format!("{BANNER}\n{lines}")
}

/// The path of three nodes, with a line in place of the banner.
fn with_first_line(line: &str) -> String {
    format!("{line}\n3 3 2\n2 1\n3 2\n")
}

#[test]
fn banner_words_in_any_letter_case() {
    for line in [BANNER.to_string(), BANNER.to_uppercase(), BANNER.to_lowercase()] {
        accepted(with_first_line(&line), &path(3));
    }
    accepted(with_first_line("%%mATRIXmARKET Matrix COORDINATE pattern sYmMeTrIc"), &path(3));
    accepted(with_first_line(&BANNER.replace(' ', "\t \t")), &path(3));
    accepted(with_first_line(&format!(" \t{BANNER}\t ")), &path(3));
}

/// One changed bit makes another byte, but where it changes a letter's case.
#[test]
fn banner_bits() {
    for (at, bit) in (0..BANNER.len()).flat_map(|at| (0..8).map(move |bit| (at, bit))) {
        let mut text = with_first_line(BANNER).into_bytes();
        let case = text[at].is_ascii_alphabetic() && bit == 5;
        text[at] ^= 1 << bit;
        read_expecting(&text, AMPLE, &if case { Ok(path(3)) } else { Err(23) });
    }
}

#[test]
fn first_lines_of_other_kinds() {
    let words: Vec<&str> = BANNER.split(' ').collect();
    for (at, other) in
        [(0, "%MatrixMarket"), (0, "MatrixMarket"), (1, "vector"), (2, "array"), (3, "real"), (4, "general")]
    {
        let mut words = words.clone();
        words[at] = other;
        refused(with_first_line(&words.join(" ")), 23);
    }
    for at in 0..5 {
        let mut words = words.clone();
        words.remove(at);
        refused(with_first_line(&words.join(" ")), 23);
    }
    for line in ["", " ", "% a comment", "%% MatrixMarket matrix coordinate pattern symmetric"] {
        refused(with_first_line(line), 23);
        refused(format!("{line}\n{}", with_first_line(BANNER)), 23);
    }
    for line in [format!("{BANNER} x"), format!("{BANNER}x"), format!("{BANNER} 3 3 2"), BANNER.replace(' ', "")] {
        refused(with_first_line(&line), 23);
    }
    refused("", 23);
    refused(BANNER, 23);
    refused(behind_banner(""), 23);
}

#[test]
fn comments_before_the_size_line() {
    for comment in ["%", "% a", "%%", " \t% a", "%3 3 2", "%\r", "% \r a", "\n%\n\n \n%"] {
        accepted(behind_banner(&format!("{comment}\n3 3 2\n2 1\n3 2")), &path(3));
        refused(behind_banner(&format!("3 3 2\n{comment}\n2 1\n3 2")), 23);
        refused(behind_banner(&format!("3 3 2\n2 1\n3 2\n{comment}")), 23);
    }
    refused(behind_banner("% 3 3 2"), 23);
    refused(behind_banner("3 3 2 % a\n2 1\n3 2"), 23);
    refused(behind_banner("x % a\n3 3 2\n2 1\n3 2"), 23);
}

#[test]
fn blank_lines_behind_the_first() {
    for blank in ["\n", " \n", "\t\t \n", "\r\n", " \r\n", "\n\n\n"] {
        accepted(behind_banner(&format!("{blank}3 3 2\n{blank}2 1\n{blank}3 2\n{blank}")), &path(3));
    }
    for other in ["\x0b", "\x0c", "\0", "\r", "\u{a0}", "\u{feff}"] {
        refused(behind_banner(&format!("{other}\n3 3 2\n2 1\n3 2")).replace("\r\n", "\r \n"), 23);
    }
}

#[test]
fn ends_of_lines() {
    let lines = with_first_line(BANNER);
    accepted(lines.replace('\n', "\r\n"), &path(3));
    accepted(lines.replace('\n', " \t\r\n \t"), &path(3));
    accepted(lines.trim_end(), &path(3));
    accepted(format!("{} \t", lines.trim_end()), &path(3));
    refused(format!("{}\r", lines.trim_end()), 23);
    refused(format!("{lines}\r"), 23);
    refused(lines.replace('\n', "\r\r\n"), 23);
    refused(lines.replace('\n', "\r"), 23);
    for at in (0..lines.len()).filter(|at| lines.as_bytes()[*at] != b'\n') {
        refused([&lines[..at], "\r", &lines[at..]].concat(), 23);
    }
}

#[test]
fn size_lines() {
    for line in ["3 3", "3 3 2 0", "3", "3 3 x", "3 3 -2", "3,3,2", "+3 3 2", "3 3 2.0", "3 3 0x2"] {
        refused(behind_banner(&format!("{line}\n2 1\n3 2\n")), 23);
    }
    refused(behind_banner("3 3\n2\n2 1\n3 2\n"), 23);
    for stated in ["0", "1", "3", "4294967294", "4294967295", "4294967296", "4294967298", "18446744073709551618"] {
        refused(behind_banner(&format!("3 3 {stated}\n2 1\n3 2\n")), 23);
    }
}

#[test]
fn numbers_are_digits_of_32_bits() {
    let zeros = "0".repeat(300);
    accepted(behind_banner(&format!("{zeros}3 03 0002\n{zeros}2 01\n3 {zeros}2")), &path(3));
    for wide in ["4294967296", "4294967298", "18446744073709551618", "340282366920938463463374607431768211458"] {
        refused(behind_banner(&format!("{wide} {wide} 0")), 23);
        refused(behind_banner(&format!("3 3 2\n{wide} 1\n3 2")), 23);
        refused(behind_banner(&format!("3 3 2\n2 1\n3 {wide}")), 23);
        refused(behind_banner(&format!("3 3 2\n2 1\n3 {zeros}{wide}")), 23);
    }
    for word in ["+2", "-2", "2.", "2e0", "two", "2\x0c", "2/", "2:", "\u{665}", "٢", "2,", "2\0"] {
        refused(behind_banner(&format!("3 3 2\n{word} 1\n3 2")), 23);
        refused(behind_banner(&format!("3 3 2\n2 1\n3 {word}")), 23);
    }
    refused(behind_banner("3 3 2\n4294967295 1\n3 2"), 24);
    refused(behind_banner("4294967295 4294967295 0"), 1);
    refused(behind_banner("4294967295 4294967295 1\n4294967295 4294967295"), 1);
}

#[test]
fn pairs_one_to_a_line() {
    for lines in ["2 1 3 2", "2\n1\n3 2", "2 1\n3 2 1", "2 1\n3", "2 1\n", "2 1\n3 2\n3 1", "2 1\n3 2\n0"] {
        refused(behind_banner(&format!("3 3 2\n{lines}")), 23);
    }
}

#[test]
fn squares_and_indices() {
    for size in ["3 4", "4 3", "0 4", "4 0", "3 4294967295"] {
        refused(behind_banner(&format!("{size} 0")), 24);
        refused(behind_banner(&format!("{size} 1\n1 1")), 24);
    }
    for pair in ["0 0", "1 0", "3 0", "4 1", "4 4", "1 2", "2 3", "0 1", "4294967295 3", "65538 1"] {
        refused(behind_banner(&format!("3 3 2\n2 1\n{pair}")), 24);
        refused(behind_banner(&format!("3 3 2\n{pair}\n2 1")), 24);
    }
    refused(behind_banner("0 0 1\n1 1"), 24);
    refused(behind_banner("0 0 1\n0 0"), 24);
}

#[test]
fn pairs_given_again() {
    for lines in ["2 1\n2 1", "2 1\n3 2\n2 1", "1 1\n1 1", "3 3\n2 1\n3 3", "2 1\n02 1"] {
        refused(behind_banner(&format!("3 3 {}\n{lines}", lines.lines().count())), 25);
    }
    refused(behind_banner("1 1 2\n1 1\n1 1"), 25);
}

#[test]
fn lists_of_the_pairs() {
    let edges = [(3, 0), (4, 1), (4, 0), (2, 1), (3, 2)];
    let mesh = from_edges(5, &edges);
    assert_eq!(mesh.starts, [0, 2, 4, 6, 8, 10]);
    assert_eq!(mesh.neighbours, [3, 4, 2, 4, 1, 3, 0, 2, 0, 1]);
    let pairs: Vec<(u64, u64)> = edges.iter().map(|(v, w)| (*v as u64 + 1, *w as u64 + 1)).collect();
    for turn in 0..5 {
        let mut pairs = pairs.clone();
        pairs.rotate_left(turn);
        accepted(Matrix::new(5, pairs.clone()).text(), &mesh);
        pairs.reverse();
        pairs.insert(turn, (3, 3));
        pairs.push((5, 5));
        accepted(Matrix::new(5, pairs).text(), &mesh);
    }
    accepted(behind_banner("2 2 0"), &from_edges(2, &[]));
    accepted(behind_banner("1 1 1\n1 1"), &from_edges(1, &[]));
    accepted(behind_banner("4096 4096 1\n4096 1"), &from_edges(4096, &[(0, 4095)]));
}

/// 23, 24, 25, 1, 3, 8: each over the whole text before the next.
#[test]
fn order_of_the_checks() {
    refused(behind_banner("3 4 3\n1 2\n1 2\n9 x"), 23);
    refused(behind_banner("3 3 3\n2 1\n2 1\n9 1"), 24);
    refused(behind_banner("3 3 3\n9 1\n2 1\n3 2\n3 1"), 23);
    refused(behind_banner("5000 5000 3\n2 1\n3 1\n2 1"), 25);
    refused(behind_banner("5000 5000 2\n2 1\n5001 1"), 24);
    refused(behind_banner("0 0 0"), 1);
    refused(behind_banner("4097 4097 0"), 1);
    refused(behind_banner("65537 65537 1\n1 1"), 1);
    for (lines, number) in [("3 3 2\n2 1\n2 1", 25), ("4097 4097 0", 1), ("3 4 0", 24), ("3 3", 23), ("3 3 0", 8)] {
        read_expecting(behind_banner(lines).as_bytes(), (0, 0), &Err(number));
    }
}

/// Both buffers are needed whole: one start more than nodes, two entries for each pair that is not diagonal.
#[test]
fn short_buffers() {
    let text = behind_banner("3 3 4\n2 1\n2 2\n3 2\n1 1");
    for room in [(4, 4), (5, 4), (4, 5), (9, 9)] {
        read_expecting(text.as_bytes(), room, &Ok(path(3)));
    }
    for room in [(3, 4), (4, 3), (0, 4), (4, 0), (0, 0), (3, 9), (9, 3)] {
        read_expecting(text.as_bytes(), room, &Err(8));
    }
}

/// The sample text is the sample mesh.
#[test]
fn sample() {
    let samples = concat!(env!("CARGO_MANIFEST_DIR"), "/../../samples");
    let bytes = std::fs::read(format!("{samples}/foot.mesh")).unwrap();
    let n = u16::from_le_bytes([bytes[0], bytes[1]]) as usize;
    let (starts, neighbours) = bytes[2..].split_at(4 * (n + 1));
    let starts: Vec<u32> = starts.chunks(4).map(|word| u32::from_le_bytes(word.try_into().unwrap())).collect();
    let neighbours: Vec<u16> = neighbours.chunks(2).map(|word| u16::from_le_bytes([word[0], word[1]])).collect();
    accepted(std::fs::read(format!("{samples}/foot.mtx")).unwrap(), &MeshLists { n, starts, neighbours });
}
