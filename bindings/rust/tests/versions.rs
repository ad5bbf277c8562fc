//! The versions of the file and the unknowns for each node: which numbers are taken, which check comes first, who reads
//! which version, and what is written. The numbers of refusals stand here by themselves, but for damaged version 1 files,
//! whose answers are those of the reader that knows no other version.

use crate::calls::{self, ample_room, exact_room, longer_room, owned_expecting, plan_expecting, read_expecting};
use crate::calls::{write_expecting, NO_UNKNOWNS};
use crate::damaged_files::small_plans;
use crate::files::{file, file_of, parts_of};
use crate::meshes;
use crate::random::Random;
use crate::worked::{mesh_4, MESH_4_FILE};
use ndplan::{Plan, Refusal};
use plain::{FileParts, MeshLists, Planned, Room};

/// No buffer has an entry.
const NO_ROOM: Room = Room { order: 0, positions: 0, sizes: 0, parents: 0, column_starts: 0, rows: 0 };

/// Mesh 4's file of version 1.
const MESH_4_FILE_1: [u8; 59] = [
    78, 68, 80, 1, 0, 5, 0, 0, 0, 3, 0, 0, 0, 5, 0, 0, 0, 0, 0, 1, 0, 3, 0, 4, 0, 2, 0, 2, 0, 2, 0, 2, 0, 2, 0, 1, 0,
    255, 255, 1, 0, 1, 0, 2, 0, 1, 0, 0, 0, 1, 0, 4, 0, 3, 0, 4, 0, 4, 0,
];

/// The file with other bytes from `at` on.
fn changed(file: &[u8], at: usize, bytes: &[u8]) -> Vec<u8> {
    let mut file = file.to_vec();
    file[at..at + bytes.len()].copy_from_slice(bytes);
    file
}

/// The file with one byte changed, each time another: every byte from `first` on, some bits and some values.
fn with_byte_changed(file: &[u8], first: usize) -> Vec<Vec<u8>> {
    let values = |old: u8| [old ^ 1, old ^ 2, old ^ 128, old.wrapping_add(1), old.wrapping_sub(1), 0, 7, 255];
    (first..file.len()).flat_map(|at| values(file[at]).map(|new| changed(file, at, &[new]))).collect()
}

/// Room that every file of a plan's length, or a little longer, fits in.
fn room_for(plan: &Planned) -> Room {
    longer_room(plan.order.len() + 300, plan.rows.len() + 300)
}

/// Lists, slots and multiplications are the same for every number of unknowns.
#[test]
fn unknowns_change_nothing_else_in_a_plan() {
    let mut random = Random(60);
    for round in 0..60 {
        let mesh = meshes::any(1 + round, &mut random);
        let one = calls::plan(1, &mesh, &ample_room(mesh.n)).unwrap();
        assert_eq!(one.unknowns, 1);
        for unknowns in 1..=6 {
            plan_expecting(unknowns, &mesh, &ample_room(mesh.n), &Ok(Planned { unknowns, ..one.clone() }));
        }
    }
}

/// 28 comes before every other check of planning.
#[test]
fn planning_looks_at_the_unknowns_first() {
    let sound = meshes::path(5);
    let lists = |n: usize, lists: &[Vec<u16>]| MeshLists { n, ..meshes::from_lists(lists) };
    let one_sided = lists(2, &[vec![1], vec![]]);
    let faulty = [
        (lists(0, &[]), 1),
        (lists(4097, &[]), 1),
        (lists(3, &[vec![1], vec![0]]), 2),
        (lists(2, &[vec![5, 0], vec![]]), 4),
        (lists(2, &[vec![0], vec![]]), 5),
        (lists(3, &[vec![2, 1], vec![0], vec![0]]), 6),
        (meshes::star(28), 26),
        (one_sided, 7),
        (sound.clone(), 8),
    ];
    for unknowns in NO_UNKNOWNS {
        for (mesh, _) in &faulty {
            plan_expecting(unknowns, mesh, &NO_ROOM, &Err(28));
        }
        plan_expecting(unknowns, &sound, &Room { rows: 4, ..exact_room(5, 5) }, &Err(28));
        plan_expecting(unknowns, &sound, &ample_room(5), &Err(28));
        let mesh = ndplan::Mesh { nodes: 5, starts: &sound.starts, neighbours: &sound.neighbours };
        assert_eq!(Plan::of(unknowns, &mesh), Err(Refusal(28)));
    }
    for unknowns in [1, 6] {
        for (mesh, number) in &faulty {
            plan_expecting(unknowns, mesh, &NO_ROOM, &Err(*number));
        }
    }
}

/// The unknowns stand at bytes 5 and 6, and nothing else in the file depends on them.
#[test]
fn unknowns_are_written_at_their_bytes() {
    for unknowns in 1..=6 {
        let written = changed(&MESH_4_FILE, 5, &[unknowns as u8, 0]);
        let plan = Planned { unknowns, ..mesh_4() };
        write_expecting(&parts_of(&plan), 64, &Ok(written.clone()));
        read_expecting(&written, &exact_room(5, 5), &Ok(plan));
    }
}

/// 28 comes before every other check of writing, also where a list is too short.
#[test]
fn writing_looks_at_the_unknowns_first() {
    let sound = parts_of(&mesh_4());
    let faulty = [
        (FileParts { n: 0, ..sound.clone() }, 13),
        (FileParts { p: 6, ..sound.clone() }, 13),
        (FileParts { s: 11, ..sound.clone() }, 13),
        (FileParts { order: vec![], ..sound.clone() }, 13),
        (FileParts { sizes: vec![2, 2], ..sound.clone() }, 13),
        (FileParts { parents: vec![2, 2], ..sound.clone() }, 13),
        (FileParts { column_starts: vec![0; 5], ..sound.clone() }, 13),
        (FileParts { rows: vec![1, 4, 3, 4], ..sound.clone() }, 13),
        (FileParts { order: vec![0; 5], ..sound.clone() }, 15),
        (FileParts { sizes: vec![0, 4, 1], ..sound.clone() }, 16),
        (FileParts { rows: vec![0; 5], ..sound.clone() }, 17),
        (FileParts { rows: vec![2, 4, 3, 4, 4], ..sound.clone() }, 18),
        (FileParts { column_starts: vec![0, 1, 2, 4, 4, 4], s: 4, ..sound.clone() }, 19),
    ];
    for unknowns in NO_UNKNOWNS {
        for plan in faulty.iter().map(|fault| &fault.0).chain([&sound]) {
            write_expecting(&FileParts { unknowns, ..plan.clone() }, 0, &Err(28));
            write_expecting(&FileParts { unknowns, ..plan.clone() }, 64, &Err(28));
        }
    }
    for (plan, number) in faulty {
        write_expecting(&FileParts { unknowns: 6, ..plan }, 0, &Err(number));
    }
    write_expecting(&FileParts { unknowns: 6, ..sound }, 60, &Err(8));
}

/// Every number of 16 bits as the unknowns of a file.
#[test]
fn every_number_of_unknowns_in_a_file() {
    for number in 0..=65535u16 {
        let file = changed(&MESH_4_FILE, 5, &number.to_le_bytes());
        let unknowns = number as usize;
        let expected = if (1..=6).contains(&number) { Ok(Planned { unknowns, ..mesh_4() }) } else { Err(28) };
        read_expecting(&file, &exact_room(5, 5), &expected);
        owned_expecting(&Plan::read(&file), &expected);
    }
}

/// Every number of 16 bits as the version of a file, on whole files of both versions and on their first bytes.
#[test]
fn every_version() {
    for version in (0..=65535u16).filter(|version| ![1, 2].contains(version)) {
        for file in [&MESH_4_FILE[..], &MESH_4_FILE_1, &MESH_4_FILE[..18], &MESH_4_FILE_1[..17]] {
            let other = changed(file, 3, &version.to_le_bytes());
            read_expecting(&other, &exact_room(5, 5), &Err(12));
        }
        let short = changed(&MESH_4_FILE[..16], 3, &version.to_le_bytes());
        read_expecting(&short, &exact_room(5, 5), &Err(10));
    }
}

/// Files of up to 19 bytes and a little more: 10 for fewer than 17 bytes, and after the version for fewer than 19 in version 2.
#[test]
fn short_files() {
    let refused = |file: &[u8], number| read_expecting(file, &exact_room(5, 5), &Err(number));
    let zeros = |version| file(version, 0, [0, 0, 0], &[0; 4]);
    let one = file(2, 1, [0, 0, 0], &[0; 4]);
    for length in 0..17 {
        for file in [zeros(0), zeros(1), zeros(2), zeros(3), vec![0; 25]] {
            refused(&file[..length], 10);
        }
    }
    for length in 17..25 {
        refused(&vec![0; length], 11);
        refused(&changed(&zeros(2), 1, b"d")[..length], 11);
        refused(&zeros(0)[..length], 12);
        refused(&zeros(3)[..length], 12);
        refused(&zeros(1)[..length], 13);
        refused(&zeros(2)[..length], if length < 19 { 10 } else { 28 });
        refused(&one[..length], if length < 19 { 10 } else { 13 });
        refused(&MESH_4_FILE_1[..length], 14);
        refused(&MESH_4_FILE[..length], if length < 19 { 10 } else { 14 });
    }
}

/// In a version 2 file 28 comes before 13, 14 and every later check.
#[test]
fn reading_looks_at_the_unknowns_before_the_counts() {
    let without = changed(&MESH_4_FILE, 5, &[7, 0]);
    let faulty = [
        (7, [0, 0], 13),
        (7, [1, 16], 13),
        (11, [6, 0], 13),
        (15, [11, 0], 13),
        (11, [2, 0], 14),
        (19, [1, 0], 15),
        (29, [0, 0], 16),
        (51, [0, 0], 17),
        (51, [2, 0], 18),
    ];
    for (at, bytes, number) in faulty {
        read_expecting(&changed(&without, at, &bytes), &exact_room(5, 5), &Err(28));
        read_expecting(&changed(&MESH_4_FILE, at, &bytes), &exact_room(5, 5), &Err(number));
    }
    for length in [19, 60] {
        read_expecting(&without[..length], &exact_room(5, 5), &Err(28));
        read_expecting(&MESH_4_FILE[..length], &exact_room(5, 5), &Err(14));
    }
    read_expecting(&without, &NO_ROOM, &Err(28));
    read_expecting(&MESH_4_FILE, &NO_ROOM, &Err(8));
}

/// A file of the one version told to be of the other. Its counts are then made of two fields each, so n is above 65,535; and
/// where a version 1 file is told to be of version 2, its n stands for the unknowns.
#[test]
fn exchanged_versions() {
    let mut random = Random(61);
    let mut met = [0; 2];
    for plan in small_plans(80, 14, &mut random) {
        let room = room_for(&plan);
        let older = changed(&file_of(2, &parts_of(&plan)), 3, &[1, 0]);
        read_expecting(&older, &room, &Err(13));
        let newer = changed(&file_of(1, &parts_of(&plan)), 3, &[2, 0]);
        let many = plan.order.len() > 6;
        read_expecting(&newer, &room, &Err(if many { 28 } else { 13 }));
        met[usize::from(many)] += 1;
    }
    assert!(met.iter().all(|count| *count > 5), "{met:?}");
}

/// The workshop that never updates answers 12 to every version 2 file of 17 bytes or more: to what is written, to its first
/// bytes, to more bytes, and where any byte behind the version is damaged.
#[test]
fn the_old_reader_refuses_version_2() {
    let mut random = Random(62);
    let mut files = 0;
    for plan in small_plans(40, 12, &mut random) {
        let (parts, room) = (parts_of(&plan), room_for(&plan));
        let written = calls::write(&parts, file_of(2, &parts).len()).unwrap();
        let longer = [&written[..], &[0; 4]].concat();
        let mut newer: Vec<Vec<u8>> = (17..longer.len()).map(|length| longer[..length].to_vec()).collect();
        newer.extend(with_byte_changed(&written, 5));
        for file in &newer {
            assert_eq!(plain::read_version_1(file, &room), Err(12), "{file:?}");
            assert_eq!(plain::read_version_1(file, &NO_ROOM), Err(12), "{file:?}");
        }
        assert_eq!(plain::read_version_1(&written[..16], &room), Err(10));
        files += newer.len();
    }
    assert!(files > 10000, "{files}");
}

/// To a version 1 file the answer is that of a reader that knows no other version, with one unknown: sound files, every
/// length, every byte changed but the version's.
#[test]
fn version_1_files_are_read_as_by_the_old_reader() {
    let mut random = Random(63);
    let mut accepted = 0;
    for plan in small_plans(40, 12, &mut random) {
        let (sound, one) = (file_of(1, &parts_of(&plan)), Ok(Planned { unknowns: 1, ..plan.clone() }));
        let longer = [&sound[..], &[0; 4]].concat();
        let mut files: Vec<Vec<u8>> = (0..=longer.len()).map(|length| longer[..length].to_vec()).collect();
        files.extend(with_byte_changed(&sound, 0).into_iter().filter(|file| file[3..5] == [1, 0]));
        for file in &files {
            let expected = plain::read_version_1(file, &room_for(&plan));
            read_expecting(file, &room_for(&plan), &expected);
            owned_expecting(&Plan::read(file), &expected);
            accepted += usize::from(expected.is_ok());
        }
        assert_eq!(plain::read_version_1(&sound, &room_for(&plan)), one);
        for short in [NO_ROOM, Room { rows: plan.rows.len().saturating_sub(1), ..room_for(&plan) }] {
            read_expecting(&sound, &short, &plain::read_version_1(&sound, &short));
        }
    }
    assert!(accepted > 82, "{accepted}");
}

/// A version 1 file is read, written with 2 bytes more, and read again as the same plan, of one unknown for each node.
#[test]
fn a_version_1_file_comes_back_as_the_same_plan() {
    let plan = Plan::read(&MESH_4_FILE_1).unwrap();
    owned_expecting(&Ok(plan.clone()), &Ok(mesh_4()));
    assert_eq!(plan.write(), Ok(MESH_4_FILE.to_vec()));
    assert_eq!(Plan::read(&MESH_4_FILE), Ok(plan));
    let mut random = Random(64);
    for planned in small_plans(200, 60, &mut random) {
        let older = file_of(1, &parts_of(&planned));
        let read = calls::read(&older, &room_for(&planned)).unwrap();
        assert_eq!(read, Planned { unknowns: 1, ..planned });
        let newer = calls::write(&parts_of(&read), older.len() + 2).unwrap();
        assert_eq!(newer, [&b"NDP\x02\0\x01\0"[..], &older[5..]].concat());
        read_expecting(&newer, &room_for(&read), &Ok(read.clone()));
        assert_eq!(plain::read_version_1(&newer, &room_for(&read)), Err(12));
    }
}

/// Every version 2 file that is accepted is written back byte for byte, also where a byte was changed.
#[test]
fn a_version_2_file_is_written_back() {
    let mut random = Random(65);
    let mut accepted = 0;
    for planned in small_plans(60, 10, &mut random) {
        let sound = file_of(2, &parts_of(&planned));
        for file in [sound.clone()].into_iter().chain(with_byte_changed(&sound, 0)).filter(|file| file[3] == 2) {
            if let Ok(read) = calls::read(&file, &room_for(&planned)) {
                write_expecting(&parts_of(&read), file.len(), &Ok(file.clone()));
                assert_eq!(Plan::read(&file).unwrap().write(), Ok(file));
                accepted += 1;
            }
        }
    }
    assert!(accepted > 200, "{accepted}");
}
