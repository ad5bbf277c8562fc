//! The family of a number, and what it means.

use ndplan::{ffi, Family, Refusal};

#[test]
fn families() {
    let large = [255, 256, 256 + 5, 65535, 65536, 65536 + 15, 1 << 31, u32::MAX - 1, u32::MAX];
    for number in (0..=40).chain(large) {
        let expected = plain::family(number);
        // SAFETY: the function takes every number.
        assert_eq!(unsafe { ffi::ndp_family(number) }, expected, "family of {number}");
        let named = [Family::None, Family::Mesh, Family::File, Family::Program, Family::Question][expected as usize];
        assert_eq!(ndplan::family(number), named);
        assert_eq!(Refusal(number).family(), named);
    }
    let ends = [0, 1, 9, 10, 19, 20, 21, 22, 23, 33].map(ndplan::family);
    let (mesh, file, question) = (Family::Mesh, Family::File, Family::Question);
    let (program, none) = (Family::Program, Family::None);
    assert_eq!(ends, [none, mesh, mesh, file, file, program, question, question, none, none]);
}

#[test]
fn a_refusal_is_an_error_with_its_number_and_meaning() {
    let error: Box<dyn std::error::Error> = Box::new(Refusal(7));
    assert_eq!(error.to_string(), "refused 7: an edge is listed by one of its two nodes only");
}

/// The texts are those of the C interface's header.
#[test]
fn texts() {
    for number in (0..=40).chain([65536 + 7, u32::MAX]) {
        assert_eq!(Refusal(number).text(), plain::header_text(number), "text of {number}");
    }
    let ends = [0, 1, 33, 34].map(|number| Refusal(number).text() == "unknown refusal");
    assert_eq!(ends, [false, false, false, true]);
}

/// The limits are those of documents 01 and 02.
#[test]
fn limits() {
    assert_eq!((ndplan::MAX_NODES, ndplan::MAX_ENTRIES), (4096, 65536));
    assert_eq!((ndplan::MAX_NEIGHBOURS, ndplan::MAX_UNKNOWNS), (26, 6));
    assert_eq!((ndplan::MAX_SLOTS, ndplan::NO_PARENT), (4096 * 4095 / 2, 65535));
}
