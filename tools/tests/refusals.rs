//! Every refusal of the header has words.

use std::fs;
use std::path::Path;

use citternblaze::calls::{Lists, Refusal};
use citternblaze::refusals::{meaning, of_bytes, of_lists};

#[test]
fn each_has_a_meaning() {
    let path = Path::new(env!("CARGO_MANIFEST_DIR")).join("../include/citternblaze.h");
    let header = fs::read_to_string(path).expect("the header");
    let refusals = header
        .lines()
        .filter(|line| line.starts_with("#define CITTERNBLAZE_REFUSED_"));
    let numbers: Vec<u64> = refusals
        .map(|line| line.split_whitespace().nth(2).expect("a number"))
        .map(|number| number.parse().expect("a whole number"))
        .collect();
    assert!(numbers.len() >= 20);
    for number in numbers {
        assert_ne!(meaning(number), meaning(999), "{number}");
    }
}

#[test]
fn places_are_told_with_what_stands_there() {
    let lists = Lists {
        cells: vec![0, 1, 2, 3, 4, 6, 5, 7],
        edges: vec![0, 1, 0, 2],
        counts: vec![2, 4096],
    };
    let told = |number, place| of_lists(Refusal { number, place }, &lists);
    assert!(told(3, 1).starts_with("cell 1 with the nodes 4 6 5 7: "));
    assert!(told(18, 1).starts_with("edge 1 with the ends 0 2 and the count 4096: "));
    assert!(told(17, 3).starts_with("crossing 3, index 1 of the edge 0 2: "));
    assert!(told(16, 4).starts_with("y of the place of node 1: "));
    // a place that is not there has words too
    assert!(told(3, 9).starts_with("cell 9: "));
    assert!(told(6, u64::MAX).starts_with("edge "));
}

#[test]
fn bytes_are_told_with_their_record() {
    let bytes = [8, 0, 5, 0, 1, 0, 0, 0, 44, 1, 2, 0, 3, 0, 7, 0, 9];
    let told = |number, place| of_bytes(Refusal { number, place }, &bytes);
    assert!(told(22, 0).starts_with("byte 0, look 1 0 300: "));
    assert!(told(13, 10).starts_with("byte 10, end: "));
    assert!(told(13, 14).starts_with("byte 14, bytes 07 00 09: "));
    assert!(told(13, 4).starts_with("byte 4, length 1, kind 0, bytes 01 00 00 00 2c 01"));
    assert!(told(13, 17).starts_with("byte 17, the end of the input: "));
    assert!(told(13, u64::MAX).contains("the end of the input"));
    assert!(told(22, 0).ends_with(": a later look at an edge that the bundle has not"));
    assert!(told(13, 10).contains(": this record may not stand here"));
    assert!(told(13, 14).contains(": not a whole record"));
    assert!(told(13, 17).contains("last record is its end, and here is none"));
}
