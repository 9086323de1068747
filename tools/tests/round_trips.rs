//! From text to bundle and back, and from bundle to text and back: on all samples
//! and on random grids, right and wrong.

mod random;

use std::fs;
use std::path::{Path, PathBuf};

use citternblaze::bundle::{pack, unpack};
use citternblaze::calls;
use citternblaze::text::{self, At, Text};
use random::Random;

fn samples(folder: &str, extension: &str) -> Vec<PathBuf> {
    let folder = Path::new(env!("CARGO_MANIFEST_DIR"))
        .join("../samples")
        .join(folder);
    let files = fs::read_dir(folder)
        .expect("samples")
        .map(|file| file.expect("a file").path());
    let found: Vec<PathBuf> = files
        .filter(|file| file.extension().map_or(false, |of| of == extension))
        .collect();
    assert!(!found.is_empty());
    found
}

/// The text without its line numbers.
fn unnumbered(text: &Text) -> Text {
    fn none<T: Clone>(all: &[At<T>]) -> Vec<At<T>> {
        all.iter()
            .map(|of| At {
                line: 0,
                it: of.it.clone(),
            })
            .collect()
    }
    Text {
        cells: none(&text.cells),
        edges: none(&text.edges),
        looks: none(&text.looks),
        nodes: none(&text.nodes),
        fractions: none(&text.fractions),
    }
}

#[test]
fn bundles_come_back() {
    let mut whole = 0;
    for file in samples("", "bundle") {
        let bytes = fs::read(&file).expect("a bundle");
        match (unpack(&bytes), calls::bundle_read(&bytes)) {
            (Ok(stated), Ok(_)) => {
                let written = text::write(&stated);
                let read = text::read(written.as_bytes()).expect("its own text");
                assert_eq!(unnumbered(&read), stated, "{}", file.display());
                assert_eq!(pack(&read).as_ref(), Ok(&bytes), "{}", file.display());
                assert_eq!(text::write(&unpack(&bytes).expect("a bundle")), written);
                whole += 1;
            }
            (Err(_), Err(refused)) => assert!([13, 22].contains(&refused.number)),
            (read, call) => panic!("{}: {read:?}, {call:?}", file.display()),
        }
    }
    assert!(whole > 20);
}

#[test]
fn texts_come_back() {
    for file in samples("texts", "txt") {
        let stated = text::read(&fs::read(&file).expect("a text")).expect("a grid's text");
        let bytes = pack(&stated).expect("a bundle");
        let again = unpack(&bytes).expect("a bundle");
        assert_eq!(unnumbered(&stated).cells, again.cells);
        assert_eq!(unnumbered(&stated).edges, again.edges);
        let written = text::write(&stated);
        let read = text::read(written.as_bytes()).expect("its own text");
        assert_eq!(unnumbered(&read), unnumbered(&stated));
    }
}

#[test]
fn random_texts_come_back() {
    let mut random = Random(1);
    for _ in 0..2_000 {
        let stated = random.text();
        let written = text::write(&stated);
        let read = text::read(written.as_bytes()).expect("its own text");
        assert_eq!(unnumbered(&read), stated, "{written}");
        assert_eq!(text::write(&read), written);
        let bytes = pack(&read).expect("a bundle");
        let mut again = unpack(&bytes).expect("a bundle");
        assert_eq!(pack(&again).as_ref(), Ok(&bytes));
        again.nodes = stated.nodes.clone();
        again.fractions = stated.fractions.clone();
        assert_eq!(text::write(&again), written);
    }
}

#[test]
fn the_last_look_survives() {
    let text = "citternblaze grid\ncell 0 1 2 3\nedge 0 1 7\nlook 0 1 300\nlook 0 1 2 # last\n";
    let bytes = pack(&text::read(text.as_bytes()).expect("a text")).expect("a bundle");
    assert_eq!(calls::bundle_read(&bytes).expect("lists").counts, [2]);
}
