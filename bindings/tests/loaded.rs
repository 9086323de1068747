//! Libraries that are loaded answer as the one that is linked.

use std::path::{Path, PathBuf};
use std::process::Command;

use citternblaze_calls::library::{GridLists, Library, LINKED};
use citternblaze_calls::ANSWER_WORDS;

/// A shared object of a static library, as scripts/beside.sh makes it.
fn shared(name: &str) -> PathBuf {
    let library = Path::new(env!("CITTERNBLAZE_LINKED")).join(format!("lib{name}.a"));
    let made = Path::new(env!("CARGO_TARGET_TMPDIR")).join(format!("{name}.so"));
    let status = Command::new("cc")
        .args(["-shared", "-Wl,-Bsymbolic", "-Wl,--whole-archive"])
        .arg(library)
        .args(["-Wl,--no-whole-archive", "-o"])
        .arg(&made)
        .status();
    assert!(status.expect("cc").success());
    made
}

fn load(file: &Path) -> Option<Library> {
    // SAFETY: the tests load what `shared` makes, and what is no library at all
    unsafe { Library::load(file.to_str().expect("a path")) }
}

/// What a library answers and writes of one cell whose first edge is crossed twice.
fn told(library: &Library) -> (Vec<u64>, Vec<u32>) {
    let grid = GridLists {
        cells: &[0, 1, 2, 3],
        edges: &[0, 1, 0, 2, 0, 3, 1, 2, 1, 3, 2, 3],
        counts: &[2, 0, 0, 0, 0, 0],
        starts: &[0, 2, 2, 2, 2, 2],
    };
    let mut answer = [7; ANSWER_WORDS];
    let mut words = vec![7; 30];
    let mut numbers = Vec::new();
    let answered = library.check(grid, &mut answer);
    numbers.extend(&answer[..answered]);
    let answered = library.mesh(grid, &mut words, &mut answer);
    numbers.extend(&answer[..answered]);
    let answered = library.face([2, 0, 0], 0, 1, &mut answer);
    numbers.extend(&answer[..answered]);
    let answered = library.nearest(&[1.0, 2.0, 2.0], [0.0; 3], &mut answer);
    numbers.extend(&answer[..answered]);
    (numbers, words)
}

#[test]
fn as_linked() {
    let loaded = load(&shared("capi")).expect("a library");
    let linked = told(&LINKED);
    assert_eq!(linked.0[..5], [0, 2, 0, 2, 0]);
    assert_eq!(told(&loaded), linked);
}

#[test]
#[should_panic(expected = "the library has no citternblaze_case")]
fn without_a_function() {
    let loaded = load(&shared("host")).expect("a library");
    loaded.case([0; 6], &mut [0; ANSWER_WORDS]);
}

#[test]
fn no_library() {
    let text = Path::new(env!("CARGO_MANIFEST_DIR")).join("Cargo.toml");
    assert!(text.is_file() && load(&text).is_none());
    assert!(load(Path::new("no\0path")).is_none());
}
