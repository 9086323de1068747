//! The program meshlist, run on bundles, against the listing of the second
//! implementation. It is the file that CITTERNBLAZE_MESHLIST names, or else
//! target/bin/meshlist of the repository, where `scripts/libraries.sh meshlist` puts it.

use std::env;
use std::fs::File;
use std::io::Write;
use std::path::{Path, PathBuf};
use std::process::{Command, Stdio};

use compare::bundles::{damage, has_kind, random_bytes, seen_again, small_bundles, written};
use compare::grids::{
    by_rows, closed_grid, random_grid, single_cell, spiral, with_crossings, with_faults, Numbers,
};
use compare::{seed, setting};
use reference::bundle;
use reference::gen::{random_shape, separate, Rng, Sample};
use reference::listing::{listing, MAX_INPUT};

fn program() -> PathBuf {
    match env::var_os("CITTERNBLAZE_MESHLIST") {
        Some(file) => PathBuf::from(file),
        None => Path::new(env!("CARGO_MANIFEST_DIR")).join("../../target/bin/meshlist"),
    }
}

/// What the program prints where its input comes from this.
fn prints(input: Stdio) -> Vec<u8> {
    let output = Command::new(program()).stdin(input).output();
    let output = output.expect("the program runs: `scripts/libraries.sh meshlist` builds it");
    assert!(output.status.success() && output.stderr.is_empty());
    output.stdout
}

/// What the program prints for these bytes, which come in two parts.
fn prints_for(bytes: &[u8], first: usize) -> Vec<u8> {
    let child = Command::new(program())
        .stdin(Stdio::piped())
        .stdout(Stdio::piped())
        .spawn();
    let mut child = child.expect("the program runs: `scripts/libraries.sh meshlist` builds it");
    let mut input = child.stdin.take().expect("its input");
    // a program that has read all that it takes leaves the rest without a reader
    let _ = input.write_all(&bytes[..first]);
    let _ = input.write_all(&bytes[first..]);
    drop(input);
    let output = child.wait_with_output().expect("its output");
    assert!(output.status.success());
    output.stdout
}

/// Whether a line has a triangle of a sub-cell: one whose word 0 is 2,048 or more.
fn is_of_sub_cell(line: &str) -> bool {
    let word = line
        .strip_prefix("T ")
        .and_then(|rest| rest.split(' ').next());
    word.map_or(false, |word| {
        word.parse::<u32>().expect("a number") >= 2_048
    })
}

/// What the compared listings were: meshes, lines of triangles, refusals.
#[derive(Default)]
struct Tally {
    meshes: u64,
    triangles: usize,
    wide: u64,
    looked: u64,
    split: u64,
    refused: Numbers,
}

impl Tally {
    fn add(&mut self, bytes: &[u8], text: &str) {
        match text.strip_prefix("refused ") {
            Some(rest) => {
                let number: String = rest.chars().take_while(char::is_ascii_digit).collect();
                self.refused[number.parse::<usize>().expect("a number")] += 1;
            }
            None => {
                self.meshes += 1;
                self.wide += u64::from(has_kind(bytes, bundle::WIDE_EDGE));
                self.looked += u64::from(has_kind(bytes, bundle::LOOK));
                self.triangles += text.lines().count() - 1;
                self.split += u64::from(text.lines().any(is_of_sub_cell));
            }
        }
    }
}

fn compare(rng: &mut Rng, bytes: &[u8], tally: &mut Tally) {
    let text = listing(bytes);
    tally.add(bytes, &text);
    let first = rng.between(0, bytes.len());
    assert_eq!(
        prints_for(bytes, first),
        text.as_bytes(),
        "{} bytes: {bytes:?}",
        bytes.len()
    );
}

/// A grid whose mesh has few triangles, or any grid.
fn grid(rng: &mut Rng) -> Sample {
    match rng.below(10) {
        0 => random_grid(rng),
        1 => closed_grid(rng),
        2 => {
            let most = [255, 300, 4_095][rng.below(3)];
            single_cell(rng, most)
        }
        3 => {
            let cells = rng.between(40, 60) as u16;
            let sum = rng.between(60_000, 65_600);
            with_crossings(rng, separate(cells), sum)
        }
        4 => random_shape(rng).with_even_counts(rng, 2),
        6 => {
            let most = [6, 12, 40, 150][rng.below(4)];
            spiral(rng, most)
        }
        5 => {
            let mut grid = random_shape(rng).with_counts(rng, 0, 1);
            let edge = rng.below(grid.counts.len());
            grid.counts[edge] = rng.between(250, 450) as u16;
            grid
        }
        _ => random_shape(rng).with_counts(rng, 0, 3),
    }
}

/// The bytes of a bundle, of a bundle with faults in its grid or in its bytes, or
/// any bytes.
fn input(rng: &mut Rng) -> Vec<u8> {
    let whole = grid(rng);
    let lists = match rng.below(3) {
        0 => with_faults(rng, whole),
        _ => whole,
    };
    let mut bytes = match written(&lists) {
        Some(bytes) if rng.below(4) == 0 => seen_again(rng, bytes, &lists.edges, 3),
        Some(bytes) => bytes,
        None => random_bytes(rng, |lists| written(lists).expect("formed lists")),
    };
    if rng.below(4) == 0 {
        damage(rng, &mut bytes);
    }
    bytes
}

#[test]
fn random_and_damaged_bundles() {
    let mut rng = Rng::new(seed("meshlist"));
    let mut tally = Tally::default();
    let many = setting("CITTERNBLAZE_LISTINGS", 3_000);
    for _ in 0..many {
        let bytes = input(&mut rng);
        compare(&mut rng, &bytes, &mut tally);
    }
    println!(
        "meshlist: {} meshes with {} triangles, {} of them of a bundle with a record of kind 4, {} \
         with one of kind 5, {} with cells that are split; refused by rows 1 to 6, 18, 7 to 10: {:?}, 12 and 13: {:?}, 22: {}",
        tally.meshes,
        tally.triangles,
        tally.wide,
        tally.looked,
        tally.split,
        by_rows(&tally.refused),
        &tally.refused[12..=13],
        tally.refused[22]
    );
    if many >= 3_000 {
        assert!(tally.meshes >= 1_000);
        assert!(tally.wide >= 50 && tally.looked >= 50 && tally.split >= 50);
        for row in (3..=10).chain([12, 13, 18, 22]) {
            assert!(tally.refused[row] > 0, "row {row}");
        }
    }
}

#[test]
fn small_and_large_inputs() {
    let mut rng = Rng::new(1);
    let mut tally = Tally::default();
    for bundle in small_bundles() {
        for len in 0..=bundle.len() {
            compare(&mut rng, &bundle[..len], &mut tally);
        }
    }
    for cells in [2_048, 2_049, 2_730, 2_731] {
        let lists = Sample {
            cells: vec![0; 4 * cells],
            edges: vec![],
            counts: vec![],
        };
        let bytes = written(&lists).expect("formed lists");
        compare(&mut rng, &bytes, &mut tally);
    }
    // 32,764 bytes, and one more for each count over 255
    for wide in [3, 4, 5] {
        let mut lists = Sample {
            cells: vec![],
            edges: vec![0; 2 * 3_640],
            counts: vec![0; 3_640],
        };
        lists.counts[..wide].fill(4_095);
        let bytes = written(&lists).expect("formed lists");
        assert_eq!(bytes.len(), 32_764 + wide);
        compare(&mut rng, &bytes, &mut tally);
    }
    for len in [MAX_INPUT - 1, MAX_INPUT, MAX_INPUT + 1, 60_000, 1_000_000] {
        compare(&mut rng, &vec![0; len], &mut tally);
    }
    assert!(tally.refused[1] > 0 && tally.refused[13] > 0);
}

/// A read that fails counts as the end of the input, and so does no input.
#[test]
fn read_errors() {
    let folder = File::open("/").expect("a folder, which cannot be read as a file");
    assert_eq!(prints(Stdio::from(folder)), b"refused 13 at 0\n");
    assert_eq!(prints(Stdio::null()), b"refused 13 at 0\n");
}
