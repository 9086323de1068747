//! The program itself: what it prints, its exit status, and that nothing is half
//! written.

use std::ffi::OsStr;
use std::fs;
use std::io::Write;
use std::os::unix::ffi::OsStrExt;
use std::path::{Path, PathBuf};
use std::process::{Command, Output, Stdio};

fn run(arguments: &[&str], input: &[u8]) -> Output {
    let mut child = Command::new(env!("CARGO_BIN_EXE_citternblaze"))
        .args(arguments)
        .stdin(Stdio::piped())
        .stdout(Stdio::piped())
        .stderr(Stdio::piped())
        .spawn()
        .expect("the program");
    let mut pipe = child.stdin.take().expect("its input");
    // a program that does not read all of its input is no fault of the test
    let _ = pipe.write_all(input);
    drop(pipe);
    child.wait_with_output().expect("its output")
}

fn samples(extension: &str) -> Vec<PathBuf> {
    let folder = concat!(env!("CARGO_MANIFEST_DIR"), "/../samples");
    let files = fs::read_dir(folder)
        .expect("samples")
        .map(|file| file.expect("a file").path());
    files
        .filter(|file| file.extension().map_or(false, |of| of == extension))
        .collect()
}

#[test]
fn listings_are_those_of_meshlist() {
    let bundles = samples("bundle");
    assert!(bundles.len() > 50);
    for file in bundles {
        let bytes = fs::read(&file).expect("a bundle");
        let listing = fs::read_to_string(file.with_extension("listing")).expect("its listing");
        let done = run(&["list"], &bytes);
        let printed = String::from_utf8(done.stdout).expect("text");
        let refused = listing.starts_with("refused");
        assert_eq!(
            done.status.code(),
            Some(i32::from(refused)),
            "{}",
            file.display()
        );
        assert!(printed.starts_with(&listing), "{}", file.display());
        let more = printed[listing.len()..].lines().count();
        assert_eq!(more, usize::from(refused), "{}", file.display());
    }
}

const GOOD: &str = "citternblaze grid\ncell 0 1 2 3\nedge 0 1 1\nedge 0 2 1\nedge 0 3 1\n\
    edge 1 2 0\nedge 1 3 0\nedge 2 3 0\n";

/// Arguments, input and a part of the line that tells the fault. An input that
/// starts with `+` is the good text with these lines more, from line 9.
type Told = (&'static [&'static str], &'static str, &'static str);

/// What is refused: exit status 1.
const REFUSED: &[Told] = &[
    (
        &["pack"],
        "hello\n",
        "line 1: the first line of a grid's text",
    ),
    (&["pack"], "+cel 1", "line 9: 'cel' is none of"),
    (
        &["pack"],
        "+cell 1 2 3",
        "line 9: a cell has four nodes, and here is less",
    ),
    (
        &["pack"],
        "+cell 1 2 3 4 5",
        "line 9: a cell has four nodes, and here is more: '5'",
    ),
    (
        &["pack"],
        "+edge 0 1 65536",
        "line 9: '65536' is no whole number from 0 to 65535",
    ),
    (&["pack"], "+node 1 2 3 x", "line 9: 'x' is no number"),
    (
        &["pack"],
        "+fractions 0 1 1e999",
        "line 9: '1e999' is no finite number",
    ),
    (
        &["unpack"],
        "# a comment first\nciternblaze grid\n",
        "a text would start with the line 'citternblaze grid'",
    ),
    (
        &["pack"],
        "+node 1 2 3 4\nnode 1 0 0 0",
        "line 10: node 1 has a place on line 9",
    ),
    (
        &["pack"],
        "+fractions 0 1\n\nfractions 0 1",
        "line 11: edge 0 1 has fractions on line 9",
    ),
    (
        &["pack", "--tidy"],
        "+fractions 0 1\n\nfractions 1 0",
        "line 11: edge 0 1 has fractions on line 9",
    ),
    (&["pack"], "+look 1 0 2", "line 9: byte 66, look 1 0 2: "),
    (
        &["list"],
        "+look 3",
        "line 9: a look has two nodes and a count",
    ),
    (
        &["unpack"],
        "not a bundle",
        "byte 0, length 28526, kind 8308",
    ),
    (
        &["loops"],
        "+edge 2 3 0",
        "line 9: edge 6 with the ends 2 3 and the count 0: the edge before it has the same ends",
    ),
    (
        &["loops"],
        "+edge 1 9 0",
        "line 9: edge 6 with the ends 1 9 and the count 0: it must stand before the edge 2 3",
    ),
    (
        &["loops"],
        "+edge 4 4 0",
        "line 9: edge 6 with the ends 4 4 and the count 0: its ends are one node",
    ),
    (
        &["loops"],
        "+edge 4 3 0",
        "line 9: edge 6 with the ends 4 3 and the count 0: its lower node must stand first",
    ),
    (
        &["loops"],
        "+edge 7 8 0",
        "line 9: edge 6 with the ends 7 8 and the count 0: no cell has this edge",
    ),
    (
        &["loops"],
        "+edge 2 4 0\nedge 3 4 0\ncell 1 2 3 4",
        "line 11: cell 1 with the nodes 1 2 3 4: its edge 1 4 is not listed",
    ),
    (
        &["loops"],
        "+cell 1 2 3 5000",
        "line 9: cell 1 with the nodes 1 2 3 5000: node 5000 is over 4,095",
    ),
    (
        &["loops"],
        "+cell 1 3 2 4",
        "line 9: cell 1 with the nodes 1 3 2 4: its nodes do not increase, 3 before 2",
    ),
    (
        &["loops"],
        "+cell 1 2 2 4",
        "line 9: cell 1 with the nodes 1 2 2 4: node 2 stands there twice",
    ),
    (
        &["loops"],
        "+\ncell 0 1 2 3",
        "line 10: cell 1 with the nodes 0 1 2 3: cell 0 has the same nodes",
    ),
    (
        &["loops"],
        "+cell 0 1 2 4\ncell 0 1 2 5",
        "line 10: cell 2 with the nodes 0 1 2 5: its face 0 1 2 is in the cells 0 and 1 already",
    ),
    (
        &["loops"],
        "+look 0 1 9\nlook 0 1 4096",
        "line 10: edge 0 with the ends 0 1 and the count 4096: the count is over 4,095",
    ),
    (
        &["loops"],
        "citternblaze grid\n",
        "standard input: 0 cells: there is no cell",
    ),
    (
        &["loops", "--cell", "1"],
        "+",
        "cell 1 of 1: there is no such cell",
    ),
    (
        &["draw", "--face", "4"],
        "+",
        "standard input: the grid has no face with the name 4",
    ),
    (
        &["draw", "--cell", "9"],
        "+",
        "cell 9 of 1: there is no such cell",
    ),
    (&["draw", "--mesh"], "+", "no node places"),
    (&["draw", "--section", "y=1"], "+", "no node places"),
    (&["surfaces"], "+", "no node places"),
    (
        &["draw", "--face", "0,1,9"],
        "+",
        "the grid has no face with the nodes 0 1 9",
    ),
    (&["draw", "--cell-at", "1,1,1"], "+", "no node places"),
    (
        &["draw", "--cell-at", "9,9,9"],
        PLACED,
        "no cell has the place 9 9 9 in it",
    ),
    (
        &["draw", "--section", "y=100"],
        PLACED,
        "the plane y = 100 misses all",
    ),
    (
        &["draw", "--section", "y=1", "--scale", "1000:1"],
        PLACED,
        "take a smaller scale, or a larger sheet",
    ),
    (
        &["draw", "--face", "3"],
        "+fractions 0 1 0.5 0.6",
        "standard input: line 9: edge 0 1 has 1 crossing, and this line has 2 fractions",
    ),
    (
        &["draw", "--face", "3"],
        "+fractions 0 9 0.5",
        "line 9: the grid has no edge 0 9",
    ),
    (
        &["export"],
        "+node 0 0 0 0",
        "node 1 of the grid has no place",
    ),
    (
        &["check-mesh"],
        "T 1 2 3\n",
        "line 1: a triangle has 11 words",
    ),
    (
        &["check-mesh"],
        "cells 1 edges 6\n",
        "line 1: the line of totals has no number of triangles",
    ),
    (
        &["check-mesh"],
        "\0\0\0\0",
        "standard input: no lines of text (--binary reads words of four bytes)",
    ),
    (
        &["check-mesh", "--binary"],
        "x",
        "byte 0: a triangle has 44 bytes",
    ),
];

/// Places for the nodes of the text.
const PLACED: &str = "+node 0 0 0 0\nnode 1 4 0 0\nnode 2 0 4 0\nnode 3 0 0 4\n\
    fractions 0 1 0.5\nfractions 0 2 0.5\nfractions 0 3 0.5";

/// Wrong command lines, and files that cannot be read or written: exit status 2.
const WRONG: &[Told] = &[
    (
        &["pack", "--places", "-"],
        "+node 1 2 3 4",
        "--output and --places are both -",
    ),
    (&["draw"], "+", "draw wants one of --"),
    (
        &["draw", "--mesh", "--view", "1,x"],
        "+",
        "'1,x' is not two numbers",
    ),
    (
        &["draw", "--section", "y=\u{1b}[2J"],
        "+",
        "--section: a plane is y=18.7",
    ),
    (
        &["draw", "--section", "y=0:1:1e-9"],
        "+",
        "more than 1000 planes",
    ),
    (
        &["draw", "--section", "y=1", "--mesh"],
        "+",
        "draw wants one of --section, --mesh, --cell, --cell-at and --face",
    ),
    (
        &["draw", "--mesh", "--only", "5-2"],
        "+",
        "--only is cells as 0,5,20-31",
    ),
    (
        &["draw", "--mesh", "--only", "0,99999999999999999999"],
        "+",
        "--only is cells as",
    ),
    (
        &["draw", "--mesh", "--clip", "y=0:1:1"],
        "+",
        "--clip takes one plane",
    ),
    (
        &["draw", "--mesh", "--colour", "pink"],
        "+",
        "--colour is surface, type or side",
    ),
    (
        &["draw", "--mesh", "--grid", "x"],
        "+",
        "--grid is all, outer or none",
    ),
    (
        &["draw", "--mesh", "--unit", "ell"],
        "+",
        "--unit is one of mm, cm, dm, m, km",
    ),
    (
        &["draw", "--cell-at", "1,2"],
        "+",
        "--cell-at is three numbers",
    ),
    (
        &["draw", "--face", "1,2"],
        "+",
        "--face is a name, or three nodes",
    ),
    (
        &["draw", "--face", "1,2,65536"],
        "+",
        "--face is a name, or three nodes",
    ),
    (&["export", "--form", "dxf"], "+", "'dxf' is none of"),
    (&["pack", "--nonsense"], "+", "no such option: --nonsense"),
    (&["pack", "--output"], "+", "--output wants FILE"),
    (&["list", "--any-size=1"], "+", "--any-size takes no value"),
    (
        &["loops", "--cell", "x"],
        "+",
        "--cell: 'x' is no whole number",
    ),
    (&["pack", "one", "two"], "+", "one file at a time"),
    (&["nonsense"], "", "no such command: nonsense"),
    (&["help", "nonsense"], "", "no such command: nonsense"),
    (&[], "", "which command?"),
    (&["pack", "/nowhere/at/all"], "", "/nowhere/at/all: "),
    (&["pack", "--", "--help"], "", "--help: "),
    (
        &["pack", "--output", "/nowhere/at/all"],
        "+",
        "/nowhere/at/all: ",
    ),
];

/// Each fault is told in one line, with its exit status.
#[test]
fn faults_are_told() {
    let refused = REFUSED.iter().map(|told| (told, 1));
    let wrong = WRONG.iter().map(|told| (told, 2));
    for ((arguments, input, told), status) in refused.chain(wrong) {
        let input = match input.strip_prefix('+') {
            Some(more) => format!("{GOOD}{more}\n"),
            None => input.to_string(),
        };
        let done = run(arguments, input.as_bytes());
        let error = String::from_utf8(done.stderr).expect("text");
        assert_eq!(done.status.code(), Some(status), "{arguments:?}: {error}");
        assert!(error.contains(told), "{arguments:?}: {error}");
        assert_eq!(error.lines().count(), 1, "{arguments:?}: {error}");
        assert!(done.stdout.is_empty(), "{arguments:?}");
    }
}

/// Commands that read a text of some kind.
const READERS: [&str; 11] = [
    "pack",
    "list",
    "unpack",
    "loops",
    "check-mesh",
    "check",
    "book",
    "shading",
    "surfaces",
    "export",
    "chains",
];

/// Whatever bytes come in, what is told is one short line without a control byte.
#[test]
fn hostile_words_are_escaped_and_cut() {
    let long = "x".repeat(300_000);
    let escape = "\u{1b}[31mred\u{1b}]0;title\u{7}\u{202e}\u{9b}2J";
    for word in [long.as_str(), escape, "\u{0}\u{1}\u{7f}", "\\"] {
        let texts = [
            format!("{GOOD}{word}\n"),
            format!("{GOOD}cell {word}\n"),
            format!("{GOOD}edge 1 2 {word}\n"),
            format!("{GOOD}cell 1 2 3 4 {word}\n"),
            format!("{GOOD}node 1 2 3 {word}\n"),
            format!("{GOOD}fractions 0 1 {word}\n"),
            format!("T {word}\n"),
            format!("{word}\n"),
            word.to_string(),
        ];
        for text in texts {
            for command in READERS {
                told_shortly(&run(&[command], text.as_bytes()), command);
            }
        }
        // no argument of a program has a byte 0
        let word = word.replace('\0', "\u{1}");
        let option = format!("--{}", &word[..word.len().min(90_000)]);
        let word = &option[2..];
        for arguments in [&[word][..], &["pack", &option], &["loops", "--cell", word]] {
            told_shortly(&run(arguments, b""), word);
        }
    }
    let words = [255, 254, 27, b'[', 0, 10].repeat(44);
    for command in READERS {
        told_shortly(&run(&[command], &words), command);
    }
}

fn told_shortly(done: &Output, what: &str) {
    assert!(matches!(done.status.code(), Some(1 | 2)), "{what}");
    let error = String::from_utf8(done.stderr.clone()).expect("text");
    assert!(error.len() < 400, "{what}: {error}");
    assert_eq!(error.lines().count(), 1, "{what}: {error}");
    let control = |letter: char| letter.is_control() && letter != '\n';
    assert!(!error.contains(control), "{what}: {error:?}");
    assert!(!error.contains('\u{202e}'), "{what}: {error:?}");
}

/// An input without an end is not read for ever.
#[test]
fn endless_inputs_end() {
    let listed = |arguments: &[&str]| {
        let zeros = fs::File::open("/dev/zero").expect("zeros");
        let child = Command::new(env!("CARGO_BIN_EXE_citternblaze"))
            .args(arguments)
            .stdin(zeros)
            .output();
        child.expect("the program")
    };
    let done = listed(&["list"]);
    assert_eq!(done.status.code(), Some(1));
    assert!(done
        .stdout
        .starts_with(b"refused 13 at 32768\nmore than 32,768 bytes: "));
    let done = listed(&["list", "--any-size"]);
    assert_eq!(done.status.code(), Some(1));
    assert!(done
        .stdout
        .starts_with(b"refused 13 at 67108864\nmore than 67,108,864 bytes: "));
    let done = listed(&["check-mesh"]);
    assert_eq!(done.status.code(), Some(1));
    assert!(done.stdout.is_empty() && done.stderr.ends_with(b"words of four bytes)\n"));
    for command in ["pack", "unpack", "loops"] {
        let done = listed(&[command]);
        assert_eq!(done.status.code(), Some(1), "{command}");
        let error = String::from_utf8(done.stderr).expect("text");
        assert!(
            error.contains("standard input: more than 67,108,864 bytes"),
            "{error}"
        );
    }
}

/// A text may be longer than the bundle that a listing takes.
#[test]
fn long_texts_are_listed() {
    let comments = "# a line that says nothing\n".repeat(4_000);
    let plain = run(&["list"], GOOD.as_bytes());
    let long = run(&["list"], format!("{GOOD}{comments}").as_bytes());
    assert!(plain.status.success());
    assert_eq!(long.stdout, plain.stdout);
}

#[test]
fn version_help_and_names_that_are_no_text() {
    let version = run(&["--version"], b"");
    let expected = format!("citternblaze {}\n", env!("CARGO_PKG_VERSION"));
    assert_eq!(String::from_utf8(version.stdout).expect("text"), expected);
    assert_eq!(run(&["help"], b"").stdout, run(&["--help"], b"").stdout);
    assert_eq!(
        run(&["help", "pack"], b"").stdout,
        run(&["pack", "--help"], b"").stdout
    );
    let folder = std::env::temp_dir().join(format!("citternblaze-name-{}", std::process::id()));
    fs::create_dir_all(&folder).expect("a folder");
    let odd = folder.join(OsStr::from_bytes(b"--gr\xffd\x1b.txt"));
    let out = folder.join(OsStr::from_bytes(b"\xfe.bundle"));
    fs::write(&odd, GOOD).expect("a text");
    let pack = |input: &Path| {
        let mut command = Command::new(env!("CARGO_BIN_EXE_citternblaze"));
        command.arg("pack").arg("--output").arg(&out);
        command.current_dir(&folder);
        command.arg("--").arg(input).output().expect("the program")
    };
    let done = pack(Path::new(OsStr::from_bytes(b"--gr\xffd\x1b.txt")));
    assert!(done.status.success(), "{done:?}");
    assert_eq!(
        fs::read(&out).expect("a bundle"),
        run(&["pack"], GOOD.as_bytes()).stdout
    );
    fs::write(&odd, "cell\n").expect("a text");
    let done = pack(&odd);
    assert_eq!(done.status.code(), Some(1));
    let error = String::from_utf8(done.stderr).expect("text");
    assert!(error.contains("--gr\\xffd\\u{1b}.txt: line 1: "), "{error}");
    fs::remove_dir_all(&folder).expect("gone");
}

/// A text that was written by hand becomes one that is accepted.
#[test]
fn texts_are_tidied() {
    let text = "citternblaze grid\ncell 3 1 2 0\nedge 1 0 2\nedge 2 0 1\nlook 2 0 0\n\
        node 0 0 0 0\nnode 1 8 0 0\nnode 2 0 8 0\nnode 3 0 0 8\nfractions 1 0 0.125 0.25\n";
    assert_eq!(run(&["list"], text.as_bytes()).status.code(), Some(1));
    let folder = std::env::temp_dir().join(format!("citternblaze-tidy-{}", std::process::id()));
    fs::create_dir_all(&folder).expect("a folder");
    let [places, bundle] = ["places", "bundle"].map(|name| folder.join(name));
    let [places, bundle] = [&places, &bundle].map(|file| file.to_str().expect("a name"));
    let done = run(
        &["pack", "--tidy", "--places", places, "--output", bundle],
        text.as_bytes(),
    );
    let told = String::from_utf8(done.stderr).expect("text");
    assert_eq!(
        told,
        "citternblaze: note: tidied: 1 cell with sorted nodes; 3 edges turned, lower node \
         first; 1 list of fractions turned with its edge; 4 missing edges added with count 0\n"
    );
    let back = run(&["unpack", bundle, "--places", places], b"");
    assert_eq!(
        String::from_utf8(back.stdout).expect("text"),
        "citternblaze grid\ncell 0 1 2 3\nedge 0 1 2\nedge 0 2 1\nedge 0 3 0\nedge 1 2 0\n\
         edge 1 3 0\nedge 2 3 0\nlook 0 2 0\nnode 0 0.0 0.0 0.0\nnode 1 8.0 0.0 0.0\n\
         node 2 0.0 8.0 0.0\nnode 3 0.0 0.0 8.0\nfractions 0 1 0.75 0.875\n"
    );
    assert!(run(&["list", bundle], b"").status.success());
    fs::remove_dir_all(&folder).expect("gone");
}

#[test]
fn places_that_are_refused_are_told() {
    let places = "node 0 0 0 0\nnode 1 1 0 0\nnode 2 0 1 0\nnode 3 0 0 1\n";
    let far = run(
        &["export"],
        format!("{GOOD}{}", places.replace("3 0 0 1", "3 0 2e6 1")).as_bytes(),
    );
    let error = String::from_utf8_lossy(&far.stderr).into_owned();
    assert!(
        error.contains("line 12: y of the place of node 3: not a number from")
            && error.contains("and this is 2000000.0"),
        "{error}"
    );
    let two = GOOD.replace("0 2 1", "0 2 2");
    let fractions = [
        (
            "0 0.5",
            "crossing 1, index 0 of the edge 0 2: its fraction 0.0 is not above 0",
        ),
        (
            "0.5 1",
            "crossing 2, index 1 of the edge 0 2: its fraction 1.0 is not below 1",
        ),
        ("0.5 0.5", "its fraction 0.5 is not above the one before it"),
    ];
    for (given, told) in fractions {
        let text = format!("{two}{places}fractions 0 2 {given}\n");
        let done = run(&["export"], text.as_bytes());
        let error = String::from_utf8_lossy(&done.stderr).into_owned();
        assert!(
            error.contains("line 13: ") && error.contains(told),
            "{error}"
        );
    }
}

#[test]
fn a_file_is_written_whole_or_not_at_all() {
    let folder = std::env::temp_dir().join(format!("citternblaze-{}", std::process::id()));
    fs::create_dir_all(&folder).expect("a folder");
    let file = folder.join("grid.bundle");
    let name = file.to_str().expect("a name");
    let broken = run(&["pack", "--output", name], b"citternblaze grid\ncell 1\n");
    assert_eq!(broken.status.code(), Some(1));
    assert_eq!(fs::read_dir(&folder).expect("a folder").count(), 0);
    assert!(run(&["pack", "--output", name], GOOD.as_bytes())
        .status
        .success());
    assert_eq!(fs::read_dir(&folder).expect("a folder").count(), 1);
    let whole = fs::read(&file).expect("a bundle");
    // a folder cannot be replaced by a file
    let taken = folder.join("taken");
    fs::create_dir(&taken).expect("a folder");
    let name_taken = taken.to_str().expect("a name");
    let taken = run(&["pack", "--output", name_taken], GOOD.as_bytes());
    assert_eq!(taken.status.code(), Some(2));
    assert_eq!(fs::read(&file).expect("a bundle"), whole);
    assert_eq!(fs::read_dir(&folder).expect("a folder").count(), 2);
    let back = run(&["unpack", name], b"");
    assert_eq!(String::from_utf8(back.stdout).expect("text"), GOOD);
    fs::remove_dir_all(&folder).expect("gone");
}

/// A link stays a link, and what it leads to is written.
#[test]
fn a_link_is_followed() {
    let folder = std::env::temp_dir().join(format!("citternblaze-link-{}", std::process::id()));
    fs::create_dir_all(&folder).expect("a folder");
    let (file, link) = (folder.join("grid.bundle"), folder.join("link"));
    fs::write(&file, "old").expect("a file");
    std::os::unix::fs::symlink(&file, &link).expect("a link");
    let name = link.to_str().expect("a name");
    assert!(run(&["pack", "--output", name], GOOD.as_bytes())
        .status
        .success());
    assert!(fs::symlink_metadata(&link)
        .expect("a link")
        .file_type()
        .is_symlink());
    assert_eq!(fs::read(&file).expect("a bundle").first(), Some(&10));
    assert_eq!(fs::read_dir(&folder).expect("a folder").count(), 2);
    fs::remove_dir_all(&folder).expect("gone");
}

/// Ends of lines as other systems write them, and a mark before the text.
#[test]
fn texts_of_other_editors_are_read() {
    let plain = run(&["pack"], GOOD.as_bytes());
    let lines = GOOD.replace('\n', " # end\r\n");
    for text in [lines.clone(), format!("\u{feff}{lines}")] {
        assert_eq!(run(&["pack"], text.as_bytes()).stdout, plain.stdout);
        assert!(run(&["list"], text.as_bytes()).status.success());
    }
}

#[test]
fn loops_are_told_in_words() {
    let told = |name: &str, arguments: &[&str]| {
        let text = format!("{}/../samples/texts/{name}.txt", env!("CARGO_MANIFEST_DIR"));
        let done = run(&[&["loops", &text], arguments].concat(), b"");
        String::from_utf8(done.stdout).expect("text")
    };
    assert_eq!(
        told("octagon", &[]),
        "cell 0, nodes 0 1 2 3: 1 loop\n  \
           loop 0: p0 0, length 8, normal, diagonal, 0 with 1\n\
         4 faces: with unjoined crossings 0, with folded segments 0\n"
    );
    assert_eq!(
        told("three-cells", &["--cell", "2"]),
        "cell 2, nodes 0 1 3 4: 2 loops\n  \
           loop 0: p0 0, length 3, normal, corner at 0\n  \
           loop 1: p0 1, length 3, normal, corner at 1\n\
         4 faces: with unjoined crossings 0, with folded segments 0\n"
    );
    assert!(told("folded-face", &[]).contains(
        "face 3, nodes 0 1 2, of cell 0: counts 5 1 1\n  \
           3 segments, 1 round node 0, 1 round node 1, 1 folded on the edge 0 1\n  \
           unjoined: crossing 1, index 1 of the edge 0 1; skipped: "
    ));
}

#[test]
fn every_command_has_help() {
    let overview = String::from_utf8(run(&["--help"], b"").stdout).expect("text");
    let lines = overview.lines().filter_map(|line| line.strip_prefix("  "));
    let names: Vec<&str> = lines.filter_map(|line| line.split(' ').next()).collect();
    assert!(names.len() >= 15, "{names:?}");
    for name in names {
        let done = run(&[name, "--help"], b"");
        let help = String::from_utf8(done.stdout).expect("text");
        assert!(done.status.success() && help.starts_with(&format!("citternblaze {name} ")));
    }
}
