//! Commands for the calls beside the mesh: runs, booking, shading, nearest, settings,
//! sheets, and the table of FORMAT that names a command for each function.

mod random;
mod random_texts;

use std::collections::BTreeSet;
use std::fs;
use std::io::Write;
use std::path::Path;
use std::process::{Command, Output, Stdio};

use citternblaze::bundle::pack;
use citternblaze::calls::counts::{book, case};
use citternblaze::calls::flat::Sheet;
use citternblaze::calls::points::nearest;
use citternblaze::calls::{bundle_read, Grid, How, Lists, Refusal, UNUSED};
use citternblaze::cells::{counts_of, triangles_of};
use citternblaze::chains::{self, Joinings};
use citternblaze::sheet_text;
use citternblaze::svg::{BLUE, VERMILION};
use citternblaze::text;
use random::Random;
use random_texts::{row_of_cells, shuffled, split_cells};

fn run(arguments: &[&str], input: &str) -> Output {
    let mut child = Command::new(env!("CARGO_BIN_EXE_citternblaze"))
        .args(arguments)
        .stdin(Stdio::piped())
        .stdout(Stdio::piped())
        .stderr(Stdio::piped())
        .spawn()
        .expect("the program");
    let mut pipe = child.stdin.take().expect("its input");
    // a program that does not read all of its input is no fault of the test
    let _ = pipe.write_all(input.as_bytes());
    drop(pipe);
    child.wait_with_output().expect("its output")
}

/// What a command prints where all is well.
fn printed(arguments: &[&str], input: &str) -> String {
    let done = run(arguments, input);
    let error = String::from_utf8_lossy(&done.stderr).into_owned();
    assert!(done.status.success(), "{arguments:?}: {error}");
    String::from_utf8(done.stdout).expect("text")
}

/// The line that tells a fault, with its exit status.
fn told(arguments: &[&str], input: &str, status: i32) -> String {
    let done = run(arguments, input);
    let error = String::from_utf8(done.stderr).expect("text");
    assert_eq!(done.status.code(), Some(status), "{arguments:?}: {error}");
    assert_eq!(error.lines().count(), 1, "{arguments:?}: {error}");
    error
}

fn grid_of(written: &str) -> Grid {
    let stated = text::read(written.as_bytes()).expect("a text");
    let bytes = pack(&stated).expect("a bundle");
    Grid::open(bundle_read(&bytes).expect("lists")).expect("a grid")
}

/// Texts of grids of one to six cells, some of them split.
fn texts(seed: u64, number: usize) -> Vec<String> {
    let mut random = Random(seed);
    let text = |at: usize| match at % 4 {
        0 => split_cells(&mut random),
        _ => {
            let cells = 1 + random.below(6) as u16;
            let most = [1, 2, 3, 9][random.below(4)];
            row_of_cells(&mut random, cells, most)
        }
    };
    (0..number).map(text).collect()
}

/// What is booked or walked for each cell is together what the mesh has; the table
/// says the same where it has an entry.
#[test]
fn bookings_add_up() {
    let (mut booked, mut walked) = (0, 0);
    for written in texts(11, 200) {
        let grid = grid_of(&written);
        let mut sum = 0;
        for cell in 0..grid.lists().cells.len() / 4 {
            let counts = counts_of(&grid, cell);
            let own = triangles_of(&grid, cell).expect("triangles");
            if let Some(of) = book(counts) {
                assert_eq!(of.triangles, own);
                booked += 1;
            } else {
                walked += 1;
            }
            if let Some(of) = case(counts) {
                assert_eq!(of.triangles, own);
            }
            sum += own;
        }
        assert_eq!(grid.triangles(), Ok(sum));
        assert_eq!(grid.mesh().expect("a mesh").len() as u64, 11 * sum);
    }
    assert!(booked > 100 && walked > 100, "{booked} {walked}");
}

#[test]
fn bookings_in_words() {
    assert_eq!(
        printed(&["book", "4", "2", "6", "6", "2", "4"], ""),
        "counts 4 2 6 6 2 4: 52 triangles; t 0, d1 4, d2 2\n\
         outside the table of common cells: a count is above 2\n"
    );
    assert!(printed(&["book", "1", "1", "1", "0", "0", "0"], "")
        .ends_with("table of common cells: 1 loop, 1 triangle\n"));
    assert!(printed(&["book", "1", "1", "1", "1", "1", "1"], "").contains(": to be walked: "));
    assert!(told(&["book", "1", "2"], "", 2).contains("six counts or one file"));
    assert!(told(&["book", "1", "1", "1", "0", "0", "x"], "", 2).contains("'x' is no whole"));
    for written in texts(12, 8) {
        let told = printed(&["book"], &written);
        let number = |line: &str, after: &str| -> u64 {
            let rest = line.split(after).nth(1).expect("a number");
            let digits = rest.split(' ').next().expect("a number");
            digits.parse().expect("a number")
        };
        let (cells, all): (Vec<&str>, Vec<&str>) =
            told.lines().partition(|line| line.starts_with("cell "));
        let sum: u64 = cells.iter().map(|line| number(line, ": ")).sum();
        assert_eq!(all.len(), 1);
        assert_eq!(number(all[0], ": "), sum);
        assert!(all[0].ends_with(&format!("{} words, {} bytes", 11 * sum, 44 * sum)));
    }
}

/// All runs joined are the listing, whatever the cuts; a run has its own totals.
#[test]
fn runs_are_the_mesh() {
    let mut random = Random(13);
    for _ in 0..12 {
        let cells = 2 + random.below(5) as u16;
        let written = row_of_cells(&mut random, cells, 3);
        let cuts: Vec<u16> = (1..cells).filter(|_| random.below(2) == 1).collect();
        let list: Vec<String> = cuts.iter().map(u16::to_string).collect();
        let list = list.join(",");
        let whole = printed(&["list", "--any-size"], &written);
        let joined = printed(&["runs", "--cuts", &list], &written);
        assert_eq!(joined.split_once('\n').expect("a comment").1, whole);
        assert!(joined.starts_with('#'));
        let mut triangles = 0;
        for run in 0..=cuts.len() {
            let own = printed(
                &["runs", "--cuts", &list, "--run", &run.to_string()],
                &written,
            );
            printed(&["check-mesh"], &own);
            triangles += own.lines().filter(|line| line.starts_with("T ")).count();
        }
        assert_eq!(triangles, whole.lines().count() - 1);
        let past = (cuts.len() + 1).to_string();
        assert!(
            told(&["runs", "--cuts", &list, "--run", &past], &written, 1).contains("no such run")
        );
        let beyond = cells.to_string();
        assert!(told(&["runs", "--cuts", &beyond], &written, 1).contains("index 0: cuts rise"));
    }
}

/// The example of docs/FORMAT.md, "Runs of cells".
#[test]
fn a_run_in_its_own_names() {
    let three = "citternblaze grid\ncell 0 1 2 3\ncell 0 1 2 4\ncell 0 1 3 4\nedge 0 1 2\n\
        edge 0 2 0\nedge 0 3 0\nedge 0 4 0\nedge 1 2 0\nedge 1 3 0\nedge 1 4 0\nedge 2 3 0\n\
        edge 2 4 0\nedge 3 4 0\n";
    assert_eq!(
        printed(&["runs", "--cuts=1", "--run=1"], three),
        "# run 1 of 2, counted from 0: cells 1 to 2 of the whole, in its own names\n\
         cells 2 edges 9 crossings 2 triangles 4\n\
         T 0 0 0 1 - 3 0 - 1 - 0\nT 0 0 1 0 - 2 0 - 0 - 1\n\
         T 1 0 0 1 - 7 0 - 1 - 0\nT 1 0 1 0 - 2 0 - 0 - 1\n"
    );
}

/// Ends of an edge differ exactly where its count is odd.
#[test]
fn shadings_are_told() {
    let mut shaded = 0;
    for written in texts(14, 60) {
        let grid = grid_of(&written);
        let lists = grid.lists();
        let nodes: BTreeSet<u16> = lists.cells.iter().copied().collect();
        let sides = match grid.shading() {
            Ok(sides) => sides,
            Err(refused) => {
                assert_eq!(refused.number, 20);
                assert!(told(&["shading"], &written, 1).contains("no shading"));
                continue;
            }
        };
        let lines: Vec<String> = nodes
            .iter()
            .map(|&node| format!("node {node} side {}\n", sides[usize::from(node)]))
            .collect();
        assert_eq!(printed(&["shading"], &written), lines.concat());
        for (ends, count) in lists.edges.chunks_exact(2).zip(&lists.counts) {
            let [u, v] = [ends[0], ends[1]].map(|node| sides[usize::from(node)]);
            assert!(u != UNUSED && v != UNUSED);
            assert_eq!(u != v, count % 2 == 1);
        }
        shaded += 1;
    }
    assert!(shaded > 5, "{shaded}");
}

#[test]
fn the_nearest_point_is_told() {
    let mut random = Random(15);
    for written in texts(16, 20) {
        let points = printed(&["export", "--form", "points"], &written);
        let points: Vec<Vec<f64>> = points
            .lines()
            .map(|line| {
                line.split(' ')
                    .map(|n| n.parse().expect("a number"))
                    .collect()
            })
            .collect();
        let query = [0; 3].map(|_| 120.0 * random.fraction() - 10.0);
        let words = query.map(|number| format!("{number:?}"));
        let told = printed(&["nearest", &words[0], &words[1], &words[2]], &written);
        let squared = |point: &[f64]| {
            let d = [0, 1, 2].map(|axis| point[axis] - query[axis]);
            d[0] * d[0] + d[1] * d[1] + d[2] * d[2]
        };
        let all: Vec<f64> = points.iter().map(|point| squared(point)).collect();
        let least = (0..all.len()).fold(None, |best: Option<usize>, at| match best {
            Some(best) if all[best] <= all[at] => Some(best),
            _ => Some(at),
        });
        match least {
            None => assert_eq!(told, "the mesh has no point\n"),
            Some(at) => {
                assert!(told.starts_with(&format!("point {at}: ")), "{told}");
                assert!(
                    told.ends_with(&format!("\ndistance {:?}\n", all[at].sqrt())),
                    "{told}"
                );
            }
        }
    }
}

#[test]
fn wrong_queries_are_told() {
    let one = &texts(17, 1)[0];
    assert!(told(&["nearest", "1", "nan", "2"], one, 1).contains("y of the place asked for: "));
    assert!(told(&["nearest", "1", "2"], one, 2).contains("nearest wants three numbers"));
    assert!(told(&["nearest", "1", "2", "x"], one, 2).contains("'x' is no number"));
    assert_eq!(nearest(&[], [0.0; 3]), Ok(None));
    let refused = Refusal {
        number: 23,
        place: 0,
    };
    assert_eq!(nearest(&[0.0], [0.0; 3]), Err(refused));
}

/// A count that is set gives the text that has it from the start.
#[test]
fn counts_are_set() {
    let mut random = Random(18);
    for written in texts(19, 20) {
        let stated = text::read(written.as_bytes()).expect("a text");
        let at = random.below(stated.edges.len());
        let [u, v] = stated.edges[at].it.ends;
        let count = random.below(5);
        let list: Vec<String> = random.rising(count).iter().map(f64::to_string).collect();
        let list = list.join(",");
        let arguments = [u.to_string(), v.to_string(), count.to_string()];
        let [u, v, n] = [0, 1, 2].map(|at| arguments[at].as_str());
        let done = run(&["set-count", u, v, n, "--fractions", &list], &written);
        assert!(done.status.success(), "{done:?}");
        let note = String::from_utf8(done.stderr).expect("text");
        let set = String::from_utf8(done.stdout).expect("text");
        let grid = grid_of(&set);
        let mut counts = grid_of(&written).lists().counts.clone();
        counts[at] = count as u16;
        assert_eq!(grid.lists().counts, counts);
        let crossings = grid.crossings();
        assert!(
            note.contains(&format!("the grid has {crossings} crossing")),
            "{note}"
        );
        assert_eq!(grid.check(), Ok(crossings));
        // the fractions fit: the mesh can be placed
        printed(&["export", "--form", "points"], &set);
        let short = run(&["set-count", u, v, "6"], &written);
        let even = String::from_utf8(short.stdout).expect("text");
        assert!(!even.contains(&format!("fractions {u} {v} ")));
        printed(&["export", "--form", "points"], &even);
    }
}

#[test]
fn settings_that_are_refused_are_told() {
    let octagon = concat!(env!("CARGO_MANIFEST_DIR"), "/../samples/texts/octagon.txt");
    let faults: [(&[&str], i32, &str); 6] = [
        (
            &["0", "1", "4096"],
            1,
            "edge 0 1: the count 4096 is over 4,095",
        ),
        (&["0", "9", "1"], 1, "the grid has no edge 0 9"),
        (
            &["0", "1", "65536"],
            2,
            "'65536' is no whole number from 0 to 65535",
        ),
        (&["0", "1"], 2, "set-count wants two nodes and a count"),
        (
            &["0", "1", "2", "--fractions", "0.5"],
            2,
            "1 fraction for 2 crossings",
        ),
        (
            &["0", "1", "2", "--fractions", "0.5,0.5"],
            2,
            "fractions rise",
        ),
    ];
    for (words, status, fault) in faults {
        let mut arguments = vec!["set-count"];
        arguments.extend_from_slice(words);
        if words.len() > 2 {
            arguments.push(octagon);
        }
        assert!(told(&arguments, "", status).contains(fault), "{words:?}");
    }
}

#[test]
fn grids_are_checked() {
    let good = &texts(20, 2)[1];
    let crossings = grid_of(good).crossings();
    let checked = printed(&["check"], good);
    assert!(
        checked.ends_with(&format!("grid: accepted, crossings {crossings}\n")),
        "{checked}"
    );
    let folder = Path::new(env!("CARGO_MANIFEST_DIR")).join("../samples");
    let check = |name: &str| {
        let file = folder.join(format!("{name}.bundle"));
        let done = run(&["check", file.to_str().expect("a name")], "");
        (
            done.status.code(),
            String::from_utf8(done.stdout).expect("text"),
        )
    };
    assert_eq!(
        check("two-on-01"),
        (
            Some(0),
            "bundle: 70 bytes, cells 1, edges 6\ngrid: accepted, crossings 2\n".to_string()
        )
    );
    assert_eq!(check("refused-6-unsorted").0, Some(1));
    assert!(check("refused-6-unsorted")
        .1
        .ends_with("\ngrid: refused 6 at 2\n"));
    assert_eq!(
        check("refused-13-cut-in-body"),
        (Some(1), "bundle: refused 13 at 57\n".to_string())
    );
    assert!(check("refused-22-lowest")
        .1
        .starts_with("bundle: refused 22 at "));
}

/// The example of docs/FORMAT.md, "Flat sections".
const SHEET: &str = "citternblaze sheet\ntriangle 0 1 2\ntriangle 0 1 3\ntriangle 0 2 3\n\
    edge 0 1 2\nedge 0 2 2\nedge 0 3 2\nedge 1 2 1\nedge 1 3 0\nedge 2 3 0\n";

#[test]
fn chains_are_told() {
    assert_eq!(
        printed(&["chains"], SHEET),
        "3 triangles, 6 edges, 7 crossings, 2 chains\n\
         chain 0, closed, 3 crossings: 0 2 4\n\
         chain 1, open, 4 crossings: 1 5 3 6\n\
         unjoined in triangle 0, nodes 0 1 2: crossing 1, index 1 of the edge 0 1; left over: \
         the triangle's counts have an odd sum, and the largest leaves one\n"
    );
}

#[test]
fn sheets_that_are_refused_are_told() {
    let faults = [
        (
            "citternblaze grid\n",
            "line 1: the first line of a sheet's text is",
        ),
        ("citternblaze sheet\n", "0 triangles: there is no triangle"),
        (
            "+cell 0 1 2 3",
            "line 11: 'cell' is none of triangle, edge, node, fractions",
        ),
        (
            "+triangle 0 1",
            "line 11: a triangle has three nodes, and here is less",
        ),
        (
            "+triangle 2 1 3",
            "line 11: triangle 3 with the nodes 2 1 3: its nodes do not increase",
        ),
        (
            "+triangle 0 1 2",
            "line 11: triangle 3 with the nodes 0 1 2: triangle 0 has the same",
        ),
        (
            "+triangle 0 1 4",
            "its edge 0 1 is in the triangles 0 and 1 already",
        ),
        (
            "+triangle 1 2 4\n",
            "line 11: triangle 3 with the nodes 1 2 4: its edges 1 4, 2 4 are",
        ),
        (
            "+edge 2 4 0",
            "line 11: edge 6 with the ends 2 4 and the count 0: no triangle has",
        ),
        (
            "+edge 0 1 0",
            "line 11: edge 6 with the ends 0 1 and the count 0: it must stand before",
        ),
        (
            "+node 0 1",
            "line 11: a node's place has the node and two numbers, and here is less",
        ),
        (
            "+node 0 1 2\nnode 0 1 3",
            "line 12: node 0 has a place on line 11 already",
        ),
    ];
    for (lines, fault) in faults {
        let input = match lines.strip_prefix('+') {
            Some(more) => format!("{SHEET}{more}\n"),
            None => lines.to_string(),
        };
        let told = told(&["chains"], &input, 1);
        assert!(told.contains(fault), "{lines}: {told}");
    }
}

/// A disc of triangles round node 0, with random counts, as lists.
fn disc(random: &mut Random, number: u16, most: usize) -> Lists {
    let rim = shuffled(random, number);
    let mut triangles = Vec::new();
    let mut edges = BTreeSet::new();
    for at in 0..rim.len() {
        let [u, v] = [rim[at] + 1, rim[(at + 1) % rim.len()] + 1];
        let (low, high) = (u.min(v), u.max(v));
        triangles.extend([0, low, high]);
        edges.extend([[0, low], [0, high], [low, high]]);
    }
    let edges: Vec<[u16; 2]> = edges.into_iter().collect();
    Lists {
        cells: triangles,
        counts: edges
            .iter()
            .map(|_| random.below(most + 1) as u16)
            .collect(),
        edges: edges.into_iter().flatten().collect(),
    }
}

/// The chains have the segments that the face call tells, each once: an open chain
/// one less than crossings, a closed one as many.
#[test]
fn random_sheets_have_their_chains() {
    let mut random = Random(21);
    for _ in 0..300 {
        let number = 3 + random.below(8) as u16;
        let sheet = Sheet::open(disc(&mut random, number, 6)).expect("a sheet");
        let chains = sheet.chains().expect("chains");
        let joinings = Joinings::of(&sheet);
        let mut steps = BTreeSet::new();
        let mut all = 0;
        for chain in &chains {
            let crossings = &chain.crossings;
            all += crossings.len();
            let closing = chain
                .closed
                .then(|| [crossings[crossings.len() - 1], crossings[0]]);
            let inner = crossings.windows(2).map(|two| [two[0], two[1]]);
            for [a, b] in inner.chain(closing) {
                steps.insert([a.min(b) as usize, a.max(b) as usize]);
            }
        }
        let segments: BTreeSet<[usize; 2]> =
            joinings.segments.iter().map(|of| of.crossings).collect();
        assert_eq!(steps, segments);
        let open = chains.iter().filter(|chain| !chain.closed).count();
        assert_eq!(joinings.segments.len(), all - open);
        let along = joinings.segments.iter().filter(|of| of.how == How::Along);
        let in_one_edge = along.filter(|of| {
            let [a, b] = of.crossings.map(|n| edge_of(&sheet, n));
            a == b
        });
        let along = joinings.segments.iter().filter(|of| of.how == How::Along);
        assert_eq!(in_one_edge.count(), along.count());
        let told = chains::in_words(&sheet, &chains);
        assert_eq!(
            told.lines().count(),
            1 + chains.len() + joinings.unjoined.len()
        );
    }
}

fn edge_of(sheet: &Sheet, crossing: usize) -> usize {
    let mut start = 0;
    let counts = sheet.lists().counts.iter();
    let edge = counts.take_while(|&&count| {
        start += usize::from(count);
        start <= crossing
    });
    edge.count()
}

#[test]
fn sheets_are_read() {
    let more = "node 0 0 0\nnode 1 -1 -1.5\nnode 2 1 -1\nnode 3 0 2e0\nfractions 0 1 0.25 0.5\n";
    let stated = sheet_text::read(format!("{SHEET}{more}").as_bytes()).expect("a sheet");
    assert_eq!(stated.triangles.len(), 3);
    let places = stated.node_places().expect("places");
    assert_eq!((places[&1].x, places[&1].y), (-1.0, -1.5));
    let (fractions, even) = stated.all_fractions().expect("fractions");
    assert_eq!(fractions.len(), 7);
    assert_eq!((fractions[0], fractions[1], even), (0.25, 0.5, 3));
    let wrong = [
        (
            "fractions 0 1 0.5 0.5",
            "edge 0 1: its fraction 0.5 is not above the one before it",
        ),
        (
            "fractions 0 1 0.5",
            "edge 0 1 has 2 crossings, and this line has 1 fraction",
        ),
        ("fractions 0 9 0.5", "the sheet has no such edge"),
    ];
    for (line, fault) in wrong {
        let stated = sheet_text::read(format!("{SHEET}{line}\n").as_bytes()).expect("a sheet");
        let told = stated.all_fractions().expect_err("a fault").to_string();
        assert_eq!(told, format!("line 11: {fault}"));
    }
}

/// The functions that the two headers declare.
fn functions(read: impl Fn(&str) -> String) -> BTreeSet<String> {
    let results = ["size_t ", "uint32_t ", "uint64_t "];
    let name = |line: &str| {
        let line = results.iter().find_map(|result| line.strip_prefix(result));
        let line = line?.strip_prefix("citternblaze_")?;
        line.split('(').next().map(str::to_string)
    };
    let headers = ["include/citternblaze.h", "include/citternblaze_host.h"];
    let lines = headers.map(read).concat();
    lines.lines().filter_map(name).collect()
}

/// Each function of the headers has a command in FORMAT's table, which the program
/// knows, and is called in bindings/ where answers are made enums and structs.
#[test]
fn each_function_has_a_command() {
    let root = Path::new(env!("CARGO_MANIFEST_DIR")).join("..");
    let read = |file: &str| fs::read_to_string(root.join(file)).expect("a file");
    let functions = functions(read);
    assert_eq!(functions.len(), 23, "{functions:?}");
    let files = [
        "bundle", "counts", "face", "flat", "grid", "host", "points", "runs",
    ];
    let calls = files.map(|file| read(&format!("bindings/src/{file}.rs")));
    let calls = calls.concat();
    let format = read("docs/FORMAT.md");
    let help = printed(&["--help"], "");
    for name in functions {
        let ways = [
            format!("LINKED.{name}("),
            format!("declared::citternblaze_{name}("),
        ];
        assert!(ways.iter().any(|way| calls.contains(way)), "{name}");
        let row = format
            .lines()
            .find(|line| line.starts_with(&format!("| `citternblaze_{name}` | `citternblaze ")));
        let row = row.unwrap_or_else(|| panic!("no command for {name} in FORMAT"));
        let command = row.split("`citternblaze ").nth(1).expect("a command");
        let command = command.split(['`', ' ']).next().expect("a command");
        assert!(help.contains(&format!("\n  {command} ")), "{command}");
    }
}

/// A picture has a line for each segment, in the colour of its chain, and a name for
/// each node and crossing.
#[test]
fn sheets_are_drawn() {
    let path = concat!(env!("CARGO_MANIFEST_DIR"), "/../samples/texts/sheet.sheet");
    let picture = printed(&["chains", "--picture", "--crossings", path], "");
    let lines = |colour: &str| {
        let stroke = format!("stroke=\"{colour}\" stroke-width=\"0.45\"");
        picture.matches(&stroke).count()
    };
    // a line more in the legend
    assert_eq!([lines(BLUE), lines(VERMILION)], [3 + 1, 3 + 1]);
    for name in ["node 0", "node 3", "0", "6", "chain 1: open, 4 crossings"] {
        assert!(picture.contains(&format!(">{name}</text>")), "{name}");
    }
    assert!(picture.contains("unjoined there: left over"));
    assert!(picture.contains("width=\"210mm\""));
    let unplaced = told(&["chains", "--picture"], SHEET, 1);
    assert!(
        unplaced.contains("node 0 of the sheet has no place"),
        "{unplaced}"
    );
    let small = ["chains", "--picture", "--scale", "9:1", "--unit", "m", path];
    told(&small, "", 1);
    assert!(told(&["chains", "--picture", "--scale", "x", path], "", 2).contains("--scale"));
}
