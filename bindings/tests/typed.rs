//! What the calls answer as enums, structs and lists of their own, against the numbers
//! and areas of the library.

use std::fs;
use std::path::{Path, PathBuf};

use citternblaze_calls::counts::{book, case};
use citternblaze_calls::flat::{self, Sheet};
use citternblaze_calls::library::{of_bits, GridLists, LINKED};
use citternblaze_calls::points::nearest;
use citternblaze_calls::*;

/// The numbers that a call answers.
fn numbers(call: impl FnOnce(&mut [u64]) -> usize) -> Vec<u64> {
    let mut area = [7; ANSWER_WORDS];
    let answered = call(&mut area);
    area[..answered].to_vec()
}

/// 0 and the numbers of a result, or those of a refusal.
fn told<T>(answer: Result<T, Refusal>, values: impl FnOnce(T) -> Vec<u64>) -> Vec<u64> {
    match answer {
        Ok(result) => [vec![DONE], values(result)].concat(),
        Err(refused) => vec![refused.number, refused.place],
    }
}

fn numbers_of(join: Join) -> Vec<u64> {
    match join {
        Join::Joined { edge, index, how } => {
            let how = match how {
                How::Round(corner) => vec![ROUND, corner as u64],
                How::Along => vec![ALONG],
            };
            [vec![JOINED, edge as u64, index as u64], how].concat()
        }
        Join::Unjoined(Why::Left) => vec![UNJOINED, LEFT],
        Join::Unjoined(Why::Skipped) => vec![UNJOINED, SKIPPED],
        Join::NoCrossing => vec![NO_CROSSING],
    }
}

/// All lists of so many counts up to `most`.
fn all_counts<const N: usize>(most: u16) -> impl Iterator<Item = [u16; N]> {
    let base = usize::from(most) + 1;
    (0..base.pow(N as u32)).map(move |code| {
        let mut left = code;
        [(); N].map(|()| {
            let count = (left % base) as u16;
            left /= base;
            count
        })
    })
}

#[test]
fn joins_of_faces() {
    let mut seen = Vec::new();
    for counts in all_counts::<3>(4) {
        for (edge, index) in (0..4).flat_map(|edge| (0..6).map(move |index| (edge, index))) {
            let [asked, at] = [edge, index].map(|number| number as u32);
            let own = numbers_of(face(counts, edge, index));
            assert_eq!(own, numbers(|area| LINKED.face(counts, asked, at, area)));
            let of_sheet = numbers_of(flat::face(counts, edge, index));
            let expected = numbers(|area| LINKED.flat_face(counts, asked, at, area));
            assert_eq!(of_sheet, expected);
            seen.push(own);
        }
    }
    for length in [1, 2, 4, 5] {
        assert!(seen.iter().any(|numbers| numbers.len() == length));
    }
    // numbers that 32 bits do not hold are no crossing's, and not those of the first
    assert_ne!(face([2, 0, 0], 0, 0), Join::NoCrossing);
    for call in [face, flat::face] {
        assert_eq!(call([2, 0, 0], 1 << 32, 0), Join::NoCrossing);
        assert_eq!(call([2, 0, 0], 0, 1 << 32), Join::NoCrossing);
    }
}

#[test]
fn bookings_and_cases() {
    let (mut booked, mut common) = (0, 0);
    for counts in all_counts(3) {
        let values = book(counts).map_or(vec![], |of| vec![of.corners, of.d1, of.d2, of.triangles]);
        booked += values.len() / 4;
        let expected = numbers(|area| LINKED.book(counts, area));
        assert_eq!([vec![DONE], values].concat(), expected);
        let values = case(counts).map_or(vec![], |of| vec![of.loops, of.triangles]);
        common += values.len() / 2;
        let expected = numbers(|area| LINKED.case(counts, area));
        assert_eq!([vec![DONE], values].concat(), expected);
    }
    assert_eq!(common, 729);
    assert!((1..4_096).contains(&booked));
}

#[test]
fn nearest_points() {
    let query = [1.0, 2.0, 2.0];
    let lists: [&[f64]; 4] = [
        &[],
        &[9.0, 9.0, 9.0, 0.0, 0.0, 0.0],
        &[1.0, 2.0],
        &[1.0, f64::NAN, 2.0],
    ];
    for points in lists {
        let own = told(nearest(points, query), |found| {
            found.map_or(vec![], |of| {
                vec![of.point as u64, of.squared_distance.to_bits()]
            })
        });
        assert_eq!(own, numbers(|area| LINKED.nearest(points, query, area)));
    }
    let found = nearest(lists[1], query).expect("points").expect("one");
    assert_eq!((found.point, found.squared_distance), (1, 9.0));
}

/// The bundles of samples/.
fn bundles() -> Vec<(PathBuf, Vec<u8>)> {
    let folder = Path::new(env!("CARGO_MANIFEST_DIR")).join("../samples");
    let entries = fs::read_dir(folder).expect("the samples");
    let paths = entries.map(|entry| entry.expect("an entry").path());
    let bundles = paths.filter(|path| path.extension().map_or(false, |of| of == "bundle"));
    let read = |path: PathBuf| {
        let bytes = fs::read(&path).expect("a sample");
        (path, bytes)
    };
    let all: Vec<_> = bundles.map(read).collect();
    assert!(all.len() > 30);
    all
}

#[test]
fn records() {
    let mut kinds = [0; 6];
    for (path, bytes) in bundles() {
        let most = bytes.len().min(3_000);
        for start in (0..=most).chain([usize::MAX]) {
            let read = record(&bytes, start);
            if let Ok(of) = read {
                let body = numbers(|area| LINKED.record_body(&bytes, start, area));
                let from = of.body.as_ptr() as usize - bytes.as_ptr() as usize;
                assert_eq!(body, [from as u64, of.body.len() as u64]);
            }
            let own = told(read, |of| vec![number(of.kind), of.next as u64]);
            let expected = numbers(|area| LINKED.record(&bytes, start, area));
            assert_eq!(own, expected, "{path:?} at {start}");
            kinds[read.map_or(0, |of| number(of.kind)) as usize] += 1;
        }
    }
    assert!(kinds.iter().all(|&seen| seen > 0), "{kinds:?}");
}

fn number(kind: Kind) -> u64 {
    match kind {
        Kind::Cell => KIND_CELL,
        Kind::Edge => KIND_EDGE,
        Kind::End => KIND_END,
        Kind::WideEdge => KIND_WIDE_EDGE,
        Kind::Look => KIND_LOOK,
    }
}

/// The lists of a bundle in areas that are longer than any.
fn read_in_long_areas(bytes: &[u8]) -> Result<Lists, Refusal> {
    let mut lists = Lists {
        cells: vec![7; bytes.len()],
        edges: vec![7; bytes.len()],
        counts: vec![7; bytes.len()],
    };
    let Lists {
        cells,
        edges,
        counts,
    } = &mut lists;
    match numbers(|area| LINKED.bundle_read(bytes, cells, edges, counts, area))[..] {
        [DONE, many, of_edges] => {
            cells.truncate(4 * many as usize);
            edges.truncate(2 * of_edges as usize);
            counts.truncate(of_edges as usize);
            Ok(lists)
        }
        [number, place] => Err(Refusal { number, place }),
        ref other => panic!("{other:?}"),
    }
}

#[test]
fn bundles_both_ways() {
    let mut refused = 0;
    for (path, bytes) in bundles() {
        let read = bundle_read(&bytes);
        assert_eq!(read, read_in_long_areas(&bytes), "{path:?}");
        let [cells, edges] = [host::bundle_cells(&bytes), host::bundle_edges(&bytes)];
        match read {
            Ok(lists) => {
                assert_eq!(host::bundle_refusal(&bytes), 0);
                assert_eq!(cells, lists.cells.len() as u64 / 4);
                assert_eq!(edges, lists.counts.len() as u64);
                let written = bundle_write(&lists).expect("lists of a bundle");
                assert_eq!(bundle_read(&written), Ok(lists), "{path:?}");
            }
            Err(of) => {
                assert_eq!(u64::from(host::bundle_refusal(&bytes)), of.number);
                assert_eq!([cells, edges], [0, 0]);
                refused += 1;
            }
        }
    }
    assert!(refused > 5);
}

#[test]
fn a_written_bundle_has_no_more_bytes() {
    let lists = Lists {
        cells: vec![0, 1, 2, 3],
        edges: vec![0, 1, 0, 2],
        counts: vec![255, 256],
    };
    let bytes = bundle_write(&lists).expect("a bundle");
    assert_eq!(bytes.len(), 12 + 9 + 10 + 4);
    assert_eq!(bytes[bytes.len() - 4..], [2, 0, 3, 0]);
    let odd = Lists {
        cells: vec![0, 1, 2],
        ..lists
    };
    let refused = Refusal {
        number: REFUSED_RECORDS,
        place: 0,
    };
    assert_eq!(bundle_write(&odd), Err(refused));
}

/// The accepted grids of samples/ with their words, but for large ones.
fn grids() -> Vec<(Grid, Vec<u32>)> {
    let lists = bundles().into_iter().flat_map(|of| bundle_read(&of.1));
    let grids = lists.flat_map(Grid::open);
    let with_words = |grid: Grid| {
        let words = grid.mesh_within(50_000).ok()?;
        Some((grid, words))
    };
    let all: Vec<_> = grids.filter_map(with_words).collect();
    assert!(all.len() > 15);
    all
}

/// The starts by the counts alone.
fn sums(counts: &[u16]) -> Vec<u32> {
    let mut sum = 0;
    let mut start = |&count: &u16| {
        sum += u32::from(count);
        sum - u32::from(count)
    };
    counts.iter().map(&mut start).collect()
}

fn lent<'a>(grid: &'a Grid, starts: &'a [u32]) -> GridLists<'a> {
    GridLists {
        cells: &grid.lists().cells,
        edges: &grid.lists().edges,
        counts: &grid.lists().counts,
        starts,
    }
}

#[test]
fn grids_that_are_refused() {
    let mut refused = 0;
    for lists in bundles().into_iter().flat_map(|of| bundle_read(&of.1)) {
        let mut starts = vec![7; lists.counts.len()];
        let expected = numbers(|area| {
            LINKED.open(&lists.cells, &lists.edges, &lists.counts, &mut starts, area)
        });
        let own = told(Grid::open(lists), |grid| vec![grid.crossings() as u64]);
        assert_eq!(own, expected);
        refused += usize::from(own[0] != DONE);
    }
    assert!(refused > 5, "{refused}");
}

#[test]
fn crossings_and_their_edges() {
    for (grid, _) in grids() {
        let counts = &grid.lists().counts;
        let mut crossing = 0;
        for (edge, &count) in counts.iter().enumerate() {
            assert_eq!(grid.start(edge), crossing);
            for index in 0..usize::from(count) {
                assert_eq!(grid.edge_of(crossing), Some((edge, index)));
                crossing += 1;
            }
        }
        assert_eq!(grid.crossings(), crossing);
        assert_eq!(grid.check(), Ok(crossing));
        assert_eq!(grid.edge_of(crossing), None);
        assert_eq!(grid.edge_of(usize::MAX), None);
    }
}

#[test]
fn words_of_meshes() {
    for (grid, words) in grids() {
        let starts = sums(&grid.lists().counts);
        let mut area = vec![7; words.len() + 5];
        let expected = numbers(|answer| LINKED.mesh(lent(&grid, &starts), &mut area, answer));
        assert_eq!(area, [&words[..], &[7; 5]].concat());
        let triangles = words.len() / TRIANGLE_WORDS;
        assert_eq!(grid.triangles(), Ok(triangles as u64));
        let meshed = grid.mesh_into(&mut area);
        assert_eq!(told(meshed, |of| vec![of.triangles, of.splits]), expected);
        assert_eq!(grid.mesh(), Ok(words.clone()));
        assert_eq!(grid.mesh_within(triangles), Ok(words.clone()));
        if triangles > 0 {
            let refused = Refusal {
                number: REFUSED_MESH_AREA,
                place: triangles as u64,
            };
            assert_eq!(grid.mesh_within(triangles - 1), Err(refused));
        }
        assert_eq!(grid.mesh_joined(&[]), Ok(words.clone()));
        assert_eq!(grid.mesh_run(&[], 0), Ok(words));
    }
}

#[test]
fn runs_of_cells() {
    let mut cut = 0;
    for (grid, words) in grids() {
        let cells = grid.lists().cells.len() / 4;
        let refused = |number, place| Err(Refusal { number, place });
        assert_eq!(grid.mesh_joined(&[0]), refused(REFUSED_CUTS, 0));
        assert_eq!(grid.mesh_run(&[], 1), refused(REFUSED_NO_RUN, 1));
        if cells > 1 {
            let runs = [0, 1].map(|run| grid.mesh_run(&[1], run).expect("a run").len());
            assert_eq!(runs[0] + runs[1], words.len());
            assert_eq!(grid.mesh_joined(&[1]), Ok(words));
            cut += 1;
        }
    }
    assert!(cut > 3);
}

#[test]
fn loops_of_cells() {
    let mut types = [0; 4];
    for (grid, _) in grids() {
        let starts = sums(&grid.lists().counts);
        let cells = (grid.lists().cells.len() / 4).min(20);
        for ask in (0..=cells).flat_map(|cell| (0..6).map(move |index| [cell, index])) {
            let found = grid.loops(ask[0], ask[1]);
            if let Ok(Some(of)) = found {
                types[of.kind.number() as usize] += 1;
            }
            let own = told(found, |of| of.map_or(vec![], values));
            let expected = numbers(|area| LINKED.loops(lent(&grid, &starts), ask, area));
            assert_eq!(own, expected);
        }
    }
    assert!(types.iter().all(|&seen| seen > 0), "{types:?}");
}

fn values(of: Loop) -> Vec<u64> {
    let mut values = vec![of.p0, of.length, u64::from(of.normal), of.kind.number()];
    match of.kind {
        LoopType::Contractible => {}
        LoopType::Corner(node) | LoopType::Diagonal(node) | LoopType::LowestCorner(node) => {
            values.push(node);
        }
    }
    values
}

#[test]
fn shadings() {
    let mut without = 0;
    for (grid, _) in grids() {
        let starts = sums(&grid.lists().counts);
        let mut area = vec![7; SHADING_BYTES];
        let expected = numbers(|answer| LINKED.shading(lent(&grid, &starts), &mut area, answer));
        match grid.shading() {
            Ok(sides) => assert_eq!((&expected[..], area), (&[DONE][..], sides)),
            Err(of) => {
                assert_eq!([of.number, of.place], expected[..]);
                without += 1;
            }
        }
    }
    assert!(without > 0);
}

#[test]
fn places_of_points() {
    for (grid, _) in grids() {
        let starts = sums(&grid.lists().counts);
        let highest = grid.lists().cells.iter().max().expect("a cell");
        let nodes: Vec<f64> = (0..3 * u32::from(highest + 1)).map(f64::from).collect();
        let evenly =
            |&count: &u16| (0..count).map(move |at| f64::from(at + 1) / f64::from(count + 1));
        let fractions: Vec<f64> = grid.lists().counts.iter().flat_map(evenly).collect();
        let room = fractions.len() + grid.mesh().expect("a mesh").len();
        let own = grid.places(&nodes, &fractions, room).expect("places");
        let mut area = vec![7; 3 * room];
        let bits = of_bits(&mut area);
        let lists = lent(&grid, &starts);
        let answer = numbers(|area| LINKED.places(lists, &nodes, &fractions, bits, area));
        assert_eq!(answer, [DONE, own.len() as u64 / 3]);
        let (written, kept) = area.split_at(own.len());
        assert!(own
            .iter()
            .map(|number| number.to_bits())
            .eq(written.iter().copied()));
        assert!(kept.iter().all(|&bits| bits == 7));
        let refused = grid.places(&nodes, &[2.0], room).expect_err("one fraction");
        assert!([REFUSED_PLACE_LISTS, REFUSED_FRACTION].contains(&refused.number));
    }
}

#[test]
fn counts_that_are_set() {
    for (mut grid, _) in grids() {
        let mut lists = grid.lists().clone();
        let last = lists.counts.len() - 1;
        for (edge, count) in [(0, 3), (last, 0), (last / 2, 5)] {
            lists.counts[edge] = count;
            let opened = Grid::open(lists.clone());
            assert_eq!(grid.set_count(edge, count), opened.clone().map(|_| ()));
            let opened = opened.expect("few crossings");
            assert_eq!(grid.lists(), &lists);
            assert_eq!(grid.crossings(), opened.crossings());
            assert!((0..=last).all(|edge| grid.start(edge) == opened.start(edge)));
        }
        let before = grid.crossings();
        let refused = grid
            .set_count(0, HIGHEST_COUNT + 1)
            .expect_err("a high count");
        assert_eq!(refused.number, REFUSED_COUNT);
        let refused = grid.set_count(last + 1, 0).expect_err("no edge");
        assert_eq!(refused.number, REFUSED_NO_EDGE);
        assert_eq!((grid.lists(), grid.crossings()), (&lists, before));
    }
}

#[test]
fn chains_of_sheets() {
    let edges = [0, 1, 0, 2, 1, 2, 1, 3, 2, 3];
    let mut closed = [0; 2];
    for counts in all_counts::<5>(3) {
        let lists = Lists {
            cells: vec![0, 1, 2, 1, 2, 3],
            edges: edges.to_vec(),
            counts: counts.to_vec(),
        };
        let sheet = Sheet::open(lists.clone()).expect("two triangles");
        assert_eq!(sheet.lists(), &lists);
        let sum: u16 = counts.iter().sum();
        assert_eq!(sheet.crossings(), usize::from(sum));
        let mut words = Vec::new();
        for chain in sheet.chains().expect("chains") {
            words.extend([u32::from(chain.closed), chain.crossings.len() as u32]);
            words.extend(&chain.crossings);
            closed[usize::from(chain.closed)] += 1;
        }
        let mut area = vec![7; words.len() + 3];
        let answer =
            numbers(|answer| LINKED.flat_chains(&lists.cells, &edges, &counts, &mut area, answer));
        assert_eq!(answer, [DONE, words.len() as u64]);
        assert_eq!(area, [&words[..], &[7; 3]].concat());
    }
    assert!(closed.iter().all(|&seen| seen > 0));
    let refused = Sheet::open(Lists::default()).expect_err("no triangle");
    assert_eq!(refused.number, REFUSED_CELL_LIST);
}
