//! The calls on counts, points, sheets and bundles. Each is made once before it is
//! timed, and must answer and write what the second implementation does.

use compare::bundles::{written, END};
use compare::{calls, expected};
use reference::booking;
use reference::bundle;
use reference::cases;
use reference::cell::CellWalker;
use reference::face;
use reference::flat::{self, Tracer};
use reference::gen::{Rng, Sample};
use reference::grid::MAX_CELLS;
use reference::nearest;
use reference::places::Place;
use reference::sheets::FlatSample;

use crate::on_grids::{copy_of, done, told, BLANK};
use crate::timing::Calls;

/// A crossing of a face: its counts, an edge, an index.
pub type Asked = ([u16; 3], u32, u32);

/// The face call for each of these crossings; of a flat grid, or not.
pub fn faces(asked: &[Asked], flat: bool) -> Calls {
    let [one, two] = [asked.to_vec(), asked.to_vec()];
    let proved = if flat { calls::flat_face } else { calls::face };
    let second = if flat { flat::join } else { face::join };
    let numbers = if flat {
        expected::flat_face
    } else {
        expected::face
    };
    let mut answer = BLANK;
    for &(counts, edge, index) in asked {
        proved(counts, edge, index, &mut answer);
        told(&answer, &numbers(counts, edge, index));
    }
    Calls {
        proved: Box::new(move || {
            for &(counts, edge, index) in &one {
                proved(counts, edge, index, &mut answer);
            }
        }),
        second: Box::new(move || {
            let joined = |&(counts, edge, index): &Asked| {
                let answer = second(counts.map(u32::from), edge, index);
                usize::from(answer == face::Join::NoCrossing)
            };
            assert_eq!(two.iter().map(joined).sum::<usize>(), 0);
        }),
        copy: None,
    }
}

/// The booking of each of these cells; the second implementation walks them.
pub fn book(cells: &[[u16; 6]]) -> Calls {
    let [one, two] = [cells.to_vec(), cells.to_vec()];
    let mut walker = CellWalker::default();
    let mut answer = BLANK;
    for &counts in cells {
        calls::book(counts, &mut answer);
        told(&answer, &expected::book(&mut walker, counts));
    }
    Calls {
        proved: Box::new(move || {
            for &counts in &one {
                calls::book(counts, &mut answer);
            }
        }),
        second: Box::new(move || {
            for &counts in &two {
                done(booking::book(&mut walker, counts));
            }
        }),
        copy: None,
    }
}

/// The table of common cells, for each of these.
pub fn case(cells: &[[u16; 6]]) -> Calls {
    let [one, two] = [cells.to_vec(), cells.to_vec()];
    let mut walker = CellWalker::default();
    let mut answer = BLANK;
    for &counts in cells {
        calls::case(counts, &mut answer);
        told(&answer, &expected::case(&mut walker, counts));
    }
    Calls {
        proved: Box::new(move || {
            for &counts in &one {
                calls::case(counts, &mut answer);
            }
        }),
        second: Box::new(move || {
            for &counts in &two {
                done(cases::case(&mut walker, counts));
            }
        }),
        copy: None,
    }
}

/// The point of a list that is nearest to the origin.
pub fn nearest(points: &[f64]) -> Calls {
    let [one, two] = [points.to_vec(), points.to_vec()];
    let mut answer = BLANK;
    calls::nearest(points, [0.0; 3], &mut answer);
    told(&answer, &expected::nearest(points, [0.0; 3]));
    let origin = Place {
        x: 0.0,
        y: 0.0,
        z: 0.0,
    };
    Calls {
        proved: Box::new(move || done(calls::nearest(&one, [0.0; 3], &mut answer))),
        second: Box::new(move || done(nearest::nearest(&two, origin))),
        copy: None,
    }
}

pub fn flat_check(sheet: &FlatSample) -> Calls {
    let [one, two] = [sheet.clone(), sheet.clone()];
    let mut answer = BLANK;
    let mut proved = move || {
        calls::flat_check(&one.triangles, &one.edges, &one.counts, &mut answer);
        answer
    };
    told(&proved(), &expected::flat_check(sheet));
    Calls {
        proved: Box::new(move || done(proved())),
        second: Box::new(move || done(flat::check(&two.sheet()))),
        copy: None,
    }
}

/// The chains in an area of so many words.
pub fn chains(sheet: &FlatSample, room: usize) -> Calls {
    let [one, two] = [sheet.clone(), sheet.clone()];
    let mut areas = [(); 2].map(|()| vec![1; room]);
    let mut answer = BLANK;
    let mut tracer = Tracer::default();
    calls::flat_chains(
        &one.triangles,
        &one.edges,
        &one.counts,
        &mut areas[0],
        &mut answer,
    );
    let numbers = expected::flat_chains(&mut tracer, &two, &mut areas[1]);
    told(&answer, &numbers);
    assert!(areas[0] == areas[1]);
    let copy = copy_of(&areas[0][..numbers[1] as usize]);
    let [mut here, mut there] = areas;
    Calls {
        proved: Box::new(move || {
            let FlatSample {
                triangles,
                edges,
                counts,
            } = &one;
            calls::flat_chains(triangles, edges, counts, &mut here, &mut answer);
        }),
        second: Box::new(move || done(tracer.chains(&two.sheet(), &mut there))),
        copy,
    }
}

/// The bundle of the lists with a look at each of the first edges, so many, in any
/// order.
pub fn with_looks(lists: &Sample, many: usize, rng: &mut Rng) -> Vec<u8> {
    let mut bytes = written(lists).expect("formed lists");
    let mut looks: Vec<[u16; 3]> = lists.edges[..2 * many]
        .chunks(2)
        .map(|ends| [ends[0], ends[1], rng.below(400) as u16])
        .collect();
    rng.shuffle(&mut looks);
    bytes.truncate(bytes.len() - END.len());
    for look in &looks {
        bytes.extend([8, 0, 5, 0]);
        bytes.extend(look.iter().flat_map(|number| number.to_le_bytes()));
    }
    bytes.extend(END);
    bytes
}

/// Lists for what a bundle of so many edges fills.
fn lists_for(edges: usize) -> Sample {
    Sample {
        cells: vec![0; 4 * MAX_CELLS],
        edges: vec![0; 2 * edges],
        counts: vec![0; edges],
    }
}

/// The bundle reader on a bundle of so many edges. The copy is of its bytes.
pub fn read(bytes: &[u8], edges: usize) -> Calls {
    let [one, two] = [bytes.to_vec(), bytes.to_vec()];
    let [mut here, mut there] = [lists_for(edges), lists_for(edges)];
    let mut answer = BLANK;
    let Sample {
        cells,
        edges,
        counts,
    } = &mut here;
    calls::bundle_read(bytes, cells, edges, counts, &mut answer);
    let Sample {
        cells,
        edges,
        counts,
    } = &mut there;
    told(&answer, &expected::bundle_read(bytes, cells, edges, counts));
    assert!(here == there);
    Calls {
        proved: Box::new(move || {
            let Sample {
                cells,
                edges,
                counts,
            } = &mut here;
            calls::bundle_read(&one, cells, edges, counts, &mut answer);
        }),
        second: Box::new(move || {
            let Sample {
                cells,
                edges,
                counts,
            } = &mut there;
            done(bundle::read(&two, cells, edges, counts));
        }),
        copy: copy_of(bytes),
    }
}

pub fn write(lists: &Sample) -> Calls {
    let bytes = written(lists).expect("formed lists");
    let [one, two] = [lists.clone(), lists.clone()];
    let [mut here, mut there] = [vec![0; bytes.len()], vec![0; bytes.len()]];
    let mut answer = BLANK;
    calls::bundle_write(&one.cells, &one.edges, &one.counts, &mut here, &mut answer);
    assert!(here == bytes);
    Calls {
        proved: Box::new(move || {
            let Sample {
                cells,
                edges,
                counts,
            } = &one;
            calls::bundle_write(cells, edges, counts, &mut here, &mut answer);
        }),
        second: Box::new(move || {
            let Sample {
                cells,
                edges,
                counts,
            } = &two;
            done(bundle::write(cells, edges, counts, &mut there));
        }),
        copy: copy_of(&bytes),
    }
}

/// Goes over all records of a bundle and their bodies, by both calls.
fn go_over(bytes: &[u8]) -> usize {
    let [mut answer, mut body] = [BLANK, BLANK];
    let mut start = 0;
    while start < bytes.len() {
        calls::record(bytes, start, &mut answer);
        calls::record_body(bytes, start, &mut body);
        start = answer[2] as usize;
    }
    start
}

/// The record reader over all records of a bundle.
pub fn records(bytes: &[u8]) -> Calls {
    let [one, two] = [bytes.to_vec(), bytes.to_vec()];
    assert_eq!(go_over(bytes), bytes.len());
    Calls {
        proved: Box::new(move || done(go_over(&one))),
        second: Box::new(move || {
            let mut start = 0;
            while let Ok((_, next)) = bundle::record(&two, start) {
                done(bundle::record_body(&two, start).len());
                start = next;
            }
        }),
        copy: None,
    }
}
