//! The calls on a grid. Each is made once before it is timed, and must answer and
//! write what the second implementation does.

use compare::lent::ANSWER_WORDS;
use compare::placing::Placing;
use compare::{calls, expected};
use reference::cell::TRIANGLE_WORDS;
use reference::gen::{Layered, Sample};
use reference::grid::{self, GridTables, Lists};
use reference::layers;
use reference::mesh::Mesher;
use reference::places;
use reference::shading::Shader;

use crate::timing::{Call, Calls};

/// The bytes of a shading.
const SHADING_BYTES: usize = 4_096;

/// A grid and its starts.
#[derive(Clone)]
pub struct Held {
    pub grid: Sample,
    pub starts: Vec<u32>,
}

impl Held {
    pub fn of(grid: &Sample) -> Held {
        Held {
            grid: grid.clone(),
            starts: grid.starts(),
        }
    }

    pub fn lists(&self) -> Lists<'_> {
        self.grid.lists(&self.starts)
    }
}

/// An answer area.
pub type Answer = [u64; ANSWER_WORDS];

pub const BLANK: Answer = [1; ANSWER_WORDS];

/// The answer must be these numbers.
pub fn told(answer: &Answer, numbers: &[u64]) {
    assert_eq!(&answer[..numbers.len()], numbers);
}

/// What a call answers, which is not looked at.
pub fn done<T>(_: T) {}

/// A copy of these words to another place.
pub fn copy_of<T: Copy + 'static>(words: &[T]) -> Option<Call> {
    let from = words.to_vec();
    let mut to = from.clone();
    match words.len() {
        0 => None,
        _ => Some(Box::new(move || to.copy_from_slice(&from))),
    }
}

pub fn check(grid: &Sample) -> Calls {
    let [one, two] = [Held::of(grid), Held::of(grid)];
    let mut answer = BLANK;
    calls::check(one.lists(), &mut answer);
    told(&answer, &expected::check(two.lists()));
    let mut tables = GridTables::default();
    Calls {
        proved: Box::new(move || done(calls::check(one.lists(), &mut answer))),
        second: Box::new(move || done(tables.check(two.lists()))),
        copy: None,
    }
}

pub fn open(grid: &Sample) -> Calls {
    let [mut one, mut two] = [Held::of(grid), Held::of(grid)];
    let mut answer = BLANK;
    let mut proved = move || {
        let Held { grid, starts } = &mut one;
        calls::open(&grid.cells, &grid.edges, &grid.counts, starts, &mut answer);
        answer
    };
    told(&proved(), &expected::open(&two.grid, &mut two.starts));
    Calls {
        proved: Box::new(move || done(proved())),
        second: Box::new(move || {
            let Held { grid, starts } = &mut two;
            done(grid::open(&grid.cells, &grid.edges, &grid.counts, starts));
        }),
        copy: None,
    }
}

/// The first edge is set to 0 and to 1 in turn, so that all starts but its own
/// change.
pub fn set_count(grid: &Sample) -> Calls {
    let [mut one, mut two] = [Held::of(grid), Held::of(grid)];
    let mut answer = BLANK;
    let mut count = 0;
    let mut proved = move || {
        count = 1 - count;
        let Held { grid, starts } = &mut one;
        let lists = (&grid.cells[..], &grid.edges[..]);
        calls::set_count(lists, &mut grid.counts, starts, (0, count), &mut answer);
        answer
    };
    let numbers = expected::set_count(&mut two.grid, &mut two.starts, 0, 1);
    told(&proved(), &numbers);
    Calls {
        proved: Box::new(move || done(proved())),
        second: Box::new(move || {
            count = 1 - count;
            let Held { grid, starts } = &mut two;
            let Sample {
                cells,
                edges,
                counts,
            } = grid;
            done(grid::set_count(cells, edges, counts, starts, 0, count));
        }),
        copy: None,
    }
}

pub fn shading(grid: &Sample) -> Calls {
    let [one, two] = [Held::of(grid), Held::of(grid)];
    let mut areas = [(); 2].map(|()| vec![1; SHADING_BYTES]);
    let mut answer = BLANK;
    calls::shading(one.lists(), &mut areas[0], &mut answer);
    told(&answer, &expected::shading(two.lists(), &mut areas[1]));
    assert_eq!(areas[0], areas[1]);
    let [mut here, mut there] = areas;
    let mut shader = Shader::default();
    Calls {
        proved: Box::new(move || done(calls::shading(one.lists(), &mut here, &mut answer))),
        second: Box::new(move || done(shader.shade(two.lists(), &mut there))),
        copy: None,
    }
}

/// How many triangles a grid has.
pub fn triangles(grid: &Sample) -> usize {
    let starts = grid.starts();
    match Mesher::default().mesh(grid.lists(&starts), &mut []) {
        Ok(answer) => answer.triangles as usize,
        Err(refusal) => refusal.place as usize,
    }
}

/// The mesh in an area with room for so many triangles.
pub fn mesh(grid: &Sample, room: usize) -> Calls {
    let [one, two] = [Held::of(grid), Held::of(grid)];
    let mut areas = [(); 2].map(|()| vec![1; room * TRIANGLE_WORDS]);
    let mut answer = BLANK;
    let mut mesher = Mesher::default();
    calls::mesh(one.lists(), &mut areas[0], &mut answer);
    let numbers = expected::mesh(&mut mesher, two.lists(), &mut areas[1]);
    told(&answer, &numbers);
    assert!(areas[0] == areas[1]);
    let copy = copy_of(&areas[0][..TRIANGLE_WORDS * numbers[1] as usize]);
    let [mut here, mut there] = areas;
    Calls {
        proved: Box::new(move || done(calls::mesh(one.lists(), &mut here, &mut answer))),
        second: Box::new(move || done(mesher.mesh(two.lists(), &mut there))),
        copy,
    }
}

/// The mesh of all runs, joined.
pub fn joined(layered: &Layered, room: usize) -> Calls {
    let Layered { whole, cuts } = layered;
    let [one, two] = [Held::of(whole), Held::of(whole)];
    let [here_cuts, there_cuts] = [cuts.clone(), cuts.clone()];
    let mut areas = [(); 2].map(|()| vec![1; room * TRIANGLE_WORDS]);
    let mut answer = BLANK;
    calls::mesh_joined(one.lists(), cuts, &mut areas[0], &mut answer);
    let numbers = expected::mesh_joined(two.lists(), cuts, &mut areas[1]);
    told(&answer, &numbers);
    assert!(areas[0] == areas[1]);
    let copy = copy_of(&areas[0][..TRIANGLE_WORDS * numbers[1] as usize]);
    let [mut here, mut there] = areas;
    Calls {
        proved: Box::new(move || {
            done(calls::mesh_joined(
                one.lists(),
                &here_cuts,
                &mut here,
                &mut answer,
            ));
        }),
        second: Box::new(move || {
            done(layers::mesh_joined(two.lists(), &there_cuts, &mut there));
        }),
        copy,
    }
}

/// The mesh of one run.
pub fn run(layered: &Layered, run: usize, room: usize) -> Calls {
    let Layered { whole, cuts } = layered;
    let [one, two] = [Held::of(whole), Held::of(whole)];
    let [here_cuts, there_cuts] = [cuts.clone(), cuts.clone()];
    let mut areas = [(); 2].map(|()| vec![1; room * TRIANGLE_WORDS]);
    let mut answer = BLANK;
    calls::mesh_run(one.lists(), cuts, run, &mut areas[0], &mut answer);
    let numbers = expected::mesh_run(two.lists(), cuts, run as u64, &mut areas[1]);
    told(&answer, &numbers);
    assert!(areas[0] == areas[1]);
    let copy = copy_of(&areas[0][..TRIANGLE_WORDS * numbers[1] as usize]);
    let [mut here, mut there] = areas;
    Calls {
        proved: Box::new(move || {
            done(calls::mesh_run(
                one.lists(),
                &here_cuts,
                run,
                &mut here,
                &mut answer,
            ));
        }),
        second: Box::new(move || {
            done(layers::mesh_run(
                two.lists(),
                &there_cuts,
                run as u64,
                &mut there,
            ));
        }),
        copy,
    }
}

/// The cell with the most crossings.
fn fullest(grid: &Sample) -> usize {
    let sums = grid.counts_in_cells().into_iter().map(|counts| {
        let wide = counts.into_iter().map(u32::from);
        wide.sum::<u32>()
    });
    sums.enumerate()
        .max_by_key(|&(_, sum)| sum)
        .map_or(0, |(cell, _)| cell)
}

/// A loop that the fullest cell does not have, so that all of its loops are gone over.
pub fn loops(grid: &Sample) -> Calls {
    let at = [fullest(grid), usize::from(u16::MAX)];
    let [one, two] = [Held::of(grid), Held::of(grid)];
    let mut answer = BLANK;
    let mut mesher = Mesher::default();
    calls::loops(one.lists(), at, &mut answer);
    told(&answer, &expected::loops(&mut mesher, two.lists(), at));
    let [cell, index] = at.map(|number| number as u64);
    Calls {
        proved: Box::new(move || done(calls::loops(one.lists(), at, &mut answer))),
        second: Box::new(move || done(mesher.loop_of_cell(two.lists(), cell, index))),
        copy: None,
    }
}

/// The call on a placing with these starts.
fn place(placing: &Placing, starts: &[u32], area: &mut [u64], answer: &mut Answer) {
    let lists = placing.grid.lists(starts);
    calls::places(lists, &placing.nodes, &placing.fractions, area, answer);
}

/// The places in an area with room for the crossings and a point for each triangle.
pub fn places(placing: &Placing) -> Calls {
    let points = placing.fractions.len() + triangles(&placing.grid);
    let [one, two] = [placing.clone(), placing.clone()];
    let [here, there] = [one.grid.starts(), one.grid.starts()];
    let mut areas = [(); 2].map(|()| vec![0; 3 * points]);
    let mut answer = BLANK;
    let numbers = expected::places(&two, &there, &mut areas[1]);
    place(&one, &here, &mut areas[0], &mut answer);
    told(&answer, &numbers);
    assert!(areas[0] == areas[1]);
    let copy = copy_of(&areas[1][..3 * numbers[1] as usize]);
    let [mut bits, _] = areas;
    let mut placed = vec![0.0; 3 * points];
    Calls {
        proved: Box::new(move || place(&one, &here, &mut bits, &mut answer)),
        second: Box::new(move || {
            let lists = two.grid.lists(&there);
            let answer = places::places(lists, &two.nodes, &two.fractions, &mut placed);
            done(answer);
        }),
        copy,
    }
}
