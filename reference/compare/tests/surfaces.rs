//! Level sets as a scan gives them, whole and with counts that are off by one here and
//! there, so that cells to be walked stand close together, far apart or alone among
//! those that need not be: mesh and places against the second implementation.

use compare::lent::ANSWER_WORDS;
use compare::placing::{placing, Kind, Placing};
use compare::surfaces::surfaces;
use compare::{calls, expected, grids, seed};
use reference::cell::TRIANGLE_WORDS;
use reference::gen::{Rng, Sample};
use reference::mesh::Mesher;

/// A word that no triangle has.
const BLANK: u32 = 0xa5a5_a5a5;

/// One edge in so many has a crossing more; 0 for none.
const RATES: [usize; 5] = [0, 300, 60, 12, 3];

/// The grid with one crossing more on some edges.
fn roughened(rng: &mut Rng, mut grid: Sample, rate: usize) -> Sample {
    for count in &mut grid.counts {
        if rate != 0 && rng.below(rate) == 0 {
            *count += 1;
        }
    }
    grid
}

/// The mesh in an area of so many words, by both.
fn same_mesh(grid: &Sample, words: usize) -> [u64; 2] {
    let starts = grid.starts();
    let lists = grid.lists(&starts);
    let mut areas = [(); 2].map(|()| vec![BLANK; words]);
    let mut answer = [7; ANSWER_WORDS];
    let answered = calls::mesh(lists, &mut areas[0], &mut answer);
    let wanted = expected::mesh(&mut Mesher::default(), lists, &mut areas[1]);
    assert_eq!(answer[..answered], wanted[..]);
    assert!(areas[0] == areas[1], "the words differ");
    [answer[0], answer[1]]
}

/// The places, by both, bit by bit.
fn same_places(placing: &Placing) {
    let starts = placing.grid.starts();
    let lists = placing.grid.lists(&starts);
    let points = placing.fractions.len() + placing.grid.most_triangles();
    let mut areas = [(); 2].map(|()| vec![7; 3 * points]);
    let mut answer = [7; ANSWER_WORDS];
    let Placing {
        nodes, fractions, ..
    } = placing;
    let answered = calls::places(lists, nodes, fractions, &mut areas[0], &mut answer);
    let wanted = expected::places(placing, &starts, &mut areas[1]);
    assert_eq!(answer[..answered], wanted[..]);
    assert!(areas[0] == areas[1], "the places differ");
}

/// One grid: with room for more, for exactly its mesh, and for a word less.
fn compare(placing: &Placing) -> u64 {
    let grid = &placing.grid;
    let [number, triangles] = same_mesh(grid, (grid.most_triangles() + 1) * TRIANGLE_WORDS);
    assert_eq!(number, 0, "the grid is refused");
    let words = triangles as usize * TRIANGLE_WORDS;
    assert_eq!(same_mesh(grid, words), [0, triangles]);
    if words != 0 {
        assert_eq!(same_mesh(grid, words - 1), [12, triangles]);
    }
    same_places(placing);
    triangles
}

#[test]
fn surfaces_agree() {
    let mut rng = Rng::new(seed("surfaces"));
    let mut triangles = 0;
    let mut many = 0;
    for surface in surfaces() {
        triangles += compare(&surface.placing());
        for rate in RATES {
            let rough = roughened(&mut rng, surface.grid(), rate);
            let any = grids::dealt(&mut rng, &rough);
            for grid in [rough, any] {
                triangles += compare(&placing(&mut rng, grid, Kind::Any));
                many += 1;
            }
        }
    }
    println!("surfaces: {many} grids, {triangles} triangles");
}
