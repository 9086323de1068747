//! Calls from several threads at once, each against the second implementation.

use std::thread;

use compare::grids::{single_cell, spirals};
use compare::lent::answers;
use compare::{calls, expected};
use reference::gen::{random_cuts, random_shape, Rng};
use reference::mesh::Mesher;

/// More threads than a small machine has processors.
const THREADS: u64 = 8;

/// Compares checks, meshes, joined runs and loops of random grids.
fn compare(seed: u64) {
    let mut rng = Rng::new(seed);
    let mut mesher = Mesher::default();
    for turn in 0..100 {
        let grid = match turn % 3 {
            0 => single_cell(&mut rng, 4_095),
            1 => spirals(&mut rng),
            _ => random_shape(&mut rng).with_counts(&mut rng, 0, 5),
        };
        let starts = grid.starts();
        let lists = grid.lists(&starts);
        let numbers = expected::check(lists);
        assert!(answers(&numbers, |answer| calls::check(lists, answer)));
        let mut made = vec![7; 11 * grid.most_triangles()];
        let mut area = made.clone();
        let numbers = expected::mesh(&mut mesher, lists, &mut made);
        assert!(answers(&numbers, |answer| {
            calls::mesh(lists, &mut area, answer)
        }));
        assert_eq!(area, made);
        let cuts = random_cuts(&mut rng, grid.cells.len() / 4);
        area.fill(7);
        assert!(answers(&numbers, |answer| {
            calls::mesh_joined(lists, &cuts, &mut area, answer)
        }));
        assert_eq!(area, made);
        let ask = [rng.below(grid.cells.len() / 4), rng.below(3)];
        let numbers = expected::loops(&mut mesher, lists, ask);
        assert!(answers(&numbers, |answer| calls::loops(lists, ask, answer)));
    }
}

#[test]
fn several_threads_at_once() {
    let threads: Vec<_> = (0..THREADS)
        .map(|seed| thread::spawn(move || compare(seed)))
        .collect();
    for thread in threads {
        thread.join().expect("right answers");
    }
}
