//! The shading call: examples, rows 19 and 20, and plain second ways to it.

use reference::gen::{box_of_six, random_shape, ring, row_of, separate, Rng, Sample};
use reference::shading::{shade, UNUSED};
use reference::Refusal;

/// A byte that no shading has.
const UNTOUCHED: u8 = 7;
const NODES: usize = 4096;

fn refused(number: u8, place: u64) -> Result<Vec<u8>, Refusal> {
    Err(Refusal { number, place })
}

fn one_cell(counts: [u16; 6]) -> Sample {
    let mut grid = Sample::from_cells([[0, 1, 2, 3]]);
    grid.counts = counts.to_vec();
    grid
}

/// The bytes for a grid, or why there are none; a refusal keeps every byte.
fn shaded_in(grid: &Sample, len: usize) -> Result<Vec<u8>, Refusal> {
    let mut area = vec![UNTOUCHED; len];
    let answer = shade(grid.lists(&grid.starts()), &mut area);
    if answer.is_err() {
        assert!(area.iter().all(|&byte| byte == UNTOUCHED));
    }
    answer.map(|()| area)
}

fn shaded(grid: &Sample) -> Result<Vec<u8>, Refusal> {
    shaded_in(grid, NODES)
}

/// The area whose first bytes are these, and the others 255.
fn starting(front: &[u8]) -> Result<Vec<u8>, Refusal> {
    let mut area = vec![UNUSED; NODES];
    area[..front.len()].copy_from_slice(front);
    Ok(area)
}

#[test]
fn examples() {
    assert_eq!(shaded(&one_cell([0; 6])), starting(&[0, 0, 0, 0]));
    assert_eq!(
        shaded(&one_cell([1, 1, 1, 0, 0, 0])),
        starting(&[0, 1, 1, 1])
    );
    assert_eq!(
        shaded(&one_cell([0, 1, 1, 1, 1, 0])),
        starting(&[0, 0, 1, 1])
    );
    assert_eq!(
        shaded(&one_cell([4, 255, 4_094, 4_095, 2, 3])),
        starting(&[0, 0, 1, 0])
    );
    assert_eq!(shaded(&one_cell([1, 0, 0, 0, 0, 0])), refused(20, 0));
    assert_eq!(shaded(&one_cell([1; 6])), refused(20, 0));
    // the lowest node of each part has 0, whatever the sides of the other
    let mut apart = Sample::from_cells([[1, 4, 6, 8], [0, 2, 5, 7]]);
    let sides = [0, 0, 1, 0, 1, 1, 1, 1, 0];
    for (ends, count) in apart.edge_list().into_iter().zip(&mut apart.counts) {
        let [u, v] = ends.map(|node| sides[usize::from(node)]);
        *count = u ^ v;
    }
    assert_eq!(shaded(&apart), starting(&[0, 0, 1, UNUSED, 1, 1, 1, 1, 0]));
    let top = Sample::from_cells([[0, 2, 5, 4_095]]);
    let mut area = vec![UNUSED; NODES];
    for node in [0, 2, 5, 4_095] {
        area[node] = 0;
    }
    assert_eq!(shaded(&top), Ok(area));
}

#[test]
fn rows_19_and_20() {
    for grid in [one_cell([0; 6]), one_cell([1; 6])] {
        for len in [0, 1, NODES - 1, NODES + 1, 2 * NODES] {
            assert_eq!(shaded_in(&grid, len), refused(19, 0));
        }
    }
    let high = one_cell([1, 0, 4_096, 0, 0, 0]);
    for len in [0, NODES] {
        assert_eq!(shaded_in(&high, len), refused(18, 2));
        assert_eq!(shaded_in(&Sample::from_cells([]), len), refused(1, 0));
    }
}

/// A ring with even faces: once round it there is an odd number of crossings.
#[test]
fn a_ring_can_lack_a_shading() {
    for cells in [7, 8, 30] {
        let mut grid = ring(cells);
        for ([u, v], count) in grid.edge_list().into_iter().zip(&mut grid.counts) {
            *count = u16::from(v - u > 3);
        }
        let counts: Vec<_> = grid.edge_list().into_iter().zip(&grid.counts).collect();
        let odd = |u: u16, v: u16| {
            *counts
                .iter()
                .find(|(ends, _)| *ends == [u, v])
                .expect("an edge")
                .1
        };
        for [a, b, c, d] in grid.cell_list() {
            for [a, b, c] in [[b, c, d], [a, c, d], [a, b, d], [a, b, c]] {
                assert_eq!((odd(a, b) + odd(a, c) + odd(b, c)) % 2, 0);
            }
        }
        assert_eq!(shaded(&grid), refused(20, 0));
    }
}

/// Whether bytes are sides that the counts agree with, and 255 elsewhere.
fn is_shading(grid: &Sample, area: &[u8]) -> bool {
    let used = |node: usize| grid.cells.contains(&(node as u16));
    let ends = grid.edge_list().into_iter().zip(&grid.counts);
    area.len() == NODES
        && (0..NODES).all(|node| {
            if used(node) {
                area[node] < 2
            } else {
                area[node] == UNUSED
            }
        })
        && ends.into_iter().all(|([u, v], count)| {
            let differ = area[usize::from(u)] != area[usize::from(v)];
            differ == (count % 2 == 1)
        })
}

/// The lowest node of each node's part, by sweeps over the edges.
fn lowest_nodes(grid: &Sample) -> Vec<u16> {
    let mut lowest: Vec<u16> = (0..NODES as u16).collect();
    loop {
        let before = lowest.clone();
        for [u, v] in grid.edge_list() {
            let low = lowest[usize::from(u)].min(lowest[usize::from(v)]);
            lowest[usize::from(u)] = low;
            lowest[usize::from(v)] = low;
        }
        if lowest == before {
            return lowest;
        }
    }
}

/// Every choice of sides for the nodes of few cells.
#[test]
fn all_choices_of_sides() {
    let mut rng = Rng::new(1);
    let [mut with, mut without] = [0, 0];
    for turn in 0..400 {
        let shape = match turn % 4 {
            0 => row_of(rng.between(1, 5) as u16),
            1 => separate(2),
            2 => ring(7),
            _ => box_of_six([1, 1, 1]),
        };
        let shape = shape.renumbered(&mut rng);
        let mut grid = match rng.below(3) {
            0 => shape.with_counts(&mut rng, 0, 3),
            _ => shape.with_even_counts(&mut rng, 2),
        };
        if rng.coin() {
            let edge = rng.below(grid.counts.len());
            grid.counts[edge] += 1;
        }
        let mut nodes = grid.cells.clone();
        nodes.sort_unstable();
        nodes.dedup();
        let lowest = lowest_nodes(&grid);
        let mut right = Vec::new();
        for choice in 0..1 << nodes.len() {
            let mut area = vec![UNUSED; NODES];
            for (at, &node) in nodes.iter().enumerate() {
                area[usize::from(node)] = (choice >> at & 1) as u8;
            }
            if is_shading(&grid, &area) {
                right.push(area);
            }
        }
        let any = !right.is_empty();
        right.retain(|area| {
            nodes
                .iter()
                .all(|&node| area[usize::from(lowest[usize::from(node)])] == 0)
        });
        match shaded(&grid) {
            Ok(area) => {
                assert_eq!(right, [area]);
                with += 1;
            }
            Err(refusal) => {
                assert_eq!((refusal.number, refusal.place, any), (20, 0, false));
                without += 1;
            }
        }
    }
    assert!(with > 50 && without > 50);
}

#[test]
fn random_shapes() {
    let mut rng = Rng::new(2);
    for _ in 0..300 {
        let grid = random_shape(&mut rng).with_even_counts(&mut rng, 3);
        let area = shaded(&grid).expect("counts by sides have a shading");
        assert!(is_shading(&grid, &area));
        let lowest = lowest_nodes(&grid);
        assert!(grid
            .cells
            .iter()
            .all(|&node| area[usize::from(lowest[usize::from(node)])] == 0));
    }
}
