//! Meshes of random grids fit together, and the checker sees when they do not.

use reference::cell::TRIANGLE_WORDS;
use reference::gen::{
    box_of_five, box_of_six, box_ring, closed_fan, gathered, linked, open_fan, random_shape, ring,
    separate, Rng, Sample,
};
use reference::manifold::{inspect, should_close, Report};
use reference::mesh::mesh;

fn words_of(grid: &Sample) -> Vec<u32> {
    let mut area = vec![0; 3_000_000];
    let answer = mesh(grid.lists(&grid.starts()), &mut area).expect("an accepted grid");
    area.truncate(answer.triangles as usize * TRIANGLE_WORDS);
    area
}

fn report(grid: &Sample) -> Report {
    inspect(&grid.cells, &grid.edges, &grid.counts, &words_of(grid))
}

fn closes(grid: &Sample) -> bool {
    should_close(&grid.cells, &grid.edges, &grid.counts)
}

/// Shapes with inner edges, so that a closed mesh can be there at all.
fn thick_shape(rng: &mut Rng) -> Sample {
    let size = [(); 3].map(|()| rng.between(2, 4));
    let shape = match rng.below(6) {
        0 => box_of_five(size),
        1 => box_of_six(size),
        2 => closed_fan(rng.between(3, 60) as u16),
        3 => box_ring([6, 6, 2], 2),
        4 => linked(&gathered(rng, &box_of_six([3, 3, 3]), 97)),
        _ => box_of_five([4, 3, 3]),
    };
    if rng.coin() {
        shape.renumbered(rng)
    } else {
        shape
    }
}

#[test]
fn closed_counts_give_closed_meshes() {
    let mut rng = Rng::new(43);
    let mut filled = 0;
    for _ in 0..80 {
        let shape = thick_shape(&mut rng);
        let pairs = rng.between(0, 5);
        let grid = shape
            .with_closed_counts(&mut rng, pairs)
            .reordered(&mut rng);
        assert!(closes(&grid));
        let found = report(&grid);
        assert!(found.closed(), "{found:?}");
        let crossings: usize = grid.counts.iter().map(|&count| usize::from(count)).sum();
        assert_eq!(found.triangles == 0, crossings == 0);
        filled += usize::from(found.triangles > 0);
    }
    assert!(filled > 50, "only {filled} meshes had triangles");
}

#[test]
fn rings_of_cells_close_too() {
    let mut rng = Rng::new(47);
    for _ in 0..5 {
        let grid = box_ring([6, 6, 3], 2).with_closed_counts(&mut rng, 3);
        let found = report(&grid);
        assert!(
            closes(&grid) && found.closed() && found.triangles > 100,
            "{found:?}"
        );
    }
    let bare = ring(12).with_closed_counts(&mut rng, 3);
    assert!(closes(&bare) && report(&bare).closed());
}

#[test]
fn large_counts_close_too() {
    let mut rng = Rng::new(53);
    for pairs in [20, 60, 120] {
        let grid = box_of_five([2, 2, 2]).with_closed_counts(&mut rng, pairs);
        let found = report(&grid);
        assert!(
            closes(&grid) && found.closed() && found.triangles > 100,
            "{found:?}"
        );
    }
}

#[test]
fn the_largest_counts_close_too() {
    let mut grid = closed_fan(5);
    grid.counts[0] = 4094;
    let found = report(&grid);
    assert!(closes(&grid) && found.closed(), "{found:?}");
    assert_eq!(found.triangles, 5 * 4094);
}

#[test]
fn every_mesh_is_sound() {
    let mut rng = Rng::new(59);
    let mut borders = 0;
    for seed in 0..120 {
        let most = rng.between(1, 9) as u16;
        let grid = random_shape(&mut Rng::new(seed)).with_counts(&mut rng, 0, most);
        let found = report(&grid);
        assert!(found.sound(), "{found:?}");
        borders += found.open_sides;
    }
    assert!(borders > 100);
}

#[test]
fn even_faces_leave_no_open_curve() {
    let mut rng = Rng::new(61);
    for seed in 0..60 {
        let grid = random_shape(&mut Rng::new(seed)).with_even_counts(&mut rng, 3);
        let found = report(&grid);
        assert!(found.sound(), "{found:?}");
        assert_eq!(found.undrawn_segments, 0);
    }
}

#[test]
fn premise_of_closing() {
    let mut fan = closed_fan(3);
    assert!(closes(&fan));
    fan.counts[0] = 2;
    assert!(closes(&fan));
    fan.counts[0] = 1;
    assert!(!closes(&fan));
    fan.counts[0] = 2;
    fan.counts[1] = 2;
    assert!(!closes(&fan));
    let mut open = open_fan(3);
    open.counts[0] = 2;
    assert!(!closes(&open));
    assert!(closes(&separate(2)));
}

#[test]
fn checker_sees_damage() {
    let mut fan = closed_fan(5);
    fan.counts[0] = 4;
    let Sample {
        cells,
        edges,
        counts,
    } = &fan;
    let words = words_of(&fan);
    assert!(inspect(cells, edges, counts, &words).closed());
    assert!(!inspect(cells, edges, counts, &[]).closed());
    for triangle in 0..words.len() / TRIANGLE_WORDS {
        let at = triangle * TRIANGLE_WORDS;
        let mut fewer = words.clone();
        fewer.drain(at..at + TRIANGLE_WORDS);
        assert!(!inspect(cells, edges, counts, &fewer).closed());
        let mut twice = words.clone();
        twice.extend_from_slice(&words[at..at + TRIANGLE_WORDS]);
        assert!(!inspect(cells, edges, counts, &twice).sound());
        for word in 2..TRIANGLE_WORDS {
            let mut changed = words.clone();
            changed[at + word] ^= 1;
            assert!(!inspect(cells, edges, counts, &changed).closed());
        }
    }
}

/// Two loops with equal ends keep their inner sides and middles apart.
#[test]
fn equal_ends_are_not_merged() {
    let mut fan = closed_fan(3);
    fan.counts[0] = 2;
    let mut words = words_of(&fan);
    assert!(inspect(&fan.cells, &fan.edges, &fan.counts, &words).closed());
    for triangle in words.chunks_mut(TRIANGLE_WORDS) {
        triangle[0] = 0;
    }
    assert!(!inspect(&fan.cells, &fan.edges, &fan.counts, &words).sound());
}
