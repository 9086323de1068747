//! Times the reference's mesh call and grid check; each figure is the best of
//! several runs.

use std::time::{Duration, Instant};

use reference::cell::TRIANGLE_WORDS;
use reference::gen::{box_of_six, closed_fan, separate, spiral_cell, Rng, Sample};
use reference::grid::GridTables;
use reference::mesh::Mesher;

/// How long each work is repeated.
const PATIENCE: Duration = Duration::from_millis(600);

/// Shortest time of all runs of the same work within the patience.
fn best(mut work: impl FnMut()) -> Duration {
    let begin = Instant::now();
    let mut shortest = Duration::MAX;
    while begin.elapsed() < PATIENCE {
        let start = Instant::now();
        work();
        shortest = shortest.min(start.elapsed());
    }
    shortest
}

fn micros(time: Duration) -> f64 {
    time.as_secs_f64() * 1e6
}

fn bench_mesh(name: &str, grid: &Sample) {
    let mut mesher = Mesher::default();
    let starts = grid.starts();
    let lists = grid.lists(&starts);
    let needed = match mesher.mesh(lists, &mut []) {
        Ok(answer) => answer.triangles,
        Err(refusal) => refusal.place,
    };
    let mut area = vec![0; needed as usize * TRIANGLE_WORDS];
    let time = best(|| {
        let answer = mesher.mesh(lists, &mut area);
        assert_eq!(answer.map(|a| a.triangles), Ok(needed));
    });
    let crossings: u32 = grid.counts.iter().map(|&count| u32::from(count)).sum();
    println!(
        "{name}: {} cells, {} edges, {crossings} crossings, {needed} triangles, \
         {:.1} us a call, {:.2} million triangles a second",
        grid.cells.len() / 4,
        grid.counts.len(),
        micros(time),
        needed as f64 / micros(time),
    );
}

fn bench_check(name: &str, grid: &Sample) {
    let mut tables = GridTables::default();
    let starts = grid.starts();
    let time = best(|| {
        let answer = tables.check(grid.lists(&starts));
        assert!(answer.is_ok());
    });
    println!(
        "{name}: {} cells, {} edges, {:.1} us a call",
        grid.cells.len() / 4,
        grid.counts.len(),
        micros(time),
    );
}

/// A box with exactly 2,048 cells: 342 cubes less the last four cells.
fn full_box() -> Sample {
    let mut cells = box_of_six([6, 3, 19]).cell_list();
    cells.truncate(2048);
    Sample::from_cells(cells)
}

fn main() {
    let mut rng = Rng::new(1);
    let shape = box_of_six([6, 5, 10]);
    let small = shape.clone().with_counts(&mut rng, 0, 3);
    bench_mesh("1 box, counts 0..3", &small);
    let large = shape.clone().with_counts(&mut rng, 16, 24);
    bench_mesh("2 box, counts 16..24", &large);
    let even = shape.clone().with_even_counts(&mut rng, 10);
    bench_mesh("2 box, even faces, counts 0..21", &even);
    let full = separate(42).with_counts(&mut rng, 255, 255);
    bench_mesh("3 separate cells, counts 255", &full);
    let fuller = separate(2).with_counts(&mut Rng::new(4), 4_095, 4_095);
    bench_mesh("3 separate cells, counts 4,095", &fuller);
    let fan = closed_fan(2048).with_counts(&mut rng, 4, 14);
    bench_mesh("4 closed fan, counts 4..14", &fan);
    let mut hub = fan.clone();
    hub.counts[0] = 255;
    bench_mesh("4 closed fan, 255 on its edge", &hub);
    let mut spirals = separate(100);
    spirals.counts = (0..100)
        .flat_map(|_| spiral_cell(&mut rng, 4, 80))
        .collect();
    bench_mesh("5 separate cells, spirals to 80", &spirals);
    let mut spiral = separate(1);
    spiral.counts = vec![600, 2, 602, 602, 2, 600];
    bench_mesh("5 one cell, split 299 times", &spiral);
    let full_box = full_box().with_counts(&mut rng, 0, 20);
    bench_check("6 check, box", &full_box);
    let mixed = full_box.renumbered(&mut rng).reordered(&mut rng);
    bench_check("6 check, box with shuffled nodes and cells", &mixed);
    bench_check("6 check, closed fan", &fan);
}
