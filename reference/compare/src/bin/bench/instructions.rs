//! Each call once, for callgrind to count its instructions (scripts/speed.sh): in
//! functions that it finds by their names.

use compare::areas::any_room;
use compare::calls;
use compare::placing::Placing;
use reference::cell::TRIANGLE_WORDS;
use reference::gen::Rng;
use reference::grid::Lists;

use crate::inputs::{harder, scans, Named};
use crate::on_grids::{triangles, Held, BLANK};

#[no_mangle]
#[inline(never)]
fn counted_check(lists: Lists) {
    calls::check(lists, &mut BLANK.clone());
}

#[no_mangle]
#[inline(never)]
fn counted_mesh_any(lists: Lists, area: &mut [u32]) -> u64 {
    // it answers something, lest the compiler make one of this and the next
    let mut answer = BLANK;
    calls::mesh(lists, area, &mut answer);
    answer[1]
}

#[no_mangle]
#[inline(never)]
fn counted_mesh_exact(lists: Lists, area: &mut [u32]) {
    calls::mesh(lists, area, &mut BLANK.clone());
}

#[no_mangle]
#[inline(never)]
fn counted_places(lists: Lists, placing: &Placing, area: &mut [u64]) {
    calls::places(
        lists,
        &placing.nodes,
        &placing.fractions,
        area,
        &mut BLANK.clone(),
    );
}

/// The grids of a scan, and those of random counts.
fn grids() -> Vec<Named<Placing>> {
    let random = harder(&mut Rng::new(1)).into_iter();
    let mut all = scans();
    all.extend(random.filter(|(name, _)| name.starts_with("random")));
    all
}

/// The calls on one grid: check, mesh with room for any and for this mesh, places.
/// Prints the numbers of cells and of triangles.
fn on_grid(placing: &Placing) {
    let grid = &placing.grid;
    let held = Held::of(grid);
    let exact = triangles(grid);
    let mut any = vec![0; any_room(grid) * TRIANGLE_WORDS];
    let mut area = vec![0; exact * TRIANGLE_WORDS];
    let mut bits = vec![0; 3 * (placing.fractions.len() + exact)];
    counted_check(held.lists());
    let drawn = counted_mesh_any(held.lists(), &mut any);
    counted_mesh_exact(held.lists(), &mut area);
    counted_places(held.lists(), placing, &mut bits);
    println!("{} {drawn}", grid.cells.len() / 4);
}

/// The calls on the grid of this name; without one, the names.
pub fn count(name: Option<&str>) {
    for (own, placing) in grids() {
        match name {
            None => println!("{own}"),
            Some(name) if name == own => on_grid(&placing),
            Some(_) => {}
        }
    }
}
