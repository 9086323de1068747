//! How much a caller lends.

use reference::gen::Sample;
use reference::split;

/// The triangles that an area must have room for so that the mesh call counts none
/// first, as include/citternblaze.h says: as many as the cells have crossings
/// together, and those that splitting adds. Those of a split cell are taken whole,
/// which is a little more.
pub fn any_room(grid: &Sample) -> usize {
    let most = |counts: [u16; 6]| {
        let crossings: usize = counts.into_iter().map(usize::from).sum();
        let parts = split::totals(counts).map_or(0, |totals| totals.triangles as usize);
        crossings + parts
    };
    grid.counts_in_cells().into_iter().map(most).sum()
}

#[cfg(test)]
mod tests {
    use reference::gen::{box_of_six, separate, spiral_cell, Rng};

    use super::*;

    #[test]
    fn one_to_a_crossing_where_no_cell_is_split() {
        let grid = separate(7).with_counts(&mut Rng::new(1), 1, 1);
        assert_eq!(any_room(&grid), 42);
    }

    #[test]
    fn more_than_the_mesh_has() {
        let mut rng = Rng::new(2);
        let mut split = separate(20);
        for counts in split.counts.chunks_mut(6) {
            counts.copy_from_slice(&spiral_cell(&mut rng, 3, 30));
        }
        let boxed = box_of_six([2, 2, 2]).with_counts(&mut rng, 16, 24);
        for grid in [split, boxed] {
            assert!(any_room(&grid) >= grid.most_triangles());
        }
    }
}
