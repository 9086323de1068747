//! The text of program meshlist.

use reference::bundle::write;
use reference::gen::{separate, Sample};
use reference::listing::listing;

fn bundle_of(grid: &Sample) -> Vec<u8> {
    let wide = grid.counts.iter().filter(|&&count| count > 255).count();
    let mut area = vec![0; 3 * grid.cells.len() + 9 * grid.counts.len() + wide + 4];
    let size = write(&grid.cells, &grid.edges, &grid.counts, &mut area);
    assert_eq!(size, Ok(area.len()));
    area
}

fn cells_with(counts: &[[u16; 6]]) -> Sample {
    let counts_list = counts.concat();
    Sample {
        counts: counts_list,
        ..separate(counts.len() as u16)
    }
}

#[test]
fn the_printed_example() {
    let bytes = bundle_of(&cells_with(&[[2, 0, 0, 0, 0, 0]]));
    let wanted = "cells 1 edges 6 crossings 2 triangles 2\n\
                  T 0 0 0 1 - 3 0 - 1 - 0\n\
                  T 0 0 1 0 - 2 0 - 0 - 1\n";
    assert_eq!(listing(&bytes), wanted);
}

#[test]
fn no_triangles() {
    let bytes = bundle_of(&cells_with(&[[1, 0, 0, 0, 0, 0]]));
    assert_eq!(listing(&bytes), "cells 1 edges 6 crossings 1 triangles 0\n");
}

#[test]
fn refusals() {
    assert_eq!(listing(&[]), "refused 13 at 0\n");
    assert_eq!(listing(&[2, 0, 3, 0]), "refused 1 at 0\n");
    let mut bytes = bundle_of(&cells_with(&[[2, 0, 0, 0, 0, 0]]));
    bytes.push(0);
    assert_eq!(listing(&bytes), "refused 13 at 70\n");
    let mut grid = cells_with(&[[0; 6]; 2]);
    grid.cells[5] = 4;
    assert_eq!(listing(&bundle_of(&grid)), "refused 3 at 1\n");
}

/// One triangle at node 0; the other crossings are on an open curve.
#[test]
fn counts_above_a_byte() {
    let bytes = bundle_of(&cells_with(&[[256, 255, 1, 0, 0, 0]]));
    assert_eq!(bytes.len(), 71);
    let wanted = "cells 1 edges 6 crossings 512 triangles 1\n\
                  T 0 0 0 256 511 3 0 1 256 2 0\n";
    assert_eq!(listing(&bytes), wanted);
    let bytes = bundle_of(&cells_with(&[[0, 0, 4095, 0, 0, 0]]));
    assert_eq!(listing(&bytes), "refused 12 at 4094\n");
    let bytes = bundle_of(&cells_with(&[[0; 6], [0, 0, 4096, 0, 0, 0]]));
    assert_eq!(listing(&bytes), "refused 18 at 8\n");
    let mut bytes = bundle_of(&cells_with(&[[256, 0, 0, 0, 0, 0]]));
    bytes[21] = 0;
    assert_eq!(listing(&bytes), "refused 13 at 12\n");
}

#[test]
fn input_limit() {
    let mut long = vec![0; 32_769];
    assert_eq!(listing(&long), "refused 13 at 32768\n");
    long.pop();
    assert_eq!(listing(&long), "refused 13 at 0\n");
    let many = Sample {
        cells: vec![0; 4 * 2049],
        edges: vec![],
        counts: vec![],
    };
    assert_eq!(listing(&bundle_of(&many)), "refused 1 at 0\n");
    let most = Sample {
        cells: vec![0; 4 * 2730],
        edges: vec![],
        counts: vec![],
    };
    assert_eq!(bundle_of(&most).len(), 32_764);
    assert_eq!(listing(&bundle_of(&most)), "refused 1 at 0\n");
    let edges = Sample {
        cells: vec![],
        edges: vec![0; 2 * 3640],
        counts: vec![0; 3640],
    };
    assert_eq!(bundle_of(&edges).len(), 32_764);
    assert_eq!(listing(&bundle_of(&edges)), "refused 1 at 0\n");
    let wide = Sample {
        cells: vec![0; 4],
        edges: vec![0; 2 * 3276],
        counts: [vec![256; 3268], vec![0; 8]].concat(),
    };
    assert_eq!(bundle_of(&wide).len(), 32_768);
    assert_eq!(listing(&bundle_of(&wide)), "refused 3 at 0\n");
}

#[test]
fn triangle_limit() {
    let corner = |n| [n, n, n, 0, 0, 0];
    let most = cells_with(&[[255; 6], [255; 6], corner(255), corner(218)]);
    let text = listing(&bundle_of(&most));
    assert!(text.starts_with("cells 4 edges 24 crossings 4479 triangles 1489\n"));
    assert_eq!(text.lines().count(), 1490);
    let more = cells_with(&[[255; 6], [255; 6], corner(255), corner(219)]);
    assert_eq!(listing(&bundle_of(&more)), "refused 12 at 1490\n");
}

/// The triangles of a cell that is split, sub-cell 1 first, and the total when
/// they are too many.
#[test]
fn split_cells() {
    let text = listing(&bundle_of(&cells_with(&[[4, 2, 6, 6, 2, 4]])));
    let lines: Vec<&str> = text.lines().collect();
    assert_eq!(lines.len(), 53);
    assert_eq!(lines[0], "cells 1 edges 6 crossings 24 triangles 52");
    assert_eq!(lines[1], "T 2048 0 0 65539 - 8192 0 - 1 - 0");
    assert_eq!(lines[52], "T 8192 17 17 65545 20 8195 17 8197 20 0 17");
    let text = listing(&bundle_of(&cells_with(&[[100, 2, 102, 102, 2, 100]])));
    assert_eq!(text, "refused 12 at 11188\n");
}
