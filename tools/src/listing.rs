//! The listing that the program `meshlist` prints for a bundle, and the words for
//! what it refuses.

use std::fmt::Write;

use crate::calls::{
    self, Grid, Refusal, MIDDLE, REFUSED_MESH_AREA, REFUSED_RECORDS, TRIANGLE_WORDS,
};
use crate::digits::grouped;
use crate::files::GRID_BYTES;
use crate::progress::Progress;
use crate::refusals;
use crate::text::Text;

/// What a listing takes at most: bytes of a bundle, and triangles.
#[derive(Clone, Copy)]
pub struct Limits {
    pub bytes: usize,
    pub triangles: usize,
}

/// The limits of `meshlist`.
pub const MESHLIST: Limits = Limits {
    bytes: 32_768,
    triangles: 1_489,
};

/// Those of any other grid: what is read at all.
pub const ANY_SIZE: Limits = Limits {
    bytes: GRID_BYTES,
    triangles: usize::MAX,
};

/// The word that a listing has `-` for: that of a middle, and the first of an inner
/// side.
pub const NO_NUMBER: u32 = MIDDLE;

/// A refusal, and what it means in words.
pub struct Refused {
    pub refusal: Refusal,
    pub words: String,
}

/// The listing of a bundle's bytes, and of the text that they were packed from, if
/// there is one.
pub fn listing(bytes: &[u8], text: Option<&Text>, limits: Limits) -> Result<String, Refused> {
    if bytes.len() > limits.bytes {
        return Err(too_long(limits.bytes));
    }
    let of_bytes = |refusal| Refused {
        refusal,
        words: refusals::of_bytes(refusal, bytes),
    };
    let lists = calls::bundle_read(bytes).map_err(of_bytes)?;
    let of_lists = |refusal| Refused {
        refusal,
        words: match text {
            Some(text) => refusals::of_text(refusal, &lists, text).to_string(),
            None => refusals::of_lists(refusal, &lists),
        },
    };
    let grid = Grid::open(lists.clone()).map_err(of_lists)?;
    let words = grid.mesh_within(limits.triangles);
    let words = words.map_err(|refusal| match refusal.number {
        REFUSED_MESH_AREA => too_large(refusal, limits.triangles),
        _ => of_lists(refusal),
    })?;
    Ok(of_grid(&grid, &words))
}

/// More bytes than a listing takes.
pub fn too_long(most: usize) -> Refused {
    let unless = match most {
        GRID_BYTES => "",
        _ => ", unless --any-size is given",
    };
    let bytes = grouped(most);
    Refused {
        refusal: Refusal {
            number: REFUSED_RECORDS,
            place: most as u64,
        },
        words: format!("more than {bytes} bytes: a listing is of so many at most{unless}"),
    }
}

fn too_large(refusal: Refusal, most: usize) -> Refused {
    let (triangles, most) = (refusal.place, grouped(most));
    Refused {
        refusal,
        words: format!(
            "{triangles} triangles: a listing has {most} at most, unless --any-size is given"
        ),
    }
}

/// The listing of a grid's mesh.
fn of_grid(grid: &Grid, words: &[u32]) -> String {
    let (cells, edges) = (grid.lists().cells.len() / 4, grid.lists().counts.len());
    lines([cells, edges, grid.crossings()], words)
}

/// The line of totals, with the numbers of cells, edges and crossings, and a line for
/// each triangle.
pub fn lines([cells, edges, crossings]: [usize; 3], words: &[u32]) -> String {
    let triangles = words.len() / TRIANGLE_WORDS;
    let mut out =
        format!("cells {cells} edges {edges} crossings {crossings} triangles {triangles}\n");
    let mut progress = Progress::new("triangles listed:", triangles);
    for triangle in words.chunks_exact(TRIANGLE_WORDS) {
        out.push('T');
        for &word in triangle {
            match word {
                NO_NUMBER => out.push_str(" -"),
                _ => write!(out, " {word}").expect("a string takes any text"),
            }
        }
        out.push('\n');
        progress.step();
    }
    out
}
