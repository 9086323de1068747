//! Deep grids meshed by layers: document 02's W13. A whole grid is cut into
//! runs of cells; each run is made as a grid of its own and meshed by the
//! ordinary mesh, and the meshes of all runs are joined by putting the names of
//! the whole in place of those of the runs.

use std::ops::Range;

use crate::cell::{NO_NUMBER, TRIANGLE_WORDS};
use crate::grid::{fill_starts, GridTables, Lists};
use crate::mesh::{check_area, MeshAnswer, Mesher};
use crate::split::{FIRST_INNER_CROSSING, FIRST_INNER_FACE};
use crate::{refuse, Refusal};

/// Writes the mesh of one run, counted from 0, as a grid of its own; the answer
/// is its triangles and the splits made.
pub fn mesh_run(
    whole: Lists,
    cuts: &[u16],
    run: u64,
    area: &mut [u32],
) -> Result<MeshAnswer, Refusal> {
    let layers = Layers::check(whole, cuts)?;
    if run > cuts.len() as u64 {
        return Err(Refusal {
            number: 26,
            place: run,
        });
    }
    let run = layers.run(run as usize);
    Mesher::default().mesh_run(run.lists(), area)
}

/// Writes the meshes of all runs, joined; the answer is their triangles and the
/// splits made.
pub fn mesh_joined(whole: Lists, cuts: &[u16], area: &mut [u32]) -> Result<MeshAnswer, Refusal> {
    let layers = Layers::check(whole, cuts)?;
    let mut mesher = Mesher::default();
    let total = layers.count(&mut mesher)?;
    check_area(area, total.triangles)?;
    layers.write(&mut mesher, area)?;
    Ok(total)
}

/// Row 25.
fn check_cuts(cuts: &[u16], cells: usize) -> Result<(), Refusal> {
    let mut before = 0;
    for (index, &cut) in cuts.iter().enumerate() {
        if cut <= before || usize::from(cut) >= cells {
            return refuse(25, index);
        }
        before = cut;
    }
    Ok(())
}

/// An accepted whole and cuts that are not refused.
struct Layers<'a> {
    whole: Lists<'a>,
    tables: GridTables,
    cuts: &'a [u16],
}

impl<'a> Layers<'a> {
    /// Rows 1 to 10 and 18 of the whole, and 25.
    fn check(whole: Lists<'a>, cuts: &'a [u16]) -> Result<Layers<'a>, Refusal> {
        let mut tables = GridTables::default();
        tables.check(whole)?;
        check_cuts(cuts, whole.cell_count())?;
        Ok(Layers {
            whole,
            tables,
            cuts,
        })
    }

    /// The triangles and splits of all runs. Only row 9 can fault a run of an
    /// accepted whole, and a run is not asked for it.
    fn count(&self, mesher: &mut Mesher) -> Result<MeshAnswer, Refusal> {
        let mut total = MeshAnswer::default();
        for run in self.runs() {
            let answer = mesher.count_run(run.lists())?;
            total.triangles += answer.triangles;
            total.splits += answer.splits;
        }
        Ok(total)
    }

    /// Writes the runs' meshes one after the other, each with the names of the
    /// whole, into an area that has room for them.
    fn write(&self, mesher: &mut Mesher, area: &mut [u32]) -> Result<(), Refusal> {
        let mut rest = area;
        for run in self.runs() {
            let answer = mesher.mesh_run(run.lists(), rest)?;
            let (own, after) = rest.split_at_mut(answer.triangles as usize * TRIANGLE_WORDS);
            let triangles = own.chunks_exact_mut(TRIANGLE_WORDS);
            triangles.for_each(|words| run.rename(words));
            rest = after;
        }
        Ok(())
    }

    fn runs(&self) -> impl Iterator<Item = Run> + '_ {
        (0..=self.cuts.len()).map(|number| self.run(number))
    }

    /// The cells of a run. Run 0 begins at cell 0, and run k at cut k - 1.
    fn cells_of(&self, run: usize) -> Range<usize> {
        let begin = match run {
            0 => 0,
            _ => usize::from(self.cuts[run - 1]),
        };
        let next = self.cuts.get(run);
        begin..next.map_or(self.whole.cell_count(), |&cut| usize::from(cut))
    }

    /// Makes a run as a grid of its own.
    fn run(&self, number: usize) -> Run {
        let cells = self.cells_of(number);
        let mut run = Run {
            first_cell: cells.start as u32,
            cells: self.whole.cells[4 * cells.start..4 * cells.end].to_vec(),
            face_names: self.tables.face_names[4 * cells.start..4 * cells.end].to_vec(),
            edges: Vec::new(),
            counts: Vec::new(),
            starts: Vec::new(),
            crossings: Vec::new(),
        };
        let mut edges = self.tables.cell_edges[cells].concat();
        edges.sort_unstable();
        edges.dedup();
        for edge in edges {
            self.add_edge(edge as usize, &mut run);
        }
        run.starts.resize(run.counts.len(), 0);
        fill_starts(&run.counts, &mut run.starts);
        run
    }

    fn add_edge(&self, edge: usize, run: &mut Run) {
        let (first, count) = (self.whole.starts[edge], self.whole.counts[edge]);
        run.edges.extend(self.whole.edge(edge));
        run.counts.push(count);
        run.crossings.extend(first..first + u32::from(count));
    }
}

/// A run as a grid of its own, with the names that the whole has for its parts.
struct Run {
    cells: Vec<u16>,
    edges: Vec<u16>,
    counts: Vec<u16>,
    starts: Vec<u32>,
    /// The run's cell 0 in the whole.
    first_cell: u32,
    /// By the run's crossing: its number in the whole.
    crossings: Vec<u32>,
    /// By the run's cell and slot: the name in the whole.
    face_names: Vec<u16>,
}

impl Run {
    fn lists(&self) -> Lists<'_> {
        Lists {
            cells: &self.cells,
            edges: &self.edges,
            counts: &self.counts,
            starts: &self.starts,
        }
    }

    /// Puts the words of one of the run's triangles into those of the whole.
    fn rename(&self, words: &mut [u32]) {
        words[0] += self.first_cell;
        for point in &mut words[1..5] {
            *point = self.crossing(*point);
        }
        for side in words[5..].chunks_exact_mut(2) {
            if side[0] != NO_NUMBER {
                side[0] = self.face(side[0]);
                side[1] = self.crossing(side[1]);
            }
        }
    }

    /// The whole's number of a crossing; inner crossings and the mark of a
    /// middle, which is above them, are kept.
    fn crossing(&self, number: u32) -> u32 {
        if number >= FIRST_INNER_CROSSING {
            return number;
        }
        self.crossings[number as usize]
    }

    /// The whole's name of a face; those of inner faces are kept.
    fn face(&self, name: u32) -> u32 {
        if name >= FIRST_INNER_FACE {
            return name;
        }
        u32::from(self.face_names[name as usize])
    }
}
