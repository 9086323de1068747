//! The calls on runs of cells: the mesh of one run, and the meshes of all joined.

use crate::answer::{answer, Refusal};
use crate::grid::{words_within, Grid, Meshed};
use crate::library::LINKED;

impl Grid {
    /// The words of one run's mesh, in the run's own names.
    pub fn mesh_run(&self, cuts: &[u16], run: usize) -> Result<Vec<u32>, Refusal> {
        words_within(usize::MAX, |words| {
            let call = |area: &mut [u64]| LINKED.mesh_run(self.lent(), cuts, run, words, area);
            Meshed::of(&answer(call))
        })
    }

    /// The words of all runs' meshes, in the names of the whole.
    pub fn mesh_joined(&self, cuts: &[u16]) -> Result<Vec<u32>, Refusal> {
        words_within(usize::MAX, |words| {
            let call = |area: &mut [u64]| LINKED.mesh_joined(self.lent(), cuts, words, area);
            Meshed::of(&answer(call))
        })
    }
}
