//! The calls on a flat grid: its check, its segments, its chains.

use crate::answer::{answer, only, Refusal};
use crate::constants::CLOSED;
use crate::face::{asked, Join};
use crate::grid::Lists;
use crate::library::LINKED;

/// The face call for a triangle of a flat grid with these counts of ab, ac, bc.
pub fn face(counts: [u16; 3], edge: usize, index: usize) -> Join {
    asked(edge, index, |edge, index, area| {
        LINKED.flat_face(counts, edge, index, area)
    })
}

/// Crossings that segments join in turn.
#[derive(Clone, Debug, PartialEq, Eq)]
pub struct Chain {
    pub closed: bool,
    pub crossings: Vec<u32>,
}

/// A flat grid that its check accepts. Its lists have three nodes to a cell.
#[derive(Clone, Debug)]
pub struct Sheet {
    lists: Lists,
    crossings: usize,
}

impl Sheet {
    /// Accepts the lists of a flat grid, or refuses them.
    pub fn open(lists: Lists) -> Result<Sheet, Refusal> {
        let Lists {
            cells,
            edges,
            counts,
        } = &lists;
        let numbers = answer(|area| LINKED.flat_check(cells, edges, counts, area));
        let crossings = only(&numbers)?;
        Ok(Sheet { lists, crossings })
    }

    pub fn lists(&self) -> &Lists {
        &self.lists
    }

    pub fn crossings(&self) -> usize {
        self.crossings
    }

    /// The chains call. Twice as many words as there are crossings suffice.
    pub fn chains(&self) -> Result<Vec<Chain>, Refusal> {
        let Lists {
            cells,
            edges,
            counts,
        } = &self.lists;
        let mut words = vec![0; 2 * self.crossings];
        let numbers = answer(|area| LINKED.flat_chains(cells, edges, counts, &mut words, area));
        let written = only(&numbers)?;
        Ok(chains(&words[..written]))
    }
}

/// The chains of their words: open or closed, how many crossings, and these.
fn chains(mut words: &[u32]) -> Vec<Chain> {
    let mut all = Vec::new();
    while let [first, number, rest @ ..] = words {
        let (own, after) = rest.split_at(*number as usize);
        all.push(Chain {
            closed: *first == CLOSED,
            crossings: own.to_vec(),
        });
        words = after;
    }
    all
}

#[cfg(test)]
mod tests {
    use super::*;

    #[test]
    fn chains_of_words() {
        let chain = |closed, crossings: &[u32]| Chain {
            closed,
            crossings: crossings.to_vec(),
        };
        assert_eq!(chains(&[]), []);
        let words = [0, 1, 7, 1, 3, 4, 5, 6, 0, 2, 1, 0];
        let all = [
            chain(false, &[7]),
            chain(true, &[4, 5, 6]),
            chain(false, &[1, 0]),
        ];
        assert_eq!(chains(&words), all);
    }
}
