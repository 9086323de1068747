//! Seeded random texts of grids.

use citternblaze::text::{At, Edge, Fractions, NodePlace, Text};

/// A small random generator (splitmix64).
pub struct Random(pub u64);

#[allow(dead_code)]
impl Random {
    pub fn word(&mut self) -> u64 {
        self.0 = self.0.wrapping_add(0x9e37_79b9_7f4a_7c15);
        let mut mixed = self.0;
        mixed = (mixed ^ (mixed >> 30)).wrapping_mul(0xbf58_476d_1ce4_e5b9);
        mixed = (mixed ^ (mixed >> 27)).wrapping_mul(0x94d0_49bb_1331_11eb);
        mixed ^ (mixed >> 31)
    }

    /// A number from 0 to `limit` - 1.
    pub fn below(&mut self, limit: usize) -> usize {
        (self.word() % limit as u64) as usize
    }

    /// A number above 0 and below 1.
    pub fn fraction(&mut self) -> f64 {
        ((self.word() >> 12) + 1) as f64 / ((1_u64 << 52) + 2) as f64
    }

    /// So many fractions, rising.
    pub fn rising(&mut self, number: usize) -> Vec<f64> {
        let mut all: Vec<f64> = (0..number).map(|_| self.fraction()).collect();
        all.sort_by(f64::total_cmp);
        all
    }

    fn short(&mut self) -> u16 {
        match self.below(4) {
            0 => self.below(65_536) as u16,
            1 => [0, 1, 255, 256, 4_095, 4_096, 65_535][self.below(7)],
            _ => self.below(8) as u16,
        }
    }

    /// Any finite number, by its bits.
    pub fn number(&mut self) -> f64 {
        match self.below(3) {
            0 => self.below(100) as f64 / 8.0,
            1 => 1e6 * (self.fraction() - 0.5),
            _ => match f64::from_bits(self.word()) {
                number if number.is_finite() => number,
                _ => -0.0,
            },
        }
    }

    fn edge(&mut self) -> Edge {
        Edge {
            ends: [self.short(), self.short()],
            count: self.short(),
        }
    }

    /// Cells, edges, looks at some of these, node places and fractions: of no grid
    /// that would be accepted, as a rule.
    pub fn text(&mut self) -> Text {
        let mut text = Text::default();
        let at = |it| At { line: 0, it };
        for _ in 0..self.below(6) {
            let it = [0; 4].map(|_| self.short());
            text.cells.push(At { line: 0, it });
        }
        text.edges = (0..self.below(9)).map(|_| at(self.edge())).collect();
        for _ in 0..self.below(4).min(text.edges.len()) {
            let ends = text.edges[self.below(text.edges.len())].it.ends;
            let count = self.short();
            text.looks.push(at(Edge { ends, count }));
        }
        for node in 0..self.below(5) as u16 {
            let place = [0; 3].map(|_| self.number());
            text.nodes.push(At {
                line: 0,
                it: NodePlace { node, place },
            });
        }
        for u in 0..self.below(4) as u16 {
            let it = Fractions {
                ends: [u, self.short()],
                fractions: (0..self.below(5)).map(|_| self.number()).collect(),
            };
            text.fractions.push(At { line: 0, it });
        }
        text
    }
}
