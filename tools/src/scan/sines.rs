//! A straight line and sines along an edge. The second derivative is nowhere above
//! the sum of what each sine has at most. So on a part of the edge with the width h
//! the function is monotone where the slope at its middle is at least h / 2 times
//! this sum, and has no zero where the value at its middle is more than the function
//! can change by on the way to its ends. Other parts are halved.

use super::pieces::Profile;

/// `height` times the sine of `phase` + `turns` · s.
#[derive(Clone, Copy, Debug, PartialEq)]
pub struct Sine {
    pub height: f64,
    pub turns: f64,
    pub phase: f64,
}

#[derive(Clone, Debug, PartialEq)]
pub struct Sines {
    pub start: f64,
    pub slope: f64,
    pub sines: Vec<Sine>,
}

/// Parts are halved so often: what is left touches zero to within 2 to the -42 of the
/// edge, and counts by the signs at its ends.
const HALVINGS: usize = 42;

impl Sines {
    fn slope_at(&self, at: f64) -> f64 {
        let of = |sine: &Sine| sine.height * sine.turns * (sine.phase + sine.turns * at).cos();
        self.slope + self.sines.iter().map(of).sum::<f64>()
    }

    /// What the second derivative has at most.
    fn bend(&self) -> f64 {
        let of = |sine: &Sine| (sine.height * sine.turns * sine.turns).abs();
        self.sines.iter().map(of).sum()
    }

    /// How many half waves the quickest of the sines has on the edge.
    pub fn half_waves(&self) -> f64 {
        let turns = self.sines.iter().map(|sine| sine.turns.abs());
        turns.fold(0.0, f64::max) / std::f64::consts::PI
    }

    /// Whether the function is monotone on a part, or has no zero there.
    fn is_plain(&self, low: f64, high: f64, bend: f64) -> bool {
        let (middle, half) = (0.5 * (low + high), 0.5 * (high - low));
        let slope = self.slope_at(middle).abs();
        slope >= bend * half || self.value(middle).abs() > (slope + bend * half) * half
    }

    /// Adds the higher ends of the parts that a part is halved into.
    fn add_breaks(&self, [low, high]: [f64; 2], bend: f64, halvings: usize, to: &mut Vec<f64>) {
        if halvings == 0 || self.is_plain(low, high, bend) {
            to.push(high);
            return;
        }
        let middle = 0.5 * (low + high);
        self.add_breaks([low, middle], bend, halvings - 1, to);
        self.add_breaks([middle, high], bend, halvings - 1, to);
    }
}

impl Profile for Sines {
    fn value(&self, at: f64) -> f64 {
        let of = |sine: &Sine| sine.height * (sine.phase + sine.turns * at).sin();
        self.start + self.slope * at + self.sines.iter().map(of).sum::<f64>()
    }

    fn breaks(&self) -> Vec<f64> {
        let mut breaks = Vec::new();
        self.add_breaks([0.0, 1.0], self.bend(), HALVINGS, &mut breaks);
        // the last is the edge's end
        breaks.pop();
        breaks
    }
}
