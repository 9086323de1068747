//! The zeros along an edge of a function that falls into monotone pieces: on each
//! piece there is one where the signs at its ends differ, and else none. So all are
//! found, and their number is even exactly where the edge's two ends are on one side,
//! however values within are rounded. A zero at the end of a piece counts as positive.

/// A function along an edge, from 0 at its lower node to 1 at the higher.
pub trait Profile {
    fn value(&self, at: f64) -> f64;

    /// Places within the edge, in order, between which the function is monotone or
    /// has no zero.
    fn breaks(&self) -> Vec<f64>;

    /// The zero by formula, where the function has one at most.
    fn only_zero(&self) -> Option<f64> {
        None
    }
}

/// Whether a value is on the positive side.
pub fn is_positive(value: f64) -> bool {
    value >= 0.0
}

/// The zeros within the edge, in order, where its ends have these sides.
pub fn zeros(profile: &impl Profile, ends: [bool; 2]) -> Vec<f64> {
    let mut found = Vec::new();
    let mut low = (0.0, ends[0]);
    let inner = profile.breaks().into_iter();
    let inner = inner.map(|at| (at, is_positive(profile.value(at))));
    for high in inner.chain([(1.0, ends[1])]) {
        if low.1 != high.1 {
            let zero = profile.only_zero();
            found.push(zero.unwrap_or_else(|| bisect(profile, low, high.0)));
        }
        low = high;
    }
    found
}

/// More halvings change no digit of a zero that is above 2 to the -64.
const HALVINGS: usize = 120;

/// The zero of a piece that starts at a place with a side and ends on the other.
fn bisect(profile: &impl Profile, (start, side): (f64, bool), end: f64) -> f64 {
    let (mut low, mut high) = (start, end);
    for _ in 0..HALVINGS {
        let middle = 0.5 * (low + high);
        if middle <= low || middle >= high {
            break;
        }
        match is_positive(profile.value(middle)) == side {
            true => low = middle,
            false => high = middle,
        }
    }
    high
}
