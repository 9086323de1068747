//! Fractions as the places call takes them: above 0, below 1, each above the one
//! before.

/// The least fraction that is written, and the distance of the highest from 1.
const STEP: f64 = 0.5 * f64::EPSILON;

/// Sorts fractions from 0 to 1, and moves those that are equal, or at an end, to
/// neighbouring numbers. Answers how many were moved.
pub fn spread(fractions: &mut [f64]) -> usize {
    fractions.sort_by(f64::total_cmp);
    let given = fractions.to_vec();
    let mut least = STEP;
    for fraction in fractions.iter_mut() {
        *fraction = fraction.max(least);
        least = f64::from_bits(fraction.to_bits() + 1);
    }
    let mut most = 1.0 - STEP;
    for fraction in fractions.iter_mut().rev() {
        *fraction = fraction.min(most);
        most = f64::from_bits(fraction.to_bits() - 1);
    }
    let pairs = fractions.iter().zip(&given);
    pairs.filter(|(now, before)| now != before).count()
}
