//! Polynomials along an edge. Between two neighbouring zeros of its derivative a
//! polynomial is monotone, and these zeros are found in the same way, one degree
//! lower each time.

use super::pieces::{is_positive, zeros, Profile};

/// The coefficients, from that of degree 0.
#[derive(Clone, Debug, PartialEq)]
pub struct Polynomial(pub Vec<f64>);

impl Polynomial {
    fn derivative(&self) -> Polynomial {
        let powers = self.0.iter().zip(0..).skip(1);
        Polynomial(powers.map(|(of, power)| of * f64::from(power)).collect())
    }

    pub fn product(&self, other: &Polynomial) -> Polynomial {
        let mut out = vec![0.0; self.0.len() + other.0.len() - 1];
        for (i, a) in self.0.iter().enumerate() {
            for (k, b) in other.0.iter().enumerate() {
                out[i + k] += a * b;
            }
        }
        Polynomial(out)
    }

    /// This and a multiple of another.
    pub fn plus(&self, other: &Polynomial, times: f64) -> Polynomial {
        let at = |of: &Polynomial, power: usize| of.0.get(power).copied().unwrap_or(0.0);
        let powers = 0..self.0.len().max(other.0.len());
        let sum = powers.map(|power| at(self, power) + times * at(other, power));
        Polynomial(sum.collect())
    }
}

impl Profile for Polynomial {
    fn value(&self, at: f64) -> f64 {
        self.0.iter().rev().fold(0.0, |sum, of| sum * at + of)
    }

    fn breaks(&self) -> Vec<f64> {
        if self.0.len() <= 2 {
            return Vec::new();
        }
        let derivative = self.derivative();
        let ends = [0.0, 1.0].map(|at| is_positive(derivative.value(at)));
        zeros(&derivative, ends)
    }

    fn only_zero(&self) -> Option<f64> {
        match self.0[..] {
            [at_0, slope] => Some(-at_0 / slope),
            _ => None,
        }
    }
}
