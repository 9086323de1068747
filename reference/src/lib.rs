//! Second implementation of the subgrid tetrahedral mesher, written to be
//! compared with the proved one.

pub mod face;

pub mod cell;

pub mod grid;

pub mod mesh;

pub mod booking;

pub mod split;

pub mod layers;

pub mod bundle;
pub mod cases;

pub mod places;

pub mod nest;

pub mod nearest;

pub mod shading;

pub mod flat;

pub mod sheets;

pub mod listing;

pub mod gen;

pub mod manifold;

/// Why a call did nothing: the fault's row and the place it was found at.
#[derive(Clone, Copy, Debug, PartialEq, Eq)]
pub struct Refusal {
    pub number: u8,
    pub place: u64,
}

/// The refusal with this number and place.
pub(crate) fn refuse<T>(number: u8, place: usize) -> Result<T, Refusal> {
    Err(Refusal {
        number,
        place: place as u64,
    })
}
