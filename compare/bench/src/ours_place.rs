//! Placement alone, which the crate `harness` has and the product has only inside its start.

use library::{FUNCTIONS, KEYS, PlaceNumbers, PlacedOut};

use crate::setting::{APERTURE, SIZE};

/// 48 automatic BARs of one size.
pub fn numbers() -> PlaceNumbers {
    PlaceNumbers {
        start: APERTURE.start,
        end: APERTURE.end,
        count: FUNCTIONS,
        devices: std::array::from_fn(|at| at as u8),
        sizes: [SIZE; KEYS],
        fixed: [false; KEYS],
        addresses: [0; KEYS],
    }
}

pub fn place(numbers: PlaceNumbers) -> PlacedOut {
    library::place(numbers).expect("a library that places")
}
