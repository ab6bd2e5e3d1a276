//! Ties made on purpose: corners one apart, so that halfway between them the shift lies halfway between two whole numbers.

use crate::compare::{Bench, Case};
use crate::coverage::Call;
use crate::grids::{Plain, SHIFT_LIMIT};
use crate::points;

/// Spacings of which one at least is even: halfway along that axis there is a point.
pub const SPACINGS: [[i64; 2]; 7] =
    [[1_000, 1_000], [1_000, 1_001], [1_001, 1_000], [1_024, 9_973], [450_000, 1_600], [900_000, 450_000], [900_000, 900_000]];

/// Shifts of both parities and both signs, near zero and at the limits. The next shift is one greater.
pub fn shifts() -> impl Iterator<Item = i64> {
    (-5..=4).chain([-SHIFT_LIMIT, 1 - SHIFT_LIMIT, SHIFT_LIMIT - 2, SHIFT_LIMIT - 1])
}

/// Every such cell, with the latitude shift rising east, north or toward two corners, and the longitude shift falling likewise.
pub fn compare(bench: &mut Bench) {
    for [dlat, dlon] in SPACINGS {
        for low in shifts() {
            let high = low + 1;
            for lat in [[low, high, low, high], [low, low, high, high], [low, high, high, low]] {
                let lon = lat.map(|shift| -shift);
                let plain = Plain { header: vec![0, 0, dlat, dlon, 2, 2], lat: lat.to_vec(), lon: lon.to_vec() };
                halfway(bench, &plain, [dlat / 2, dlon / 2]);
            }
        }
    }
}

/// The points halfway along either axis and a thousandth beside them, there and back.
fn halfway(bench: &mut Bench, plain: &Plain, [north, east]: [i64; 2]) {
    let case = Case::of(&plain.header, &plain.lat, &plain.lon);
    let Ok(grid) = case.grid() else { unreachable!("the grid passes") };
    for [lat, lon] in [[0, east], [north, 0], [north, east]] {
        for point in [[lat, lon], [lat + 1, lon], [lat, lon + 1], [lat + 1, lon + 1]] {
            points::mark_point(bench, &grid, point);
            if let Ok(answer) = bench.one(Call::To83, &case, point, Some(4)) {
                let _ = bench.one(Call::To27, &case, answer.coordinates, Some(2));
            }
        }
    }
}
