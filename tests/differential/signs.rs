//! Signs made on purpose: shifts that are whole numbers, and shifts as close to one as a fraction in their cell can be.

use crate::compare::{Bench, Case};
use crate::coverage::Call;
use crate::grids::Plain;
use crate::model::TO83;
use crate::points;
use crate::ties::{shifts, SPACINGS};

/// Cells of which the northeast corner is one greater than the others, or one less, or like them. The longitude shifts are the
/// opposite.
pub fn compare(bench: &mut Bench) {
    for [dlat, dlon] in SPACINGS {
        for low in shifts() {
            let high = low + 1;
            for lat in [[low, low, low, high], [high, high, high, low], [low; 4]] {
                let lon = lat.map(|shift| -shift);
                let plain = Plain { header: vec![0, 0, dlat, dlon, 2, 2], lat: lat.to_vec(), lon: lon.to_vec() };
                near_corners(bench, &plain, [dlat, dlon]);
            }
        }
    }
}

/// A thousandth north and east of the southwest corner the northeast one weighs 1. There the shift is one part of the denominator
/// beside a whole number.
fn near_corners(bench: &mut Bench, plain: &Plain, [north, east]: [i64; 2]) {
    let case = Case::of(&plain.header, &plain.lat, &plain.lon);
    let Ok(grid) = case.grid() else { unreachable!("the grid passes") };
    let near = [[0, 0], [0, 1], [1, 0], [1, 1], [north - 1, east - 1], [north, east]];
    for point in near {
        points::mark_point(bench, &grid, point);
        let _ = bench.one(Call::To83, &case, point, Some(4));
    }
    bench.batch(&case, Some(&[TO83; 6]), Some(&near.concat()), [Some(24), Some(6)]);
}
