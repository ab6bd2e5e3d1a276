//! Notes what the cases reach at the 180th meridian, and which numbers they try that are no longitudes.

use crate::circle::{CIRCLE27, CIRCLE83};
use crate::compare::Bench;
use crate::grids::MERIDIAN;
use crate::model::{refuse, Answer, Grid, Reply};

/// Whether the meridian lies between the edges of a grid, not on them.
fn is_across(grid: &Grid) -> bool {
    let meridian = i128::from(MERIDIAN);
    grid.west < meridian && meridian < grid.west + grid.width()
}

/// Which way an answer was carried across the meridian, if it was: 1 eastward, -1 westward. Without that it would be no farther
/// from its point than a shift.
fn carried(lon: i64, figure: i64) -> i64 {
    let half = CIRCLE83.turn() / 2;
    let apart = figure - 100 * lon;
    i64::from(apart < -half) - i64::from(apart > half)
}

impl Bench {
    /// Notes how a grid lies to the meridian, and west edges at the ends of the range.
    pub fn mark_edges(&mut self, grid: &Grid, verdict: &Reply<u64>) {
        let (passed, no_place, marks) = (verdict.is_ok(), *verdict == refuse(2, 2), &mut self.coverage);
        marks.mark_if(passed && grid.west == -648_000_000, "grid: west edge at -648,000,000");
        marks.mark_if(passed && grid.west == 647_999_999, "grid: west edge at 647,999,999");
        marks.mark_if(no_place && grid.west == -648_000_001, "grid: west edge at -648,000,001, refused");
        marks.mark_if(no_place && grid.west == 648_000_000, "grid: west edge at 648,000,000, refused");
        if passed {
            let past = grid.west + grid.width() - i128::from(MERIDIAN);
            marks.mark_if(is_across(grid), "meridian: a grid across it");
            marks.mark_if(past == -1, "meridian: an east edge one short of it");
            marks.mark_if(past == 0, "meridian: an east edge on it");
            marks.mark_if(past == 1, "meridian: an east edge one past it");
        }
    }

    /// Notes what became of a point on the way to NAD 83.
    pub fn mark_there(&mut self, grid: &Grid, point: [i64; 2], found: &Reply<Answer>) {
        match found {
            Ok(answer) => self.mark_answer(grid, point[1], answer.coordinates[1]),
            Err(_) if !CIRCLE27.has(point[1]) => self.mark_no_point(grid, point),
            Err(_) => (),
        }
    }

    fn mark_answer(&mut self, grid: &Grid, lon: i64, figure: i64) {
        let (across, beside) = (is_across(grid), !grid.holds_lon(CIRCLE27.first.into()));
        let (way, marks) = (carried(lon, figure), &mut self.coverage);
        marks.mark_if(across && lon > 0, "meridian: a point west of it, on a grid across it");
        marks.mark_if(across && lon < 0 && lon != CIRCLE27.first, "meridian: a point east of it, on a grid across it");
        marks.mark_if(lon == CIRCLE27.first, "meridian: a point on it");
        marks.mark_if(lon == CIRCLE27.last, "meridian: a point one short of it");
        marks.mark_if(figure == CIRCLE83.first, "meridian: an answer on it");
        marks.mark_if(figure == CIRCLE83.last, "meridian: an answer one short of it");
        marks.mark_if(way == 1, "meridian: an answer carried across it eastward");
        marks.mark_if(way == -1, "meridian: an answer carried across it westward");
        marks.mark_if(way == 1 && beside, "meridian: an answer carried across it eastward, from a grid beside it");
        marks.mark_if(way == -1 && beside, "meridian: an answer carried across it westward, from a grid beside it");
    }

    /// A refused longitude outside the range is noted where the place that one counts to lies on the grid.
    fn mark_no_point(&mut self, grid: &Grid, [lat, lon]: [i64; 2]) {
        if grid.to83([lat, CIRCLE27.name(lon)]).is_err() {
            return;
        }
        let (turn, marks) = (CIRCLE27.turn(), &mut self.coverage);
        marks.mark_if(lon == -648_000_001, "no longitude: -648,000,001");
        marks.mark_if(lon == 648_000_000, "no longitude: 648,000,000");
        marks.mark_if(CIRCLE27.has(lon.saturating_sub(turn)), "no longitude: a turn east of a point of the grid");
        marks.mark_if(CIRCLE27.has(lon.saturating_add(turn)), "no longitude: a turn west of a point of the grid");
    }

    /// Notes what became of a figure on the way back.
    pub fn mark_back(&mut self, grid: &Grid, figure: [i64; 2], found: &Reply<Answer>) {
        match found {
            Ok(answer) => self.mark_point_back(grid, figure[1], answer.coordinates[1]),
            Err(_) if !CIRCLE83.has(figure[1]) => self.mark_no_figure(grid, figure),
            Err(_) => (),
        }
    }

    fn mark_point_back(&mut self, grid: &Grid, figure: i64, lon: i64) {
        let (across, way, marks) = (is_across(grid), carried(lon, figure), &mut self.coverage);
        marks.mark_if(across && lon > 0, "meridian: back to a point west of it, on a grid across it");
        marks.mark_if(across && lon < 0 && lon != CIRCLE27.first, "meridian: back to a point east of it, on a grid across it");
        marks.mark_if(lon == CIRCLE27.first, "meridian: back to a point on it");
        marks.mark_if(way == 1, "meridian: back from an answer carried across it eastward");
        marks.mark_if(way == -1, "meridian: back from an answer carried across it westward");
    }

    /// A refused longitude outside the range is noted where the place that one counts to is an answer.
    fn mark_no_figure(&mut self, grid: &Grid, [lat, lon]: [i64; 2]) {
        if grid.to27([lat, CIRCLE83.name(lon)]).is_err() {
            return;
        }
        let (turn, marks) = (CIRCLE83.turn(), &mut self.coverage);
        marks.mark_if(lon == -64_800_000_001, "no longitude: -64,800,000,001");
        marks.mark_if(lon == 64_800_000_000, "no longitude: 64,800,000,000");
        marks.mark_if(CIRCLE83.has(lon.saturating_sub(turn)), "no longitude: a turn east of an answer");
        marks.mark_if(CIRCLE83.has(lon.saturating_add(turn)), "no longitude: a turn west of an answer");
    }
}
