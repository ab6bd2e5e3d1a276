//! The rules of the paper, implemented a second time: the checks of a grid, the shift, the way back.
//!
//! Everything is counted in i128, so that no product or sum of 64-bit numbers can overflow here.

use crate::circle::{CIRCLE27, CIRCLE83};
use std::cmp::Ordering;

/// The number of a refusal and the place it reports.
#[derive(Clone, Copy, Debug, PartialEq)]
pub struct Refusal {
    pub number: u8,
    pub place: u64,
}

pub type Reply<T> = Result<T, Refusal>;

pub fn refuse<T>(number: u8, place: usize) -> Reply<T> {
    Err(Refusal { number, place: place as u64 })
}

/// What a request is answered: latitude and longitude and, on the way to NAD 83, a sign for each of them.
#[derive(Clone, Copy, Debug, PartialEq)]
pub struct Answer {
    pub coordinates: [i64; 2],
    pub signs: Option<[i64; 2]>,
}

impl Answer {
    /// The way back has no signs.
    pub fn back(coordinates: [i64; 2]) -> Answer {
        Answer { coordinates, signs: None }
    }

    /// The numbers in the order in which they are written.
    pub fn numbers(&self) -> Vec<i64> {
        [&self.coordinates[..], self.signs.as_ref().map_or(&[], |signs| &signs[..])].concat()
    }
}

/// The ways of the C header.
pub const TO83: u8 = 1;
pub const TO27: u8 = 2;

pub const LARGEST_SHIFT: i128 = 6_000_000;
const LAT_LIMIT: i128 = 323_940_000;

/// A header and nodes as a grid, not yet judged.
#[derive(Clone, Copy)]
pub struct Grid<'a> {
    pub south: i128,
    pub west: i128,
    pub dlat: i128,
    pub dlon: i128,
    pub rows: i128,
    pub cols: i128,
    lat: &'a [i64],
    lon: &'a [i64],
}

/// The grid, if it passes the checks.
pub fn check<'a>(header: &[i64], lat: &'a [i64], lon: &'a [i64]) -> Reply<Grid<'a>> {
    let grid = Grid::unjudged(header, lat, lon);
    if let Some(rule) = grid.broken_rule() {
        return refuse(2, rule);
    }
    let nodes = grid.nodes();
    if lat.len() < nodes || lon.len() < nodes {
        return refuse(5, nodes);
    }
    if let Some(node) = (0..nodes).find(|&k| !in_range(lat[k]) || !in_range(lon[k])) {
        return refuse(3, node);
    }
    if let Some(node) = grid.steep_node() {
        return refuse(4, node);
    }
    if let Some(node) = grid.twisted_node() {
        return refuse(14, node);
    }
    Ok(grid)
}

pub fn in_range(shift: i64) -> bool {
    i128::from(shift).abs() <= LARGEST_SHIFT
}

impl<'a> Grid<'a> {
    /// A number that the header slice does not have counts as 0.
    pub fn unjudged(header: &[i64], lat: &'a [i64], lon: &'a [i64]) -> Grid<'a> {
        let at = |k: usize| i128::from(header.get(k).copied().unwrap_or(0));
        Grid { south: at(0), west: at(1), dlat: at(2), dlon: at(3), rows: at(4), cols: at(5), lat, lon }
    }

    /// The first header rule that is broken, from 1 to 8.
    pub fn broken_rule(&self) -> Option<usize> {
        // Rules 7 and 8 come into question only after the first six hold, so the products below are small then; for absurd
        // numbers they stay within i128, as a product of two 64-bit numbers does.
        let kept = [
            self.south.abs() <= LAT_LIMIT,
            CIRCLE27.has(self.west),
            (1_000..=900_000).contains(&self.dlat),
            (1_000..=900_000).contains(&self.dlon),
            (2..=256).contains(&self.rows),
            (2..=256).contains(&self.cols),
            self.rows * self.cols <= 2_048,
            self.north() <= LAT_LIMIT,
        ];
        kept.iter().position(|&holds| !holds).map(|index| index + 1)
    }

    pub fn nodes(&self) -> usize {
        (self.rows * self.cols) as usize
    }

    pub fn north(&self) -> i128 {
        self.south + (self.rows - 1) * self.dlat
    }

    /// The distance eastward from the west edge to the east edge.
    pub fn width(&self) -> i128 {
        (self.cols - 1) * self.dlon
    }

    /// The distance eastward from the west edge to a longitude.
    pub fn distance(&self, lon: i128) -> i128 {
        CIRCLE27.eastward(self.west, lon)
    }

    /// The lowest node that is too steep to its east or north neighbour.
    pub fn steep_node(&self) -> Option<usize> {
        let (nodes, cols) = (self.nodes(), self.cols as usize);
        let steep = |one: usize, other: usize, spacing: i128| {
            [self.lat, self.lon]
                .iter()
                .any(|shifts| (i128::from(shifts[one]) - i128::from(shifts[other])).abs() * 16 > 100 * spacing)
        };
        (0..nodes).find(|&k| {
            let has_east = k % cols + 1 < cols;
            let has_north = k + cols < nodes;
            (has_east && steep(k, k + 1, self.dlon)) || (has_north && steep(k, k + cols, self.dlat))
        })
    }

    /// Each cell's southwest node, in rising order, with S1 - S2 - S3 + S4 of the latitude and of the longitude shifts.
    pub fn twists(self) -> impl Iterator<Item = (usize, [i128; 2])> + 'a {
        let (rows, cols) = (self.rows as usize, self.cols as usize);
        let cells = (0..rows - 1).flat_map(move |row| (0..cols - 1).map(move |col| [row, col]));
        cells.map(move |[row, col]| {
            let node = |up: usize, right: usize| (row + up) * cols + col + right;
            let corners = |shifts: &[i64]| [node(0, 0), node(0, 1), node(1, 0), node(1, 1)].map(|k| i128::from(shifts[k]));
            (node(0, 0), [self.lat, self.lon].map(corners).map(|[s1, s2, s3, s4]| s1 - s2 - s3 + s4))
        })
    }

    /// The lowest southwest node of a cell with a component whose twist, times 64, is above 100 times the smaller spacing.
    pub fn twisted_node(&self) -> Option<usize> {
        let too_far = |twist: &i128| twist.abs() * 64 > 100 * self.dlat.min(self.dlon);
        self.twists().find(|(_, twists)| twists.iter().any(too_far)).map(|(node, _)| node)
    }

    /// The shift of one component at a point on the grid, as numerator and denominator (USGS Bulletin 1875-B, equation 2). The
    /// point lies `x` east of the west edge.
    fn fraction(&self, shifts: &[i64], lat: i128, x: i128) -> (i128, i128) {
        let (row, col) = (cell(lat - self.south, self.dlat), cell(x, self.dlon));
        let a = x - col * self.dlon;
        let c = lat - self.south - row * self.dlat;
        let (b, d) = (self.dlon - a, self.dlat - c);
        let first = (row * self.cols + col) as usize;
        let above = first + self.cols as usize;
        let s = |node: usize| i128::from(shifts[node]);
        let sum = s(first) * b * d + s(first + 1) * a * d + s(above) * b * c + s(above + 1) * a * c;
        (sum, (a + b) * (c + d))
    }

    pub fn lat_fraction(&self, lat: i128, x: i128) -> (i128, i128) {
        self.fraction(self.lat, lat, x)
    }

    pub fn lon_fraction(&self, lat: i128, x: i128) -> (i128, i128) {
        self.fraction(self.lon, lat, x)
    }

    fn lat_figure(&self, lat: i128, x: i128) -> i128 {
        100 * lat + nearest(self.lat_fraction(lat, x))
    }

    /// How far east of the west edge the answer lies, in hundred-thousandths; below zero where it lies west of it.
    fn east_of_edge(&self, lat: i128, x: i128) -> i128 {
        100 * x + nearest(self.lon_fraction(lat, x))
    }

    pub fn holds_lat(&self, lat: i128) -> bool {
        self.south <= lat && lat <= self.north()
    }

    pub fn holds_lon(&self, lon: i128) -> bool {
        CIRCLE27.has(lon) && self.distance(lon) <= self.width()
    }

    /// The coordinates of the NAD 83 figure of a NAD 27 point.
    pub fn to83(&self, point: [i64; 2]) -> Reply<[i64; 2]> {
        let [lat, lon] = point.map(i128::from);
        if !self.holds_lat(lat) || !self.holds_lon(lon) {
            return refuse(6, 0);
        }
        let x = self.distance(lon);
        let counted = 100 * lon + nearest(self.lon_fraction(lat, x));
        Ok([self.lat_figure(lat, x) as i64, CIRCLE83.name(counted)])
    }

    /// For the latitude and the longitude shift at a point on the grid, the sign of the rounded shift minus the exact fraction.
    fn signs(&self, point: [i64; 2]) -> [i64; 2] {
        let (lat, x) = (point[0].into(), self.distance(point[1].into()));
        [self.lat_fraction(lat, x), self.lon_fraction(lat, x)].map(sign)
    }

    /// One request. A way that does not exist is refused 1.
    pub fn convert(&self, way: u8, numbers: [i64; 2]) -> Reply<Answer> {
        match way {
            TO83 => self.to83(numbers).map(|coordinates| Answer { coordinates, signs: Some(self.signs(numbers)) }),
            TO27 => self.to27(numbers).map(Answer::back),
            _ => refuse(1, 0),
        }
    }

    /// The NAD 27 point whose answer is the NAD 83 figure `figure`, by two searches, one within the other. Both count a longitude
    /// as a distance x east of the west edge, so that the 180th meridian is nothing special in them.
    ///
    /// Why no point is missed. A shift is at most 6,000,000, so both coordinates of the point lie in the windows below. The
    /// steepness rule allows a change of 100/16 = 6.25 in the shift for one thousandth along either axis. Rounding two shifts
    /// changes their difference by at most 1.
    /// - At one x, a step north adds at least 100 - 6.25 - 1 to the latitude figure, which therefore rises. So `row_at` finds the
    ///   only latitude of that x that can have the latitude figure.
    /// - A step north and a step east or west together add at least 100 - 12.5 - 1 to the latitude figure. So `row_at` of two
    ///   neighbours differs by at most 1.
    /// - A step east along `row_at` thus carries the answer at least 100 - 12.5 - 1 farther east, and the outer search finds the
    ///   only x that can have it.
    ///
    /// What the searches find is compared with the figure in the end, so nothing is answered wrongly.
    pub fn to27(&self, figure: [i64; 2]) -> Reply<[i64; 2]> {
        let [lat_figure, lon_figure] = figure.map(i128::from);
        if !CIRCLE83.has(lon_figure) {
            return refuse(7, 0);
        }
        let east = self.nearer_way(lon_figure);
        let (low_lat, high_lat) = window(lat_figure, self.south, self.north());
        let (low, high) = window(east, 0, self.width());
        if low_lat > high_lat || low > high {
            return refuse(7, 0);
        }
        let row_at = |x| first(low_lat, high_lat, |lat| self.lat_figure(lat, x) >= lat_figure).min(high_lat);
        let x = first(low, high, |x| self.east_of_edge(row_at(x), x) >= east).min(high);
        let point = [row_at(x) as i64, CIRCLE27.name(self.west + x)];
        if self.to83(point) != Ok(figure) {
            return refuse(7, 0);
        }
        Ok(point)
    }

    /// How far east of the west edge a figure lies, below zero where it is nearer the other way round. An answer lies no farther
    /// west of the edge than the largest shift and, as 255 x 900,000 thousandths are less than a fifth of a turn, less than half
    /// a turn east.
    fn nearer_way(&self, lon_figure: i128) -> i128 {
        CIRCLE83.nearer_way(100 * self.west, lon_figure)
    }
}

/// The cell, counted from 0, at a distance from the low edge. A point on a shared side is given to the lower of the two cells.
fn cell(distance: i128, spacing: i128) -> i128 {
    if distance == 0 {
        0
    } else {
        (distance - 1) / spacing
    }
}

/// The nearer of the two whole numbers around the fraction, and the even one where both are equally near.
fn nearest((numerator, denominator): (i128, i128)) -> i128 {
    let below = numerator.div_euclid(denominator);
    let above = below + 1;
    match (numerator - below * denominator).cmp(&(above * denominator - numerator)) {
        Ordering::Less => below,
        Ordering::Greater => above,
        Ordering::Equal => [below, above].into_iter().find(|whole| whole % 2 == 0).expect("one of two neighbours is even"),
    }
}

/// The sign of the rounded shift minus the exact fraction. The denominator is above zero, so both can be multiplied by it.
pub fn sign((numerator, denominator): (i128, i128)) -> i64 {
    let rounded = nearest((numerator, denominator));
    (rounded * denominator - numerator).signum() as i64
}

/// The coordinates between two edges that can have `figure`: 100 times the coordinate is within the largest shift of it.
fn window(figure: i128, low_edge: i128, high_edge: i128) -> (i128, i128) {
    let low = (figure - LARGEST_SHIFT).div_euclid(100);
    let high = (figure + LARGEST_SHIFT).div_euclid(100) + 1;
    (low.max(low_edge), high.min(high_edge))
}

/// The least number from `low` to `high` at which `reached` holds, or `high` + 1. Once reached, it must stay reached.
fn first(low: i128, high: i128, reached: impl Fn(i128) -> bool) -> i128 {
    let (mut from, mut to) = (low, high + 1);
    while from < to {
        let middle = (from + to).div_euclid(2);
        if reached(middle) {
            to = middle;
        } else {
            from = middle + 1;
        }
    }
    from
}
