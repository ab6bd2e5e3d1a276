//! The rule that points keep their order, judged on the library's answers: two points on one meridian or one parallel, and the
//! shift of one point among the corners of its cells.

use crate::circle::{CIRCLE27, CIRCLE83};
use crate::compare::{fail, Bench, Case};
use crate::coverage::Call;
use crate::model::Grid;

/// A line that points share. Its number is that of the coordinate in which they differ.
#[derive(Clone, Copy, Debug)]
pub enum Line {
    Meridian,
    Parallel,
}

/// A NAD 27 point and its answer in NAD 83.
#[derive(Clone, Copy, Debug)]
pub struct Converted {
    pub point: [i64; 2],
    pub answer: [i64; 2],
}

impl Converted {
    /// The rounded shift: the answer minus 100 times the point, for the longitude the shorter way round.
    pub fn shift(&self) -> [i128; 2] {
        let [lat, lon] = self.point.map(|part| 100 * i128::from(part));
        let [lat_figure, lon_figure] = self.answer.map(i128::from);
        [lat_figure - lat, CIRCLE83.nearer_way(lon, lon_figure)]
    }
}

/// Whether the second of two answers is the northern one or, on a parallel, lies farther east by less than half a turn.
pub fn keeps_order(line: Line, first: [i64; 2], second: [i64; 2]) -> bool {
    match line {
        Line::Meridian => first[0] < second[0],
        Line::Parallel => {
            let way = CIRCLE83.eastward(first[1].into(), second[1].into());
            0 < way && 2 * way < CIRCLE83.turn().into()
        }
    }
}

/// How far north of the south edge and east of the west edge a point lies.
pub fn distances(grid: &Grid, point: [i64; 2]) -> [i128; 2] {
    let [lat, lon] = point.map(i128::from);
    [lat - grid.south, grid.distance(lon)]
}

/// Judges points at every crossing of some parallels and meridians, and their order along each of these. The lines are given by
/// their distances from the south and the west edge, in rising order.
pub fn crossings(bench: &mut Bench, case: &Case, north: &[i64], east: &[i64]) {
    let [south, west, ..] = case.memory.header.original()[..] else { unreachable!("a header has six numbers") };
    let mut rows: Vec<Vec<Converted>> = Vec::new();
    for lat in north.iter().map(|north| south + north) {
        rows.push(east.iter().map(|east| judged(bench, case, [lat, CIRCLE27.name(west + east)])).collect());
    }
    rows.iter().for_each(|row| judge_line(bench, case, Line::Parallel, row));
    for col in 0..east.len() {
        let points: Vec<Converted> = rows.iter().map(|row| row[col]).collect();
        judge_line(bench, case, Line::Meridian, &points);
    }
}

/// Judges the order of every two points of a line, which are given from south to north or from the west edge eastward.
fn judge_line(bench: &mut Bench, case: &Case, line: Line, points: &[Converted]) {
    let Ok(grid) = case.grid() else { unreachable!("the grid passes") };
    for (k, &second) in points.iter().enumerate() {
        for &first in &points[..k] {
            if !keeps_order(line, first.answer, second.answer) {
                let input = format!("points {:?} and {:?}, {}", first.point, second.point, case.account());
                let got = format!("{:?} and {:?}", first.answer, second.answer);
                fail(Call::To83, &input, &format!("answers in order on a {line:?}"), &got);
            }
            bench.mark_pair(&grid, line, [first, second]);
        }
    }
}

/// Converts a point of the grid, which the model confirms, and judges its shift.
fn judged(bench: &mut Bench, case: &Case, point: [i64; 2]) -> Converted {
    let (Ok(grid), Ok(found)) = (case.grid(), bench.one(Call::To83, case, point, Some(4))) else {
        unreachable!("the grid passes, and the point is on it")
    };
    let converted = Converted { point, answer: found.coordinates };
    let cells = cells(case, &grid, distances(&grid, point));
    judge_shift(case, &converted, &cells);
    judge_node(case, &grid, &converted);
    bench.mark_shift(&grid, &converted, &cells);
    converted
}

/// Each shift lies between the least and the greatest corner of its cell, on a shared side of each of the cells.
fn judge_shift(case: &Case, converted: &Converted, cells: &[Corners]) {
    for (shift, corners) in cells.iter().flat_map(|cell| converted.shift().into_iter().zip(cell)) {
        let (least, greatest) = (corners.iter().min().unwrap(), corners.iter().max().unwrap());
        if !(least..=greatest).contains(&&shift) {
            let input = format!("point {:?}, {}", converted.point, case.account());
            fail(Call::To83, &input, &format!("a shift from {least} to {greatest}"), &shift.to_string());
        }
    }
}

/// At a node the shifts are the node's.
fn judge_node(case: &Case, grid: &Grid, converted: &Converted) {
    let [north, east] = distances(grid, converted.point);
    if north % grid.dlat == 0 && east % grid.dlon == 0 {
        let (expected, got) = (node_shifts(case, grid, [north / grid.dlat, east / grid.dlon]), converted.shift());
        if got != expected {
            let input = format!("node at {:?}, {}", converted.point, case.account());
            fail(Call::To83, &input, &format!("the node's shifts {expected:?}"), &format!("{got:?}"));
        }
    }
}

/// The shifts of the node in a row and a column.
fn node_shifts(case: &Case, grid: &Grid, [row, col]: [i128; 2]) -> [i128; 2] {
    let node = (row * grid.cols + col) as usize;
    [case.memory.lat.original()[node], case.memory.lon.original()[node]].map(i128::from)
}

/// The latitude shifts of a cell's four corners, and their longitude shifts.
pub type Corners = [[i128; 4]; 2];

/// The corners of every cell that a place belongs to: of four cells where they share a node.
fn cells(case: &Case, grid: &Grid, [north, east]: [i128; 2]) -> Vec<Corners> {
    let mut cells = Vec::new();
    for row in cells_along(north, grid.dlat, grid.rows) {
        for col in cells_along(east, grid.dlon, grid.cols) {
            let nodes = [[row, col], [row, col + 1], [row + 1, col], [row + 1, col + 1]];
            let shifts = nodes.map(|node| node_shifts(case, grid, node));
            cells.push([0, 1].map(|component| shifts.map(|pair| pair[component])));
        }
    }
    cells
}

/// Along one axis, the cells that hold a place at this distance from the edge. A shared side belongs to both of its cells.
fn cells_along(distance: i128, spacing: i128, nodes: i128) -> impl Iterator<Item = i128> {
    (0..nodes - 1).filter(move |cell| (cell * spacing..=(cell + 1) * spacing).contains(&distance))
}
