//! Points at places chosen on purpose and at random, whose order and whose shifts are judged.

use crate::circle::CIRCLE27;
use crate::compare::{fail, Bench, Case};
use crate::coverage::Call;
use crate::grids::{self, Plain, MERIDIAN, SHIFT_LIMIT};
use crate::meridian;
use crate::model::{in_range, refuse, Grid};
use crate::order_rule::{crossings, distances, keeps_order, Line};
use crate::points;
use crate::random::Random;
use crate::ties::SPACINGS;

/// The coordinates of two answers along a line, and whether they are in order, worked by hand. No grid is wide enough for answers
/// half a turn apart.
const BY_HAND: [(Line, [i64; 2], bool); 12] = [
    (Line::Meridian, [-1, 0], true),
    (Line::Meridian, [0, 0], false),
    (Line::Meridian, [0, -1], false),
    (Line::Parallel, [-1, 0], true),
    (Line::Parallel, [0, 0], false),
    (Line::Parallel, [0, -1], false),
    (Line::Parallel, [64_799_999_999, -64_800_000_000], true),
    (Line::Parallel, [-64_800_000_000, 64_799_999_999], false),
    (Line::Parallel, [0, 64_799_999_999], true),
    (Line::Parallel, [0, -64_800_000_000], false),
    (Line::Parallel, [1, -64_800_000_000], true),
    (Line::Parallel, [-1, 64_799_999_999], false),
];

/// Holds the rule that judges the library to the paper.
pub fn by_hand() {
    for (line, coordinates, expected) in BY_HAND {
        let [first, second] = coordinates.map(|coordinate| [coordinate; 2]);
        let got = keeps_order(line, first, second);
        if got != expected {
            let input = format!("by hand, answers in order on a {line:?}, {coordinates:?}");
            fail(Call::To83, &input, &expected.to_string(), &got.to_string());
        }
    }
}

/// Distances along an axis of three nodes: the nodes, neighbours beside them, and the middle of a cell.
fn places(spacing: i64) -> [i64; 11] {
    let (node, edge) = (spacing, 2 * spacing);
    [0, 1, 2, 3, spacing / 2, node - 2, node - 1, node, node + 1, edge - 1, edge]
}

/// Judges points at all such places of a grid of 3 x 3 nodes.
fn over_places(bench: &mut Bench, plain: &Plain) {
    let case = Case::of(&plain.header, &plain.lat, &plain.lon);
    bench.check(&case);
    crossings(bench, &case, &places(plain.header[2]), &places(plain.header[3]));
}

/// The shifts of three nodes along an axis, as multiples of the greatest change from one to the next: they rise, fall, or turn at
/// the middle one.
const SLOPES: [[i64; 3]; 4] = [[-1, 0, 1], [1, 0, -1], [0, 1, 0], [0, -1, 0]];

/// Grids as steep as the checks allow, with shifts around zero and up to either limit, and the edges in every place to the 180th
/// meridian. The latitude shift changes northward, the longitude shift eastward and the opposite way.
pub fn steepest(bench: &mut Bench) {
    for [dlat, dlon] in SPACINGS {
        for west in meridian::west_edges(dlon) {
            for (slope, side) in SLOPES.into_iter().flat_map(|slope| [-1, 0, 1].map(|side| (slope, side))) {
                let [lat, lon] = [dlat, dlon].map(|spacing| {
                    let step = 100 * spacing / 16;
                    slope.map(|times| side * (SHIFT_LIMIT - step) + times * step)
                });
                let lat = lat.into_iter().flat_map(|shift| [shift; 3]).collect();
                let lon = [lon.map(|shift| -shift); 3].concat();
                over_places(bench, &Plain { header: vec![-500, west, dlat, dlon, 3, 3], lat, lon });
            }
        }
    }
}

/// Nine nodes, no two of them alike. In the first list no cell is twisted; in the second each is, by at most 12.
const UNLIKE: [[i64; 9]; 2] = [[0, 1, 2, 3, 4, 5, 6, 7, 8], [4, 0, 7, 1, 8, 3, 6, 2, 5]];

/// Cells with four unlike corners, some of them twisted nearly as far as they may be, with shifts around zero and up to either
/// limit. The longitude shifts are the latitude shifts from the last node to the first.
pub fn unlike_corners(bench: &mut Bench) {
    for [dlat, dlon] in SPACINGS {
        for west in [-1_000, MERIDIAN - dlon, MERIDIAN - dlon / 2] {
            let header = vec![-500, west, dlat, dlon, 3, 3];
            let steps = [1, grids::twist_limit(&header) / 12];
            for (step, nodes) in steps.into_iter().flat_map(|step| UNLIKE.map(|nodes| (step, nodes))) {
                for least in [-SHIFT_LIMIT, -4 * step, SHIFT_LIMIT - 8 * step] {
                    let lat: Vec<i64> = nodes.iter().map(|times| least + times * step).collect();
                    let lon = lat.iter().rev().copied().collect();
                    over_places(bench, &Plain { header: header.clone(), lat, lon });
                }
            }
        }
    }
}

/// Judges every node of a grid, and the order of every two in one row or column.
fn every_node(bench: &mut Bench, case: &Case) {
    let [_, _, dlat, dlon, rows, cols] = case.memory.header.original()[..] else { unreachable!("a header has six numbers") };
    let along = |spacing: i64, nodes: i64| (0..nodes).map(|node| node * spacing).collect::<Vec<i64>>();
    crossings(bench, case, &along(dlat, rows), &along(dlon, cols));
    bench.coverage.mark("node: every node of a grid");
}

/// The tallest and the widest grids there are, beside the 180th meridian and across it. The shifts rise from one limit to the
/// other, so that the answers at the edges are as far apart as they can be, or fall.
pub fn largest(bench: &mut Bench) {
    for [rows, cols] in [[256, 2], [2, 256]] {
        for west in [CIRCLE27.first, -114_750_000, CIRCLE27.last, MERIDIAN - 114_750_000] {
            for sign in [1, -1] {
                let shift = |node: i64| sign * (5_625_000 * node - SHIFT_LIMIT).min(SHIFT_LIMIT);
                let lat: Vec<i64> = (0..rows * cols).map(|node| shift(node / cols)).collect();
                let lon: Vec<i64> = (0..rows * cols).map(|node| shift(node % cols)).collect();
                let case = Case::of(&[-114_750_000, west, 900_000, 900_000, rows, cols], &lat, &lon);
                bench.check(&case);
                every_node(bench, &case);
            }
        }
    }
}

/// On the grid below, a point on the meridian or the parallel of the southwest corner, and what it would be answered.
const OUT_OF_ORDER: [(Line, [i64; 2], [i64; 2]); 4] = [
    (Line::Meridian, [1, 0], [-100, 0]),
    (Line::Meridian, [1_000, 0], [-100_000, 0]),
    (Line::Parallel, [0, 1], [0, -100]),
    (Line::Parallel, [0, 1_000], [0, -100_000]),
];

/// A grid that breaks steepness alone, and is refused. Without that check these points would change sides with the corner, whose
/// shifts are zero.
pub fn too_steep(bench: &mut Bench) {
    let (header, lat, lon) = ([0, 0, 1_000, 1_000, 2, 2], [0, 0, -200_000, -200_000], [0, -200_000, 0, -200_000]);
    let (case, grid) = (Case::of(&header, &lat, &lon), Grid::unjudged(&header, &lat, &lon));
    let steep_alone = grid.broken_rule().is_none() && lat.into_iter().chain(lon).all(in_range) && grid.twisted_node().is_none();
    bench.check(&case);
    for (line, point, answer) in OUT_OF_ORDER {
        let got = [[0, 0], point].map(|point| bench.one(Call::To83, &case, point, Some(4)));
        if got != [refuse(4, 0); 2] || !steep_alone {
            fail(Call::To83, &case.account(), "refusal 4 at node 0, for steepness alone", &format!("{got:?}"));
        }
        let unjudged = [[0, 0], point].map(|point| grid.to83(point));
        if unjudged != [Ok([0, 0]), Ok(answer)] || keeps_order(line, [0, 0], answer) {
            let input = format!("the model itself, points [0, 0] and {point:?}, {}", case.account());
            fail(Call::To83, &input, &format!("{answer:?}, out of order on a {line:?}"), &format!("{unjudged:?}"));
        }
        bench.mark_out_of_order(line);
    }
}

/// A random grid: every node, and points at the crossings of two parallels with two meridians, far from each other or near.
pub fn anywhere(bench: &mut Bench, random: &mut Random, shape: [i64; 2], count: usize) {
    let plain = grids::passing(random, shape);
    let case = Case::of(&plain.header, &plain.lat, &plain.lon);
    let Ok(grid) = case.grid() else { unreachable!("the grid passes") };
    every_node(bench, &case);
    for _ in 0..count {
        let one = place(random, &grid, &plain.header);
        let other = if random.once_in(2) { place(random, &grid, &plain.header) } else { place_near(random, &grid, one) };
        let [north, east] = [0, 1].map(|axis| rising(one[axis], other[axis]));
        crossings(bench, &case, &north, &east);
    }
}

/// The distances of a random point of the grid from the south and the west edge.
fn place(random: &mut Random, grid: &Grid, header: &[i64]) -> [i64; 2] {
    loop {
        let point = points::point(random, header);
        if grid.to83(point).is_ok() {
            return distances(grid, point).map(|distance| distance as i64);
        }
    }
}

/// A place of the grid near another, often its neighbour.
fn place_near(random: &mut Random, grid: &Grid, [north, east]: [i64; 2]) -> [i64; 2] {
    let [height, width] = [grid.north() - grid.south, grid.width()].map(|extent| extent as i64);
    [random.near(north).clamp(0, height), random.near(east).clamp(0, width)]
}

/// Two distances in rising order, or one where they are the same.
fn rising(one: i64, other: i64) -> Vec<i64> {
    let mut both = vec![one.min(other), one.max(other)];
    both.dedup();
    both
}
