//! Points and figures over one grid, each converted alone and all of them together.

use crate::circle::{Circle, CIRCLE27, CIRCLE83};
use crate::compare::{Bench, Case};
use crate::coverage::Call;
use crate::grids::{self, Plain};
use crate::model::{refuse, sign, Grid, TO27, TO83};
use crate::pieces;
use crate::random::Random;

/// A coordinate along one axis of a grid: nodes, cell sides and middles, edges, one off, anywhere, absurd.
fn coordinate(random: &mut Random, low: i64, spacing: i64, nodes: i64) -> i64 {
    let high = low + (nodes - 1) * spacing;
    let node = low + random.between(0, nodes - 1) * spacing;
    match random.below(20) {
        0..=3 => random.between(low, high),
        4..=6 => node,
        7 => node + random.pick(&[-1, 1]),
        8..=10 => low + random.between(0, nodes - 2) * spacing + spacing / 2,
        // Tenths and eighths of a cell give ties with small differences of the shifts.
        11 | 12 => low + random.between(0, nodes - 2) * spacing + spacing * random.between(0, 10) / 10,
        13 => low + random.between(0, nodes - 2) * spacing + spacing * random.between(0, 8) / 8,
        14 | 15 => low + random.pick(&[-1, 0, 0, 1]),
        16 | 17 => high + random.pick(&[-1, 0, 0, 1]),
        18 => {
            let edge = random.pick(&[low, high]);
            random.near(edge)
        }
        _ if random.once_in(3) => random.absurd(),
        _ => random.between(low - 200_000, high + 200_000),
    }
}

/// Mostly the name of the place that was counted to. Now and then the number that was counted, or one a turn off, or one at an
/// end of the range. A number far from every place stays as it is.
fn longitude(random: &mut Random, circle: &Circle, counted: i64) -> i64 {
    let far = counted.unsigned_abs() > circle.turn().unsigned_abs();
    let name = if far { counted } else { circle.name(counted) };
    match random.below(24) {
        0 => counted,
        1 => name.saturating_add(circle.turn()),
        2 => name.saturating_sub(circle.turn()),
        3 => {
            let end = random.pick(&[circle.first, circle.last]);
            random.near(end)
        }
        _ => name,
    }
}

pub fn point(random: &mut Random, header: &[i64]) -> [i64; 2] {
    let lat = coordinate(random, header[0], header[2], header[4]);
    let lon = coordinate(random, header[1], header[3], header[5]);
    [lat, longitude(random, &CIRCLE27, lon)]
}

pub fn figure(random: &mut Random, grid: &Grid, header: &[i64]) -> [i64; 2] {
    let [lat, lon] = counted_figure(random, grid, header);
    [lat, longitude(random, &CIRCLE83, lon)]
}

/// A figure: the answer of a point, one close to it, one near the edges, one far off, one absurd. Near an end of the range it may
/// be past it.
fn counted_figure(random: &mut Random, grid: &Grid, header: &[i64]) -> [i64; 2] {
    let point = point(random, header);
    let figure = grid.to83(point).unwrap_or(point.map(|part| part.saturating_mul(100)));
    match random.below(12) {
        0..=3 => figure,
        4 => [figure[0].saturating_add(random.pick(&[-1, 1])), figure[1]],
        5 => [figure[0], figure[1].saturating_add(random.pick(&[-1, 1]))],
        6 => figure.map(|part| random.near(part)),
        7 => figure.map(|part| part.saturating_add(random.pick(&[-100, -50, -2, 0, 2, 50, 100]))),
        8 => figure.map(|part| part.saturating_add(random.between(-6_000_002, 6_000_002))),
        9 => [random.absurd(), figure[1]],
        10 => [figure[0], random.absurd()],
        _ => [random.absurd(), random.absurd()],
    }
}

/// Ways that do not exist.
const NO_WAYS: [u8; 4] = [0, 3, 255, 83];

/// Compares `count` points and as many figures over one grid, each alone and then all in one batch, among them ways that do not exist.
pub fn compare(bench: &mut Bench, random: &mut Random, plain: &Plain, count: usize) {
    let case = Case::of(&plain.header, &plain.lat, &plain.lon);
    bench.check(&case);
    let Ok(grid) = case.grid() else { return };
    bench.coverage.mark_if(grid.nodes() == 2_048, "grid: 2,048 nodes");
    let (mut ways, mut numbers, mut known) = (Vec::new(), Vec::new(), Vec::new());
    for _ in 0..count {
        let point = point(random, &plain.header);
        let found = bench.one(Call::To83, &case, point, Some(4));
        mark_point(bench, &grid, point);
        let figure = figure(random, &grid, &plain.header);
        let answer = bench.one(Call::To27, &case, figure, Some(2));
        bench.coverage.mark_if(figure.iter().any(|part| part.unsigned_abs() > 1 << 40), "figure: absurd");
        mark_back(bench, &grid, answer.ok().map(|answer| answer.coordinates));
        let mut requests = vec![(TO83, point, found), (TO27, figure, answer)];
        if random.once_in(4) {
            requests.push((random.pick(&NO_WAYS), point, refuse(1, 0)));
        }
        requests.rotate_left(random.below(2));
        for (way, pair, outcome) in requests {
            ways.push(way);
            numbers.extend(pair);
            known.push(outcome);
        }
    }
    bench.batch_known(&case, Some(&ways), Some(&numbers), [Some(4 * ways.len()), Some(ways.len())], &known);
    around_answers(bench, random, &case, &numbers);
}

/// Takes back the answers of some points, and their eight neighbours one off, which are no answers. A neighbour past an end of
/// the range is taken as it is counted and by its name.
fn around_answers(bench: &mut Bench, random: &mut Random, case: &Case, points: &[i64]) {
    let Ok(grid) = case.grid() else { return };
    let chosen = 2 * random.below(points.len() / 2);
    let Ok([lat, lon]) = grid.to83([points[chosen], points[chosen + 1]]) else { return };
    let steps = [-1, 0, 1];
    let around = steps.iter().flat_map(|a| steps.map(|b| [lat + a, lon + b]));
    let figures: Vec<i64> = around.flat_map(counted_and_named).flatten().collect();
    let count = figures.len() / 2;
    bench.batch(case, Some(&vec![TO27; count]), Some(&figures), [Some(4 * count + 2), Some(count + 1)]);
    bench.coverage.mark("figure: one off an answer");
}

/// A figure as it is counted and, where its longitude is outside the range, the same place by its name.
pub fn counted_and_named([lat, lon]: [i64; 2]) -> impl Iterator<Item = [i64; 2]> {
    let outside = !CIRCLE83.has(lon);
    std::iter::once([lat, lon]).chain(outside.then_some([lat, CIRCLE83.name(lon)]))
}

/// Notes where a point lies, whether its shifts are ties, and how they are rounded.
pub fn mark_point(bench: &mut Bench, grid: &Grid, point: [i64; 2]) {
    let [lat, lon] = point.map(i128::from);
    let inside = (grid.holds_lat(lat), grid.holds_lon(lon));
    mark_off(bench, grid, point, inside);
    if inside == (true, true) {
        let x = grid.distance(lon);
        mark_place(bench, grid, lat, x);
        mark_tie(bench, LAT_TIES, grid.lat_fraction(lat, x));
        mark_tie(bench, LON_TIES, grid.lon_fraction(lat, x));
        mark_sign(bench, LAT_SIGNS, grid.lat_fraction(lat, x));
        mark_sign(bench, LON_SIGNS, grid.lon_fraction(lat, x));
    }
}

/// Notes a point off the grid. `inside` says whether its latitude and its longitude are on it.
fn mark_off(bench: &mut Bench, grid: &Grid, point: [i64; 2], inside: (bool, bool)) {
    let [lat, lon] = point.map(i128::from);
    let (turn, place) = (i128::from(CIRCLE27.turn()), CIRCLE27.has(lon));
    let marks = &mut bench.coverage;
    marks.mark_if(lat.abs() > 1 << 40 || lon.abs() > 1 << 40, "point: absurd");
    marks.mark_if(lat == grid.south - 1 && inside.1, "point: one off the south edge");
    marks.mark_if(lat == grid.north() + 1 && inside.1, "point: one off the north edge");
    marks.mark_if(place && grid.distance(lon) == turn - 1 && inside.0, "point: one off the west edge");
    marks.mark_if(place && grid.distance(lon) == grid.width() + 1 && inside.0, "point: one off the east edge");
}

/// Notes where on the grid a point lies that is `x` east of the west edge.
fn mark_place(bench: &mut Bench, grid: &Grid, lat: i128, x: i128) {
    let (north, east) = (grid.north(), grid.width());
    let on_edge = (lat == grid.south || lat == north, x == 0 || x == east);
    let on_side = ((lat - grid.south) % grid.dlat == 0 && !on_edge.0, x % grid.dlon == 0 && !on_edge.1);
    let marks = &mut bench.coverage;
    marks.mark_if(lat == grid.south, "point: south edge");
    marks.mark_if(lat == north, "point: north edge");
    marks.mark_if(x == 0, "point: west edge");
    marks.mark_if(x == east, "point: east edge");
    marks.mark_if(on_edge == (true, true), "point: corner");
    marks.mark_if(on_side.0, "point: side shared by a south and a north cell");
    marks.mark_if(on_side.1, "point: side shared by a west and an east cell");
    marks.mark_if(on_side == (true, true), "point: inner node");
    let at_node = (on_edge.0 || on_side.0) && (on_edge.1 || on_side.1);
    marks.mark_if(!at_node && is_exact(grid.lat_fraction(lat, x)), "point: exact latitude shift between nodes");
    marks.mark_if(!at_node && is_exact(grid.lon_fraction(lat, x)), "point: exact longitude shift between nodes");
}

fn is_exact((numerator, denominator): (i128, i128)) -> bool {
    numerator % denominator == 0
}

/// The ties of one component, by the shift's sign, and by whether the even number lies toward zero or away from it.
type Ties = [[&'static str; 2]; 2];

const LAT_TIES: Ties = [
    ["point: tie toward zero, positive latitude shift", "point: tie away from zero, positive latitude shift"],
    ["point: tie toward zero, negative latitude shift", "point: tie away from zero, negative latitude shift"],
];

const LON_TIES: Ties = [
    ["point: tie toward zero, positive longitude shift", "point: tie away from zero, positive longitude shift"],
    ["point: tie toward zero, negative longitude shift", "point: tie away from zero, negative longitude shift"],
];

/// Whether a shift lies halfway between two whole numbers.
pub fn is_tie((numerator, denominator): (i128, i128)) -> bool {
    2 * (numerator % denominator).abs() == denominator
}

fn mark_tie(bench: &mut Bench, names: Ties, (numerator, denominator): (i128, i128)) {
    if is_tie((numerator, denominator)) {
        let away = numerator / denominator % 2 != 0;
        bench.coverage.mark(names[usize::from(numerator < 0)][usize::from(away)]);
        bench.coverage.mark_if(denominator == 1_000_000, "point: tie in a cell of 1,000 by 1,000");
        bench.coverage.mark_if(denominator != 1_000_000, "point: tie in another cell");
        bench.coverage.mark_if(sign((numerator, denominator)) == -1, "point: tie with sign -1");
        bench.coverage.mark_if(sign((numerator, denominator)) == 1, "point: tie with sign 1");
    }
}

/// The signs -1, 0 and 1 of one component, each of positive and of negative shifts.
type Signs = [[&'static str; 2]; 3];

const LAT_SIGNS: Signs = [
    ["point: sign -1, positive latitude shift", "point: sign -1, negative latitude shift"],
    ["point: sign 0, positive latitude shift", "point: sign 0, negative latitude shift"],
    ["point: sign 1, positive latitude shift", "point: sign 1, negative latitude shift"],
];

const LON_SIGNS: Signs = [
    ["point: sign -1, positive longitude shift", "point: sign -1, negative longitude shift"],
    ["point: sign 0, positive longitude shift", "point: sign 0, negative longitude shift"],
    ["point: sign 1, positive longitude shift", "point: sign 1, negative longitude shift"],
];

fn mark_sign(bench: &mut Bench, names: Signs, fraction: (i128, i128)) {
    let (numerator, denominator) = fraction;
    if numerator != 0 {
        bench.coverage.mark(names[(sign(fraction) + 1) as usize][usize::from(numerator < 0)]);
    }
    // No shift is closer to a whole number and yet not exact.
    let (largest, above) = (denominator == 900_000 * 900_000, numerator.rem_euclid(denominator));
    bench.coverage.mark_if(largest && above == 1, "point: one part above a whole number, in the largest cell");
    bench.coverage.mark_if(largest && above == denominator - 1, "point: one part below a whole number, in the largest cell");
}

fn mark_back(bench: &mut Bench, grid: &Grid, point: Option<[i64; 2]>) {
    let Some([lat, lon]) = point.map(|point| point.map(i128::from)) else { return };
    let lat_edge = lat == grid.south || lat == grid.north();
    let x = grid.distance(lon);
    let lon_edge = x == 0 || x == grid.width();
    bench.coverage.mark_if(lat_edge || lon_edge, "figure: back to an edge");
    bench.coverage.mark_if(lat_edge && lon_edge, "figure: back to a corner");
}

/// One call of each function that takes a grid, for grids that may be refused. The slices for the answers are often too short as
/// well, so that the order of the refusals shows.
pub fn every_call(bench: &mut Bench, random: &mut Random, case: &Case, text: &str) {
    let header = grids::paper_q().header;
    let point = if random.once_in(4) { [random.absurd(), random.absurd()] } else { point(random, &header) };
    let mut room = |needed: usize| random.pick(&[Some(needed), Some(needed), Some(needed + 3), Some(needed - 1), Some(0), None]);
    bench.check(case);
    bench.write(case, text, room(text.len()));
    let _ = bench.one(Call::To83, case, point, room(4));
    let _ = bench.one(Call::To27, case, point, room(2));
    bench.batch(case, Some(&[TO83, TO27, 0]), Some(&[point, point, point].concat()), [room(12), room(3)]);
    bench.batch(case, None, Some(&point), [room(2), room(1)]);
    let choice = random.below(5);
    let list_room = |needed| [Some(needed), Some(needed + 2), Some(needed - 1), Some(0), None][choice];
    bench.list(case, Some(b"to83=0,0\nto27=0,0\n"), b"\n", list_room);
    bench.list(case, Some(b""), b"to83=0,0\n", list_room);
    pieces::every_call(bench, random, case);
}
