//! Tiny grids of which every point is converted. The answers form a map, which is the definition of the way back itself: a figure
//! is answered exactly when it is in the map, and then with the point it stands for.

use crate::circle::{CIRCLE27, CIRCLE83};
use crate::compare::{fail, Bench, Case};
use crate::coverage::Call;
use crate::grids::{self, Plain, MERIDIAN};
use crate::model::{refuse, Answer, Reply, TO27, TO83};
use crate::points::counted_and_named;
use crate::random::Random;

/// Figures and their points, in the order of the figures.
type Map = Vec<([i64; 2], [i64; 2])>;

/// A grid with the least spacings.
pub fn tiny_grid(random: &mut Random, shape: [i64; 2]) -> Plain {
    let header = grids::spaced_header(random, shape, [1_000, 1_000]);
    grids::with_header(random, header)
}

/// A tiny grid across the 180th meridian, with longitude shifts so small that its answers lie on both sides as well.
pub fn tiny_grid_across(random: &mut Random, shape: [i64; 2]) -> Plain {
    let mut header = grids::spaced_header(random, shape, [1_000, 1_000]);
    header[1] = MERIDIAN - random.between(400, 600);
    let mut plain = grids::with_header(random, header);
    let change = random.between(-30_000, 30_000) - plain.lon[0];
    plain.lon.iter_mut().for_each(|shift| *shift += change);
    plain
}

/// Converts every point of the grid and takes figures of all kinds back.
pub fn compare(bench: &mut Bench, random: &mut Random, plain: &Plain) {
    let case = Case::of(&plain.header, &plain.lat, &plain.lon);
    bench.check(&case);
    let map = map_all(bench, &case, plain);
    for _ in 0..12 {
        let [lat, lon] = spot(random, plain, &map);
        let around = (lat - 105..=lat + 105).flat_map(|a| (lon - 105..=lon + 105).map(move |b| [a, b]));
        let figures: Vec<i64> = around.flat_map(counted_and_named).flatten().collect();
        take_back(bench, &case, &map, &figures);
    }
    along_edges(bench, &case, plain, &map);
    model_too(random, &case, &map);
    bench.coverage.mark("grid: every tiny point mapped");
}

/// Compares every point of the grid row by row. Two points never share a figure; were it so, the way back would not be defined. A
/// figure is its two coordinates: the signs of the answers are compared and then left out.
fn map_all(bench: &mut Bench, case: &Case, plain: &Plain) -> Map {
    let [south, west, dlat, dlon, rows, cols] = plain.header[..] else { unreachable!("a header has six numbers") };
    let Ok(grid) = case.grid() else { unreachable!("the grid passes") };
    let mut map = Map::new();
    for lat in south..=south + (rows - 1) * dlat {
        let points: Vec<[i64; 2]> = (west..=west + (cols - 1) * dlon).map(|lon| [lat, CIRCLE27.name(lon)]).collect();
        let answers: Vec<Reply<Answer>> = points.iter().map(|&point| grid.convert(TO83, point)).collect();
        let rooms = [Some(4 * points.len()), Some(points.len())];
        bench.batch_known(case, Some(&vec![TO83; points.len()]), Some(&points.concat()), rooms, &answers);
        map.extend(answers.iter().flatten().map(|answer| answer.coordinates).zip(points));
    }
    map.sort_unstable();
    if let Some(pair) = map.windows(2).find(|pair| pair[0].0 == pair[1].0) {
        fail(Call::To27, &format!("{:?}", plain.header), "one point for each figure", &format!("{pair:?}"));
    }
    map
}

/// A figure in the midst of the answers, or one at their border, or one at the 180th meridian where they lie across it.
fn spot(random: &mut Random, plain: &Plain, map: &Map) -> [i64; 2] {
    // Counted from the other side of the circle, where no answer lies.
    let far_side = 100 * i128::from(plain.header[1] - MERIDIAN);
    let eastward = |figure: [i64; 2]| CIRCLE83.eastward(far_side, figure[1].into());
    match random.below(7) {
        0 => map[0].0,
        1 => map[map.len() - 1].0,
        2 => map.iter().min_by_key(|(figure, _)| eastward(*figure)).unwrap().0,
        3 => map.iter().max_by_key(|(figure, _)| eastward(*figure)).unwrap().0,
        4 => map.iter().min_by_key(|(figure, _)| figure[1]).unwrap().0,
        5 => map.iter().max_by_key(|(figure, _)| figure[1]).unwrap().0,
        _ => map[random.below(map.len())].0,
    }
}

fn looked_up(map: &Map, figure: [i64; 2]) -> Reply<[i64; 2]> {
    map.binary_search_by_key(&figure, |entry| entry.0).map_or(refuse(7, 0), |place| Ok(map[place].1))
}

fn take_back(bench: &mut Bench, case: &Case, map: &Map, figures: &[i64]) {
    let known: Vec<_> = figures.chunks_exact(2).map(|pair| looked_up(map, [pair[0], pair[1]]).map(Answer::back)).collect();
    let rooms = [Some(4 * known.len()), Some(known.len())];
    bench.batch_known(case, Some(&vec![TO27; known.len()]), Some(figures), rooms, &known);
}

/// Along all four edges, the answer of every point, the figures next to it, and the numbers a turn off, which are no figures.
fn along_edges(bench: &mut Bench, case: &Case, plain: &Plain, map: &Map) {
    let [south, west, dlat, dlon, rows, cols] = plain.header[..] else { unreachable!("a header has six numbers") };
    let (north, east) = (south + (rows - 1) * dlat, west + (cols - 1) * dlon);
    let rows = (south..=north).flat_map(|lat| [[lat, west], [lat, east]]);
    let cols = (west..=east).flat_map(|lon| [[south, lon], [north, lon]]);
    let Ok(grid) = case.grid() else { unreachable!("the grid passes") };
    let answers = rows.chain(cols).filter_map(|[lat, lon]| grid.to83([lat, CIRCLE27.name(lon)]).ok());
    let turn = CIRCLE83.turn();
    let steps = [[0, 0], [-1, 0], [1, 0], [0, -1], [0, 1], [-100, 0], [100, 0], [0, -100], [0, 100], [0, -turn], [0, turn]];
    let around = |[lat, lon]: [i64; 2]| steps.map(|[a, b]| [lat + a, lon + b]);
    let figures: Vec<i64> = answers.flat_map(around).flat_map(counted_and_named).flatten().collect();
    take_back(bench, case, map, &figures);
}

/// The model's own way back, which the other cases rely on, is held against the map as well.
fn model_too(random: &mut Random, case: &Case, map: &Map) {
    let Ok(grid) = case.grid() else { unreachable!("the grid passes") };
    for _ in 0..3_000 {
        for figure in counted_and_named(spot_near(random, map)) {
            let (expected, got) = (looked_up(map, figure), grid.to27(figure));
            if expected != got {
                fail(Call::To27, &format!("the model itself, figure {figure:?}"), &format!("{expected:?}"), &format!("{got:?}"));
            }
        }
    }
}

fn spot_near(random: &mut Random, map: &Map) -> [i64; 2] {
    let figure = map[random.below(map.len())].0;
    if random.once_in(2) {
        figure
    } else {
        figure.map(|part| random.near(part))
    }
}
