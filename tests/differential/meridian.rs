//! Grids at the 180th meridian: across it, with an edge on it, and beside it, where only the shift carries an answer across.

use crate::circle::{Circle, CIRCLE27, CIRCLE83};
use crate::compare::{fail, Bench, Case};
use crate::coverage::Call;
use crate::grids::{self, Plain, MERIDIAN, SHIFT_LIMIT};
use crate::model::{refuse, Answer, Reply, TO27, TO83};
use crate::model_text;
use crate::points;
use crate::random::Random;

/// On a grid from half an arc second west of the meridian to half an arc second east of it, with every longitude shift 200 or
/// -200: a point and its answer, worked by hand.
const BY_HAND: [(i64, [i64; 2]); 12] = [
    (200, [647_999_500, 64_799_950_200]),
    (200, [647_999_997, 64_799_999_900]),
    (200, [647_999_998, -64_800_000_000]),
    (200, [647_999_999, -64_799_999_900]),
    (200, [-648_000_000, -64_799_999_800]),
    (200, [-647_999_500, -64_799_949_800]),
    (-200, [647_999_500, 64_799_949_800]),
    (-200, [647_999_999, 64_799_999_700]),
    (-200, [-648_000_000, 64_799_999_800]),
    (-200, [-647_999_999, 64_799_999_900]),
    (-200, [-647_999_998, -64_800_000_000]),
    (-200, [-647_999_500, -64_799_950_200]),
];

/// Numbers that are no points of that grid: one off its edges, one past the ends of the range, and a turn off points on it.
const NO_POINTS: [i64; 6] = [647_999_499, -647_999_499, 648_000_000, -648_000_001, 648_000_500, -648_000_500];

/// Numbers that are no answers there: past the ends of the range, and the last one in it, as whole hundreds alone are answers.
const NO_FIGURES: [i64; 6] = [64_800_000_000, 64_800_000_100, 64_800_000_200, -64_800_000_100, -64_800_000_001, 64_799_999_999];

/// Cases with answers that were worked by hand. They hold the model to the paper, not to the library.
pub fn by_hand(bench: &mut Bench) {
    for (shift, [lon, figure]) in BY_HAND {
        let answer = Answer { coordinates: [0, figure], signs: Some([0, 0]) };
        expect(bench, Call::To83, shift, lon, Ok(answer));
        expect(bench, Call::To27, shift, figure, Ok(Answer::back([0, lon])));
        expect(bench, Call::To83, shift, lon - 1_296_000_000, refuse(6, 0));
        expect(bench, Call::To83, shift, lon + 1_296_000_000, refuse(6, 0));
        expect(bench, Call::To27, shift, figure - 129_600_000_000, refuse(7, 0));
        expect(bench, Call::To27, shift, figure + 129_600_000_000, refuse(7, 0));
    }
    for shift in [200, -200] {
        NO_POINTS.into_iter().for_each(|lon| expect(bench, Call::To83, shift, lon, refuse(6, 0)));
        NO_FIGURES.into_iter().for_each(|lon| expect(bench, Call::To27, shift, lon, refuse(7, 0)));
    }
}

fn expect(bench: &mut Bench, call: Call, shift: i64, lon: i64, expected: Reply<Answer>) {
    let case = Case::of(&[0, 647_999_500, 1_000, 1_000, 2, 2], &[0; 4], &[shift; 4]);
    let got = bench.one(call, &case, [0, lon], Some(4));
    if got != expected {
        fail(call, &format!("by hand, shift {shift}, longitude {lon}"), &format!("{expected:?}"), &format!("{got:?}"));
    }
}

/// Longitude shifts at the southwest node. Some carry the ends of the range to the ends of the other, some just past them.
const SHIFTS: [i64; 11] = [0, 1, -1, 99, -99, 100, -100, 6_000, -6_000, SHIFT_LIMIT, -SHIFT_LIMIT];

/// Grids of 2 x 3 nodes with every such shift at the west edge, another eastward of it, and the edges in every place to the
/// meridian.
pub fn compare(bench: &mut Bench) {
    for [dlat, dlon] in [[1_000, 1_000], [900_000, 450_000]] {
        for west in west_edges(dlon) {
            for shift in SHIFTS {
                let row = [0, 3_000, 6_001].map(|less| shift - less * shift.signum());
                let header = vec![-500, west, dlat, dlon, 2, 3];
                around_places(bench, &Plain { header, lat: vec![7; 6], lon: [row, row].concat() });
            }
        }
    }
}

/// West edges of grids of three columns: the meridian in the first cell, on the middle column, in the last cell, on and next to
/// the west and the east edge, and some thousandths beside them.
pub fn west_edges(dlon: i64) -> Vec<i64> {
    let east = [1, dlon / 2, dlon - 1, dlon, dlon + 1, 2 * dlon - 1, 2 * dlon, 2 * dlon + 1, 2 * dlon + 40, 0, -1, -40];
    east.map(|east| CIRCLE27.name(MERIDIAN - east)).to_vec()
}

/// The places next to each of some others, by their names and by the numbers a turn off, and the numbers next to the ends of the
/// range.
fn numbers(circle: &Circle, places: impl IntoIterator<Item = i64>) -> Vec<i64> {
    let ends = [circle.first, circle.last].into_iter().flat_map(|end| [end - 1, end, end + 1]);
    let near = places.into_iter().flat_map(|place| [place - 1, place, place + 1]).map(|counted| circle.name(counted));
    let off = near.flat_map(|name| [name, name - circle.turn(), name + circle.turn()]);
    let mut all: Vec<i64> = off.chain(ends).collect();
    all.sort_unstable();
    all.dedup();
    all
}

/// Points at the edges and the meridian, and figures around their answers: each alone, all in a batch, and all in a list.
fn around_places(bench: &mut Bench, plain: &Plain) {
    let case = Case::of(&plain.header, &plain.lat, &plain.lon);
    bench.check(&case);
    let Ok(grid) = case.grid() else { unreachable!("the grid passes") };
    let [south, west, dlat, dlon, ..] = plain.header[..] else { unreachable!("a header has six numbers") };
    let mut requests: Vec<(u8, [i64; 2])> = Vec::new();
    for lat in [south, south + dlat / 3] {
        let points = numbers(&CIRCLE27, [west, west + dlon, west + 2 * dlon, MERIDIAN]);
        let points: Vec<[i64; 2]> = points.into_iter().map(|lon| [lat, lon]).collect();
        let answers: Vec<[i64; 2]> = points.iter().filter_map(|&point| grid.to83(point).ok()).collect();
        let figures = numbers(&CIRCLE83, answers.iter().map(|answer| answer[1]));
        requests.extend(points.into_iter().map(|point| (TO83, point)));
        requests.extend(figures.into_iter().map(|lon| (TO27, [answers[0][0], lon])));
    }
    let known: Vec<Reply<Answer>> = requests.iter().map(|&(way, pair)| alone(bench, &case, way, pair)).collect();
    let (ways, pairs): (Vec<u8>, Vec<[i64; 2]>) = requests.iter().copied().unzip();
    let rooms = [Some(4 * ways.len()), Some(ways.len())];
    bench.batch_known(&case, Some(&ways), Some(&pairs.concat()), rooms, &known);
    let line = |&(way, [lat, lon]): &(u8, [i64; 2])| format!("{}={lat},{lon}\n", if way == TO83 { "to83" } else { "to27" });
    bench.list(&case, Some(requests.iter().map(line).collect::<String>().as_bytes()), b"", Some);
}

fn alone(bench: &mut Bench, case: &Case, way: u8, pair: [i64; 2]) -> Reply<Answer> {
    let (call, room) = if way == TO83 { (Call::To83, 4) } else { (Call::To27, 2) };
    bench.one(call, case, pair, Some(room))
}

/// A grid moved along the circle with all its points: the answers move with it, and are otherwise the same.
pub fn moved(bench: &mut Bench, random: &mut Random, count: usize) {
    for _ in 0..count {
        let shape = grids::small_shape(random);
        let plain = grids::passing(random, shape);
        let to_meridian = MERIDIAN - plain.header[1] - random.between(0, (plain.cols() - 1) * plain.header[3]);
        let anywhere = random.between(0, CIRCLE27.turn() - 1);
        let by = random.pick(&[to_meridian, anywhere]);
        let mut there = plain.clone();
        there.header[1] = CIRCLE27.name(plain.header[1] + by);
        let cases = [plain, there].map(|grid| Case::of(&grid.header, &grid.lat, &grid.lon));
        for _ in 0..20 {
            let point = points::point(random, cases[0].memory.header.original());
            if CIRCLE27.has(point[1]) {
                moved_point(bench, &cases, point, by);
            }
        }
    }
}

/// One point on both grids, and its answer back.
fn moved_point(bench: &mut Bench, [here, there]: &[Case; 2], point: [i64; 2], by: i64) {
    let move27 = |[lat, lon]: [i64; 2]| [lat, CIRCLE27.name(lon + by)];
    let move83 = |[lat, lon]: [i64; 2]| [lat, CIRCLE83.name(lon + 100 * by)];
    let answer = alone(bench, here, TO83, point);
    let expected = answer.map(|answer| Answer { coordinates: move83(answer.coordinates), ..answer });
    let got = alone(bench, there, TO83, move27(point));
    if got != expected {
        fail(Call::To83, &format!("a point moved by {by}, {}", there.account()), &format!("{expected:?}"), &format!("{got:?}"));
    }
    let Ok(answer) = got else { return };
    let (expected, got) = (Ok(Answer::back(move27(point))), alone(bench, there, TO27, answer.coordinates));
    if got != expected {
        fail(Call::To27, &format!("an answer moved by {by}, {}", there.account()), &format!("{expected:?}"), &format!("{got:?}"));
    }
    bench.coverage.mark("meridian: the same grid and points elsewhere on the circle");
}

const SHEET: &str = include_str!("../../examples/aleutians/sheet.txt");
const REQUESTS: &str = include_str!("../../examples/aleutians/requests.txt");
const REPLIES: &str = include_str!("../../examples/aleutians/expected.txt");

/// The example across the meridian: its list is the one that stands beside it.
pub fn example(bench: &mut Bench) {
    let read = bench.read(Some(SHEET.as_bytes()), b"", [Some(6), Some(2_048), Some(2_048)]);
    let Some(content) = read else { fail(Call::Read, "the example's grid", "an answer", "a refusal") };
    let case = Case::of(&content.header, &content.lat, &content.lon);
    bench.check(&case);
    let made = case.grid().map(|grid| model_text::list(&grid, REQUESTS.as_bytes()).0).unwrap_or_default();
    if made != REPLIES {
        fail(Call::List, "the example's requests", REPLIES, &made);
    }
    bench.list(&case, Some(REQUESTS.as_bytes()), b"", Some);
    bench.coverage.mark("meridian: the example's list");
}
