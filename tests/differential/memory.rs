//! Slices of every length around the one needed, and NULL with no elements, for every slice of every function.

use crate::compare::{Bench, Case};
use crate::coverage::Call;
use crate::grids::Plain;
use crate::lent::Element;
use crate::model::{TO27, TO83};
use crate::model_text::{list, text_of};
use crate::points::every_call;
use crate::random::Random;

/// NULL, and the lengths around `needed`.
fn lengths(needed: usize) -> Vec<Option<usize>> {
    let mut all = vec![0, 1, needed.saturating_sub(1), needed, needed + 1, needed + 3];
    all.dedup();
    std::iter::once(None).chain(all.into_iter().map(Some)).collect()
}

/// The front of `values`, or `values` with numbers behind them that nobody may look at.
fn resized(values: &[i64], length: Option<usize>) -> Option<Vec<i64>> {
    let at = |k: usize| values.get(k).copied().unwrap_or_else(|| i64::filler(k));
    length.map(|length| (0..length).map(at).collect())
}

/// Header and node slices of every length, in every function that takes a grid.
pub fn grid_slices(bench: &mut Bench, random: &mut Random, plain: &Plain) {
    let text = text_of(&plain.header, &plain.lat, &plain.lon);
    let nodes = plain.nodes();
    let headers = std::iter::once(None).chain((0..=6).chain([7, 9]).map(Some));
    for header_length in headers {
        let header = resized(&plain.header, header_length);
        let behind = &plain.header[header_length.unwrap_or(0).min(6)..];
        for (lat_length, lon_length) in lengths(nodes).into_iter().flat_map(|a| lengths(nodes).into_iter().map(move |b| (a, b))) {
            let (lat, lon) = (resized(&plain.lat, lat_length), resized(&plain.lon, lon_length));
            let case = Case::new(header.as_deref(), behind, lat.as_deref(), lon.as_deref());
            every_call(bench, random, &case, &text);
        }
    }
}

/// Answer slices of every length, for points on and off the grid and for figures that are answers and are not. To NAD 83 four
/// numbers are written; on the way back two, and places for two more stay as they were.
pub fn answer_slices(bench: &mut Bench, plain: &Plain) {
    let case = Case::of(&plain.header, &plain.lat, &plain.lon);
    let on = [plain.header[0], plain.header[1]];
    let off = [plain.header[0] - 1, plain.header[1]];
    let figure = case.grid().and_then(|grid| grid.to83(on)).unwrap_or([0, 0]);
    for length in std::iter::once(None).chain((0..8).map(Some)) {
        for (call, point) in [(Call::To83, on), (Call::To83, off), (Call::To27, figure), (Call::To27, off)] {
            let _ = bench.one(call, &case, point, length);
        }
    }
}

/// Slices of every length for a batch, whose ways alone say how many requests there are.
pub fn batch_slices(bench: &mut Bench, plain: &Plain) {
    let case = Case::of(&plain.header, &plain.lat, &plain.lon);
    let on = [plain.header[0], plain.header[1]];
    let off = [plain.header[0] - 1, i64::MAX];
    let figure = case.grid().and_then(|grid| grid.to83(on)).unwrap_or([0, 0]);
    let ways = [TO83, TO27, 0, TO27, 3, TO83, 255];
    let numbers = [on, figure, on, off, figure, off, on].concat();
    for count in (0..=ways.len()).map(Some).chain([None]) {
        let needed = count.unwrap_or(0);
        for (points, answers) in
            lengths(2 * needed).into_iter().flat_map(|a| lengths(4 * needed).into_iter().map(move |b| (a, b)))
        {
            let points = resized(&numbers, points);
            for refusals in lengths(needed) {
                bench.batch(&case, count.map(|count| &ways[..count]), points.as_deref(), [answers, refusals]);
            }
        }
    }
}

/// Rooms of every length for texts and lists, and texts and request lines lent as NULL.
pub fn text_slices(bench: &mut Bench, plain: &Plain) {
    let case = Case::of(&plain.header, &plain.lat, &plain.lon);
    let text = text_of(&plain.header, &plain.lat, &plain.lon);
    for room in std::iter::once(None).chain((0..text.len() + 4).map(Some)) {
        bench.write(&case, &text, room);
    }
    let requests = b"to83=0,0\nto27=0,0\n\nto83=1,";
    let needed = case.grid().map_or(0, |grid| list(&grid, requests).0.len());
    for room in std::iter::once(None).chain((0..needed + 4).map(Some)) {
        bench.list(&case, Some(requests), b"1\n", |_| room);
        bench.list(&case, None, b"", |_| room);
        bench.list(&case, Some(b""), requests, |_| room);
    }
}

/// Slices of every length for what the reader writes, with texts that are accepted and texts that are not.
pub fn reader_slices(bench: &mut Bench, plain: &Plain) {
    let text = text_of(&plain.header, &plain.lat, &plain.lon);
    let bad_line = text.replace("end=", "end= ");
    let bad_rule = text.replace("dlat=", "dlat=-");
    let bad_node = text.replacen("node=", "node=7000000", 1);
    let nodes = plain.nodes();
    for header in std::iter::once(None).chain((0..9).map(Some)) {
        for (lat, lon) in lengths(nodes).into_iter().flat_map(|a| lengths(nodes).into_iter().map(move |b| (a, b))) {
            for text in [&text, &bad_line, &bad_rule, &bad_node] {
                bench.read(Some(text.as_bytes()), b"\n", [header, lat, lon]);
            }
            bench.read(None, b"", [header, lat, lon]);
        }
    }
}
