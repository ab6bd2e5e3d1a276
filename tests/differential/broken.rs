//! Grids at and beyond the limits of each check, given to every function.

use crate::compare::{Bench, Case};
use crate::grids::{self, Plain, SHIFT_LIMIT};
use crate::model_text::text_of;
use crate::points::every_call;
use crate::random::Random;

/// Gives a grid to every function, and its text to the reader.
fn everywhere(bench: &mut Bench, random: &mut Random, plain: &Plain) {
    let case = Case::of(&plain.header, &plain.lat, &plain.lon);
    let nodes = plain.nodes_within(plain.lat.len());
    let text = text_of(&plain.header, &plain.lat[..nodes], &plain.lon[..nodes]);
    every_call(bench, random, &case, &text);
    bench.read(Some(text.as_bytes()), b"\n", [Some(6), Some(nodes + 1), Some(nodes)]);
}

/// Every header rule at its edges, with nodes enough for every shape.
pub fn header_edges(bench: &mut Bench, random: &mut Random) {
    for header in grids::edge_headers() {
        everywhere(bench, random, &flat(header, 2_112));
    }
}

pub fn odd_headers(bench: &mut Bench, random: &mut Random, count: usize) {
    for _ in 0..count {
        let header = grids::odd_header(random);
        let nodes = random.pick(&[81, 81, 4, 1, 2_100]);
        everywhere(bench, random, &flat(header, nodes));
    }
}

fn flat(header: Vec<i64>, nodes: usize) -> Plain {
    Plain { header, lat: vec![250; nodes], lon: vec![-250; nodes] }
}

/// Grids with some nodes disturbed, so that they are out of range, too steep, twisted too far, or just pass.
pub fn disturbed(bench: &mut Bench, random: &mut Random, count: usize) {
    for _ in 0..count {
        let shape = grids::mostly_small_shape(random);
        let mut plain = grids::passing(random, shape);
        grids::disturb(random, &mut plain);
        everywhere(bench, random, &plain);
    }
}

/// Disturbed grids with slices that are too short, so that several refusals apply at once and their order shows.
pub fn disturbed_and_short(bench: &mut Bench, random: &mut Random, count: usize) {
    for _ in 0..count {
        let shape = grids::small_shape(random);
        let mut plain = grids::passing(random, shape);
        let text = text_of(&plain.header, &plain.lat, &plain.lon);
        grids::disturb(random, &mut plain);
        if random.once_in(4) {
            plain.header = grids::odd_header(random);
        }
        let header = if random.once_in(4) { random.below(7) } else { 6 };
        plain.lat.truncate(plain.lat.len() - random.below(3));
        plain.lon.truncate(plain.lon.len() - random.below(3));
        let case = Case::new(Some(&plain.header[..header]), &plain.header[header..], Some(&plain.lat), Some(&plain.lon));
        if case.verdict.is_err() {
            every_call(bench, random, &case, &text);
        }
    }
}

/// On 3 x 3 grids of two kinds: each node, component and direction at the steepest, the farthest twisted and one beyond it, and
/// each node at the end of its range and one beyond it.
pub fn each_node(bench: &mut Bench, random: &mut Random) {
    for [dlat, dlon] in [[1_600, 3_201], [3_201, 1_601]] {
        each_node_of(bench, random, vec![0, 0, dlat, dlon, 3, 3]);
    }
}

fn each_node_of(bench: &mut Bench, random: &mut Random, header: Vec<i64>) {
    let limits = [100 * header[2] / 16, 100 * header[3] / 16, grids::twist_limit(&header)];
    for node in 0..9 {
        for size in limits.into_iter().flat_map(|limit| [limit, limit + 1]) {
            one_node(bench, random, &header, 0, node, size);
            one_node(bench, random, &header, 0, node, -size);
        }
        for base in [SHIFT_LIMIT, -SHIFT_LIMIT] {
            one_node(bench, random, &header, base, node, 1);
            one_node(bench, random, &header, base, node, -1);
        }
    }
}

/// A constant grid but for one node, first in latitude and then in longitude.
fn one_node(bench: &mut Bench, random: &mut Random, header: &[i64], base: i64, node: usize, difference: i64) {
    let mut lat = Plain { header: header.to_vec(), lat: vec![base; 9], lon: vec![-7; 9] };
    lat.lat[node] += difference;
    let lon = Plain { header: header.to_vec(), lat: vec![7; 9], lon: lat.lat.clone() };
    everywhere(bench, random, &lat);
    everywhere(bench, random, &lon);
}

/// A node out of range with another too steep, in every order of the two: the range is judged first.
pub fn range_before_steepness(bench: &mut Bench, random: &mut Random) {
    for (far, steep) in (0..9).flat_map(|far| (0..9).map(move |steep| (far, steep))) {
        let mut plain = Plain { header: vec![0, 0, 1_000, 1_000, 3, 3], lat: vec![0; 9], lon: vec![0; 9] };
        plain.lat[steep] = 6_251;
        plain.lon[far] = SHIFT_LIMIT + 1;
        everywhere(bench, random, &plain);
    }
}

/// A node too steep with a cell twisted too far, in every order of the two: steepness is judged first, of all nodes.
pub fn steepness_before_twist(bench: &mut Bench, random: &mut Random) {
    for (steep, twisted) in (0..9).flat_map(|steep| (0..9).map(move |twisted| (steep, twisted))) {
        let mut plain = Plain { header: vec![0, 0, 1_000, 1_000, 3, 3], lat: vec![0; 9], lon: vec![0; 9] };
        plain.lat[steep] = 6_251;
        plain.lon[twisted] = 1_563;
        everywhere(bench, random, &plain);
    }
}
