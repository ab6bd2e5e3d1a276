//! The order of the cases in a run.

use crate::compare::Bench;
use crate::random::Random;
use crate::{broken, exhaustive, grids, lists, memory, meridian, order, paper, pieces, points, signs, texts, ties};
use std::time::{Duration, Instant};

/// The seed of the short run, and of a long one that is given no other.
pub const SEED: u64 = 1_875;

/// The fixed cases and random ones of a fixed seed.
pub fn short() -> Bench {
    let mut bench = Bench::new();
    let mut random = Random::new(SEED);
    fixed(&mut bench, &mut random);
    pass(&mut bench, &mut random);
    bench
}

/// The same, and then more random cases until the time is up.
pub fn long(seed: u64, time: Duration) -> Bench {
    println!("differential: seed {seed}");
    let start = Instant::now();
    let mut bench = Bench::new();
    let mut random = Random::new(seed);
    fixed(&mut bench, &mut random);
    pass(&mut bench, &mut random);
    while start.elapsed() < time {
        pass(&mut bench, &mut random);
    }
    bench
}

/// Cases that do not depend on the seed, or hardly.
fn fixed(bench: &mut Bench, random: &mut Random) {
    paper::points(bench);
    paper::list(bench);
    paper::too_steep(bench);
    ties::compare(bench);
    signs::compare(bench);
    meridian::by_hand(bench);
    meridian::compare(bench);
    meridian::example(bench);
    order::by_hand();
    order::steepest(bench);
    order::unlike_corners(bench);
    order::largest(bench);
    order::too_steep(bench);
    broken::header_edges(bench, random);
    broken::each_node(bench, random);
    broken::range_before_steepness(bench, random);
    broken::steepness_before_twist(bench, random);
    lists::totals(bench);
    pieces::spoilt_behind_a_piece(bench);
    for plain in [grids::paper_p(), grids::paper_q()] {
        texts::cuts(bench, &plain);
        texts::each_byte(bench, &plain);
        texts::each_number(bench, &plain);
        texts::endings(bench, &plain);
        lists::each_line(bench, &plain);
        memory::answer_slices(bench, &plain);
        memory::batch_slices(bench, &plain);
        memory::text_slices(bench, &plain);
        memory::reader_slices(bench, &plain);
        pieces::slices(bench, &plain);
        pieces::damaged(bench, random, &plain, 500);
        memory::grid_slices(bench, random, &plain);
    }
}

/// One round of random cases, small grids and large ones.
fn pass(bench: &mut Bench, random: &mut Random) {
    for shape in [[2, 2], [2, 2], [2, 3], [3, 2]] {
        let plain = exhaustive::tiny_grid(random, shape);
        exhaustive::compare(bench, random, &plain);
    }
    for shape in [[2, 2], [2, 3]] {
        let plain = exhaustive::tiny_grid_across(random, shape);
        exhaustive::compare(bench, random, &plain);
    }
    meridian::moved(bench, random, 1_000);
    for _ in 0..5_000 {
        let shape = grids::small_shape(random);
        over_grid(bench, random, shape, 40);
    }
    for _ in 0..150 {
        let shape = grids::large_shape(random);
        over_grid(bench, random, shape, 100);
    }
    broken::odd_headers(bench, random, 10_000);
    broken::disturbed(bench, random, 20_000);
    broken::disturbed_and_short(bench, random, 10_000);
    texts::damaged(bench, random, 40_000);
    texts::noise(bench, random, 10_000);
    let shape = grids::small_shape(random);
    let plain = grids::passing(random, shape);
    memory::grid_slices(bench, random, &plain);
    memory::reader_slices(bench, &plain);
    for _ in 0..5_000 {
        let shape = grids::small_shape(random);
        order::anywhere(bench, random, shape, 20);
    }
    for _ in 0..20 {
        let shape = grids::large_shape(random);
        order::anywhere(bench, random, shape, 100);
    }
}

fn over_grid(bench: &mut Bench, random: &mut Random, shape: [i64; 2], count: usize) {
    let plain = grids::passing(random, shape);
    points::compare(bench, random, &plain, count);
    texts::there_and_back(bench, &plain);
    lists::compare(bench, random, &plain, count / 4);
}
