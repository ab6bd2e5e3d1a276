//! Grids: those that pass, and those broken on purpose.

use crate::circle::CIRCLE27;
use crate::random::Random;

pub const SHIFT_LIMIT: i64 = 6_000_000;
pub const LAT_LIMIT: i64 = 323_940_000;
/// The 180th meridian, counted on from the longitudes west of it. Its name is the first of the circle.
pub const MERIDIAN: i64 = 648_000_000;
/// The farthest that a shift carries a longitude, in thousandths.
const REACH: i64 = SHIFT_LIMIT / 100;

/// A grid owned by the test, as it will be lent.
#[derive(Clone)]
pub struct Plain {
    pub header: Vec<i64>,
    pub lat: Vec<i64>,
    pub lon: Vec<i64>,
}

impl Plain {
    pub fn rows(&self) -> i64 {
        self.header[4]
    }

    pub fn cols(&self) -> i64 {
        self.header[5]
    }

    pub fn nodes(&self) -> usize {
        (self.rows() * self.cols()) as usize
    }

    /// The number of nodes that the header asks for, or `most` where the header is odd or asks for more.
    pub fn nodes_within(&self, most: usize) -> usize {
        let asked = i128::from(self.rows()) * i128::from(self.cols());
        usize::try_from(asked).unwrap_or(most).min(most)
    }
}

/// How the shifts of one component are chosen from what the neighbours allow.
#[derive(Clone, Copy)]
enum Style {
    Constant,
    Small(i64),
    Random,
    Steepest,
    Rising,
}

const SHAPES: [[i64; 2]; 12] = [[2, 2], [2, 3], [3, 2], [3, 3], [4, 7], [2, 9], [9, 2], [5, 5], [2, 2], [3, 4], [2, 2], [3, 3]];
const LARGE_SHAPES: [[i64; 2]; 6] = [[32, 64], [64, 32], [256, 8], [8, 256], [256, 2], [2, 256]];

pub fn small_shape(random: &mut Random) -> [i64; 2] {
    random.pick(&SHAPES)
}

pub fn large_shape(random: &mut Random) -> [i64; 2] {
    random.pick(&LARGE_SHAPES)
}

/// A large shape now and then, for places above 255.
pub fn mostly_small_shape(random: &mut Random) -> [i64; 2] {
    if random.once_in(100) {
        large_shape(random)
    } else {
        small_shape(random)
    }
}

fn spacing(random: &mut Random) -> i64 {
    match random.below(4) {
        0 => random.pick(&[1_000, 1_001, 900_000, 899_999]),
        1 => random.pick(&[1_024, 1_600, 2_000, 9_973, 450_000, 65_536]),
        2 => random.between(1_000, 5_000),
        _ => random.between(1_000, 900_000),
    }
}

/// A south edge such that the grid fits: at one limit, at the other, around zero, or anywhere.
fn south_edge(random: &mut Random, height: i64) -> i64 {
    let highest = LAT_LIMIT - height;
    match random.below(5) {
        0 => -LAT_LIMIT,
        1 => highest,
        2 => (-height / 2).clamp(-LAT_LIMIT, highest),
        3 => random.between(-1_000, 1_000).clamp(-LAT_LIMIT, highest),
        _ => random.between(-LAT_LIMIT, highest),
    }
}

/// A west edge: for every third grid at the 180th meridian, for the others around zero, or anywhere.
fn west_edge(random: &mut Random, dlon: i64, cols: i64) -> i64 {
    match random.below(6) {
        0 | 1 => at_meridian(random, dlon, cols),
        2 => (1 - cols) * dlon / 2,
        3 => random.between(-1_000, 1_000),
        _ => random.between(CIRCLE27.first, CIRCLE27.last),
    }
}

/// A west edge whose grid crosses the 180th meridian, touches it, or lies so near that a shift can carry an answer across.
fn at_meridian(random: &mut Random, dlon: i64, cols: i64) -> i64 {
    let width = (cols - 1) * dlon;
    let beside = random.pick(&[1, 2, 50, 500, REACH]);
    CIRCLE27.name(match random.below(8) {
        0 | 1 => MERIDIAN - random.between(1, width - 1),
        // A column of nodes on it, also the first or the last one.
        2 => MERIDIAN - random.between(0, cols - 1) * dlon,
        3 => MERIDIAN + random.pick(&[0, 0, 1]),
        4 => MERIDIAN - 1,
        5 => MERIDIAN - width + random.pick(&[-1, 0, 1]),
        6 => MERIDIAN - width - random.between(1, beside),
        _ => MERIDIAN + random.between(0, beside),
    })
}

/// A header that keeps every rule, for the given shape.
pub fn header(random: &mut Random, shape: [i64; 2]) -> Vec<i64> {
    let spacings = [spacing(random), spacing(random)];
    spaced_header(random, shape, spacings)
}

/// The same with given spacings. Every shape has room for the largest ones.
pub fn spaced_header(random: &mut Random, [rows, cols]: [i64; 2], [dlat, dlon]: [i64; 2]) -> Vec<i64> {
    let south = south_edge(random, (rows - 1) * dlat);
    let west = west_edge(random, dlon, cols);
    vec![south, west, dlat, dlon, rows, cols]
}

fn style(random: &mut Random) -> Style {
    match random.below(6) {
        0 => Style::Constant,
        1 => Style::Small(random.pick(&[1, 2, 5, 9, 60])),
        2 => Style::Random,
        3 => Style::Rising,
        _ => Style::Steepest,
    }
}

/// One component's shifts, from the first attempt that has room for every node. A constant one always has.
fn component(random: &mut Random, header: &[i64]) -> Vec<i64> {
    loop {
        if let Some(shifts) = attempt(random, header) {
            return shifts;
        }
    }
}

/// Each node is chosen from the span that its west and south neighbours and its cell allow. Without twist it would be as far from
/// each neighbour as the neighbour opposite is from their common southwest node, so that only the range can leave no span.
fn attempt(random: &mut Random, header: &[i64]) -> Option<Vec<i64>> {
    let style = style(random);
    let (north_step, east_step, twist) = (100 * header[2] / 16, 100 * header[3] / 16, twist_limit(header));
    let (rows, cols) = (header[4] as usize, header[5] as usize);
    let base = random.pick(&[0, 0, 1, -1, SHIFT_LIMIT, -SHIFT_LIMIT, 42_000, -53_000]);
    let base = if random.once_in(3) { random.between(-SHIFT_LIMIT, SHIFT_LIMIT) } else { base };
    let mut shifts: Vec<i64> = Vec::with_capacity(rows * cols);
    for node in 0..rows * cols {
        let (mut low, mut high) = (-SHIFT_LIMIT, SHIFT_LIMIT);
        if node % cols > 0 {
            low = low.max(shifts[node - 1] - east_step);
            high = high.min(shifts[node - 1] + east_step);
        }
        if node >= cols {
            low = low.max(shifts[node - cols] - north_step);
            high = high.min(shifts[node - cols] + north_step);
        }
        if node % cols > 0 && node >= cols {
            let flat = shifts[node - 1] + shifts[node - cols] - shifts[node - cols - 1];
            low = low.max(flat - twist);
            high = high.min(flat + twist);
        }
        if low > high {
            return None;
        }
        shifts.push(if node == 0 { base } else { choose(random, style, base, low, high) });
    }
    Some(shifts)
}

/// The greatest size of a cell's S1 - S2 - S3 + S4.
pub fn twist_limit(header: &[i64]) -> i64 {
    100 * header[2].min(header[3]) / 64
}

fn choose(random: &mut Random, style: Style, base: i64, low: i64, high: i64) -> i64 {
    match style {
        Style::Constant => base,
        Style::Small(reach) => random.between(base - reach, base + reach).clamp(low, high),
        Style::Random => random.between(low, high),
        Style::Rising => high,
        Style::Steepest => random.pick(&[low, high]),
    }
}

pub fn passing(random: &mut Random, shape: [i64; 2]) -> Plain {
    let header = header(random, shape);
    with_header(random, header)
}

pub fn with_header(random: &mut Random, header: Vec<i64>) -> Plain {
    let lat = component(random, &header);
    let lon = component(random, &header);
    Plain { header, lat, lon }
}

/// The grid of the paper's example, the corners of the hand example of USGS Bulletin 1875-B.
pub fn paper_p() -> Plain {
    let header = vec![117_900_000, -298_800_000, 450_000, 450_000, 2, 2];
    Plain { header, lat: vec![53_000, 57_000, 51_000, 57_000], lon: vec![42_000, 49_000, 41_000, 49_000] }
}

/// The paper's grid with shifts of 0, 1 and -1, whose middle is a tie.
pub fn paper_q() -> Plain {
    Plain { header: vec![0, 0, 1_000, 1_000, 2, 2], lat: vec![0, 1, 0, 1], lon: vec![0, -1, 0, -1] }
}

/// Headers with one number at an edge of its rule, one off it, or absurd; north edges that meet the limit of rule 8; and east
/// edges at the 180th meridian, which no rule limits.
pub fn edge_headers() -> Vec<Vec<i64>> {
    let base = [0, 0, 1_000, 1_000, 3, 4];
    let edges: [&[i64]; 6] = [
        &[-LAT_LIMIT, LAT_LIMIT - 2_000, LAT_LIMIT],
        &[CIRCLE27.first, MERIDIAN - 3_000, CIRCLE27.last],
        &[1_000, 900_000, LAT_LIMIT / 2],
        &[1_000, 900_000, MERIDIAN / 3],
        &[2, 256, 512, 2_048],
        &[2, 256, 512, 2_048],
    ];
    let far = [i64::MIN, i64::MIN + 1, -1, 0, 1, 1 << 31, 1 << 32, (1 << 32) + 3, i64::MAX - 1, i64::MAX];
    let mut headers = vec![base.to_vec()];
    for (place, edges) in edges.iter().enumerate() {
        let close = edges.iter().flat_map(|&edge| [edge - 1, edge, edge + 1]);
        for value in close.chain(far) {
            let mut header = base.to_vec();
            header[place] = value;
            headers.push(header);
        }
    }
    for (rows, cols) in
        [(32, 64), (33, 64), (32, 65), (256, 8), (256, 9), (8, 256), (9, 256), (256, 256), (257, 2), (2, 257), (45, 45)]
    {
        headers.push(vec![0, 0, 1_000, 1_000, rows, cols]);
    }
    headers.extend(shapes_near_the_limit());
    headers
}

/// Every shape with about 2,048 nodes. There is none with 2,049, so that 2,050 is the next that is refused.
fn shapes_near_the_limit() -> impl Iterator<Item = Vec<i64>> {
    let shapes = (2..=256).flat_map(|rows| (2..=256).map(move |cols| (rows, cols)));
    shapes
        .filter(|(rows, cols)| (2_046..=2_052).contains(&(rows * cols)))
        .map(|(rows, cols)| vec![0, 0, 1_000, 1_000, rows, cols])
}

/// A header with one to three numbers replaced by such as are at an edge or absurd.
pub fn odd_header(random: &mut Random) -> Vec<i64> {
    let shape = small_shape(random);
    let mut odd = header(random, shape);
    let limits = [LAT_LIMIT, CIRCLE27.last, 900_000, 900_000, 256, 256];
    let lows = [-LAT_LIMIT, CIRCLE27.first, 1_000, 1_000, 2, 2];
    for _ in 0..=random.below(3) {
        let place = random.below(6);
        odd[place] = match random.below(4) {
            0 => limits[place] + random.between(-1, 1),
            1 => lows[place] + random.between(-1, 1),
            2 => random.absurd(),
            _ => odd[place].saturating_add(random.between(-1, 1)),
        };
    }
    // Often move the grid so that its north edge is at the limit, or its east edge at the 180th meridian, or one off.
    if random.once_in(2) {
        let (place, limit) = random.pick(&[(0, LAT_LIMIT), (1, MERIDIAN)]);
        let extent = (odd[4 + place].wrapping_sub(1)).wrapping_mul(odd[2 + place]);
        odd[place] = limit.wrapping_sub(extent).wrapping_add(random.between(-1, 1));
    }
    odd
}

/// Changes one to three nodes so that a shift may be out of range, a node too steep or a cell twisted too far.
pub fn disturb(random: &mut Random, grid: &mut Plain) {
    let twist = twist_limit(&grid.header);
    for _ in 0..=random.below(3) {
        let node = random.below(grid.nodes());
        let component = if random.once_in(2) { &mut grid.lat } else { &mut grid.lon };
        component[node] = match random.below(6) {
            0 => random.pick(&[-1, 1]) * (SHIFT_LIMIT + random.between(0, 1)),
            1 => random.absurd(),
            2 => random.between(-SHIFT_LIMIT, SHIFT_LIMIT),
            3 => component[node].saturating_add(random.pick(&[-1, 1]) * (twist + random.between(0, 1))),
            _ => component[node].saturating_add(random.between(-1, 1)),
        };
    }
}
