//! Request lines for the list: valid ones, damaged ones, and rooms of every size.

use crate::compare::{Bench, Case};
use crate::grids::{self, Plain};
use crate::model::Grid;
use crate::random::Random;
use crate::{pieces, points};

/// Lines that are not of the form, or are so only just.
const LINES: [&str; 51] = [
    "",
    " ",
    "to83",
    "to83=",
    "to83=1",
    "to83=1,",
    "to83=,1",
    "to83=1,2,3",
    "to83=1;2",
    "to83=1, 2",
    "to83= 1,2",
    " to83=1,2",
    "to83=1,2 ",
    "to83=1,2\r",
    "TO83=1,2",
    "To83=1,2",
    "to84=1,2",
    "to27",
    "to27=",
    "to28=1,2",
    "ok83=1,2",
    "ok83=1,2,0,0",
    "to27=0,0,0,0",
    "to83=+1,2",
    "to83=1,+2",
    "to83=01,2",
    "to83=1,02",
    "to83=-0,2",
    "to83=1,-0",
    "to83=--1,2",
    "to83=0,0",
    "to27=0,0",
    "to83=99999999999,-99999999999",
    "to27=99999999999,99999999999",
    "to83=100000000000,0",
    "to27=0,-100000000000",
    "to83=0,647999999",
    "to83=0,648000000",
    "to83=0,-648000000",
    "to83=0,-648000001",
    "to27=0,64799999999",
    "to27=0,64800000000",
    "to27=0,-64800000000",
    "to27=0,-64800000001",
    "to27=0,129600000000",
    "to83=1.0,2",
    "to83=1\0,2",
    "\0",
    "to83=1,2\0",
    "to83=1,2to83=1,2",
    "from=NAD27",
];

const EXACT: fn(usize) -> Option<usize> = Some;

fn valid_line(random: &mut Random, grid: &Grid, header: &[i64]) -> String {
    if random.once_in(2) {
        let [lat, lon] = points::point(random, header);
        format!("to83={lat},{lon}\n")
    } else {
        let [lat, lon] = points::figure(random, grid, header);
        format!("to27={lat},{lon}\n")
    }
}

/// A line of exactly `length` bytes before its newline, whose front would be a request of its own.
fn long_line(request: &str, length: usize) -> String {
    let front = request.trim_end();
    format!("{front}{}\n", "0".repeat(length.saturating_sub(front.len())))
}

fn line(random: &mut Random, grid: &Grid, header: &[i64]) -> Vec<u8> {
    let valid = valid_line(random, grid, header);
    match random.below(10) {
        0..=5 => valid.into_bytes(),
        6 | 7 => (random.pick(&LINES).to_string() + "\n").into_bytes(),
        8 => {
            let mut bytes = valid.into_bytes();
            let place = random.below(bytes.len());
            bytes[place] = random.pick(b"0,-=+ \n\r\0t8\xff");
            bytes
        }
        _ => long_line(&valid, random.pick(&[31, 63, 64, 65, 128, 130])).into_bytes(),
    }
}

/// Lists of random lines over one grid, with rooms that are right, one short, longer and empty.
pub fn compare(bench: &mut Bench, random: &mut Random, plain: &Plain, count: usize) {
    let case = Case::of(&plain.header, &plain.lat, &plain.lon);
    let Ok(grid) = case.grid() else { return };
    let mut requests: Vec<u8> = (0..count).flat_map(|_| line(random, &grid, &plain.header)).collect();
    if random.once_in(4) {
        requests.pop();
    }
    bench.list(&case, Some(&requests), b"\nto83=0,0\n", EXACT);
    bench.list(&case, Some(&requests), b"\nto83=0,0\n", |needed| Some(needed - 1));
    let other = random.below(4);
    bench.list(&case, Some(&requests), b"", |needed| [Some(needed + 9), Some(0), None, Some(needed / 2)][other]);
    pieces::compare(bench, random, &case, &requests);
}

/// The lines of the table and those at 63, 64, 65 bytes and far above, each alone and between two valid ones.
pub fn each_line(bench: &mut Bench, plain: &Plain) {
    let case = Case::of(&plain.header, &plain.lat, &plain.lon);
    let valid = format!("to83={},{}\n", plain.header[0], plain.header[1]);
    let mut lines: Vec<String> = LINES.iter().map(|line| format!("{line}\n")).collect();
    for length in [1, 30, 31, 62, 63, 64, 65, 66, 127, 128, 129, 100_000] {
        lines.push("x".repeat(length) + "\n");
        lines.push(long_line(&valid, length));
        lines.push(format!("{}{valid}", "x".repeat(length)));
    }
    // A reader that takes 64 bytes for a line would find a request in the rest.
    lines.push(format!("{}to83=1,2\n", " ".repeat(64)));
    for line in &lines {
        bench.list(&case, Some(line.as_bytes()), b"", EXACT);
        let between = [&valid, line.as_str(), &valid].concat();
        bench.list(&case, Some(between.as_bytes()), b"", EXACT);
        let unended = [&valid, line.trim_end_matches('\n')].concat();
        bench.list(&case, Some(unended.as_bytes()), b"\n", EXACT);
    }
    let valid = valid.into_bytes();
    for length in 0..=valid.len() {
        bench.list(&case, Some(&valid[..length]), &valid[length..], EXACT);
    }
}

/// Counts of lines with one, two, three and four digits, answered and refused.
pub fn totals(bench: &mut Bench) {
    let q = grids::paper_q();
    let case = Case::of(&q.header, &q.lat, &q.lon);
    for (answered, refused) in [(0, 0), (9, 0), (10, 9), (99, 10), (100, 99), (0, 100), (999, 1), (1_000, 1_001)] {
        let requests = "to83=0,500\n".repeat(answered) + &"\n".repeat(refused);
        for room in [EXACT, |needed| Some(needed - 1), |needed| Some(needed + 1)] {
            bench.list(&case, Some(requests.as_bytes()), b"to83=0,0\n", room);
        }
    }
}
