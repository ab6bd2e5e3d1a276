//! Counts what the cases reached. A run that left an expected place out has not tested what it claims to, and fails.

use std::collections::BTreeMap;

#[derive(Clone, Copy, Debug, PartialEq)]
pub enum Call {
    Check,
    Read,
    Write,
    To83,
    To27,
    Convert,
    List,
    Begin,
    Feed,
    Finish,
}

/// A function's name, the refusals it can give, and its slice parameters.
struct Known {
    name: &'static str,
    refusals: &'static [usize],
    slices: &'static [&'static str],
}

const CALLS: usize = 10;

/// The largest number of a refusal.
const LARGEST: usize = 14;

const KNOWN: [Known; CALLS] = [
    Known { name: "check", refusals: &[2, 3, 4, 5, 14], slices: &["header", "lat", "lon"] },
    Known { name: "read", refusals: &[1, 2, 3, 4, 5, 8, 14], slices: &["header", "lat", "lon", "text"] },
    Known { name: "write", refusals: &[2, 3, 4, 5, 8, 14], slices: &["header", "lat", "lon", "room"] },
    Known { name: "to83", refusals: &[2, 3, 4, 5, 6, 8, 14], slices: &["header", "lat", "lon", "answer"] },
    Known { name: "to27", refusals: &[2, 3, 4, 5, 7, 8, 14], slices: &["header", "lat", "lon", "answer"] },
    Known {
        name: "convert",
        refusals: &[2, 3, 4, 5, 8, 14],
        slices: &["header", "lat", "lon", "ways", "points", "answers", "refusals"],
    },
    Known { name: "list", refusals: &[2, 3, 4, 5, 8, 14], slices: &["header", "lat", "lon", "requests", "room"] },
    Known { name: "begin", refusals: &[2, 3, 4, 5, 8, 14], slices: &["header", "lat", "lon", "room"] },
    Known { name: "feed", refusals: &[2, 3, 4, 5, 8, 14], slices: &["header", "lat", "lon", "line", "state", "piece", "room"] },
    Known { name: "finish", refusals: &[8], slices: &["line", "state", "room"] },
];

/// Everything else that a run has to reach.
const MARKS: [&str; 208] = [
    "point: tie toward zero, positive latitude shift",
    "point: tie toward zero, negative latitude shift",
    "point: tie toward zero, positive longitude shift",
    "point: tie toward zero, negative longitude shift",
    "point: tie away from zero, positive latitude shift",
    "point: tie away from zero, negative latitude shift",
    "point: tie away from zero, positive longitude shift",
    "point: tie away from zero, negative longitude shift",
    "point: tie in a cell of 1,000 by 1,000",
    "point: tie in another cell",
    "point: tie with sign -1",
    "point: tie with sign 1",
    "point: sign -1, positive latitude shift",
    "point: sign -1, negative latitude shift",
    "point: sign 0, positive latitude shift",
    "point: sign 0, negative latitude shift",
    "point: sign 1, positive latitude shift",
    "point: sign 1, negative latitude shift",
    "point: sign -1, positive longitude shift",
    "point: sign -1, negative longitude shift",
    "point: sign 0, positive longitude shift",
    "point: sign 0, negative longitude shift",
    "point: sign 1, positive longitude shift",
    "point: sign 1, negative longitude shift",
    "point: exact latitude shift between nodes",
    "point: exact longitude shift between nodes",
    "point: one part above a whole number, in the largest cell",
    "point: one part below a whole number, in the largest cell",
    "point: south edge",
    "point: north edge",
    "point: west edge",
    "point: east edge",
    "point: corner",
    "point: side shared by a south and a north cell",
    "point: side shared by a west and an east cell",
    "point: inner node",
    "point: one off the south edge",
    "point: one off the north edge",
    "point: one off the west edge",
    "point: one off the east edge",
    "point: absurd",
    "figure: back to an edge",
    "figure: back to a corner",
    "figure: one off an answer",
    "figure: absurd",
    "batch: point refused 6",
    "batch: figure refused 7",
    "batch: both ways answered",
    "batch: way 0",
    "batch: way 3",
    "batch: way 255",
    "batch: points too short",
    "batch: points longer than needed",
    "batch: answers too short",
    "batch: refusals too short",
    "batch: points and answers too short",
    "batch: answers and refusals too short",
    "batch: latitude sign -1",
    "batch: latitude sign 0",
    "batch: latitude sign 1",
    "batch: longitude sign -1",
    "batch: longitude sign 0",
    "batch: longitude sign 1",
    "batch: no requests",
    "batch: no requests, refused 2",
    "batch: no requests, refused 5",
    "batch: no requests, refused 3",
    "batch: no requests, refused 4",
    "batch: no requests, refused 14",
    "list: line refused 1",
    "list: line refused 6",
    "list: line refused 7",
    "list: latitude sign -1",
    "list: latitude sign 0",
    "list: latitude sign 1",
    "list: longitude sign -1",
    "list: longitude sign 0",
    "list: longitude sign 1",
    "list: no lines",
    "list: no lines, refused 2",
    "list: no lines, refused 5",
    "list: no lines, refused 3",
    "list: no lines, refused 4",
    "list: no lines, refused 14",
    "list: last line without newline",
    "list: line of 64 bytes",
    "list: line of 65 bytes",
    "list: line of 100,000 bytes",
    "list: line ended by CR LF",
    "list: empty line",
    "pieces: joined, they are the whole list",
    "pieces: a line in three pieces",
    "pieces: every byte a piece",
    "pieces: an empty piece",
    "pieces: 65 bytes of a longer line",
    "pieces: last line without newline",
    "pieces: an empty piece, refused 2",
    "pieces: an empty piece, refused 5",
    "pieces: an empty piece, refused 3",
    "pieces: an empty piece, refused 4",
    "pieces: an empty piece, refused 14",
    "pieces: a later piece, refused 2",
    "pieces: a later piece, refused 5",
    "pieces: a later piece, refused 3",
    "pieces: a later piece, refused 4",
    "pieces: a later piece, refused 14",
    "pieces: the line too short",
    "pieces: the numbers too few",
    "pieces: the line and the numbers too short",
    "pieces: the room too short",
    "pieces: length below 0",
    "pieces: length above 65",
    "pieces: a newline in the line that is lent",
    "pieces: a total at its greatest",
    "pieces: the paper's sheet made too steep behind a first piece",
    "text: empty",
    "text: last newline missing",
    "text: lines ended by CR LF",
    "text: a -0",
    "text: read and written again",
    "text: above 48,000 bytes",
    "grid: 2,048 nodes",
    "grid: every tiny point mapped",
    "grid: the paper's sheet made too steep",
    "grid: a latitude twist at its limit",
    "grid: a longitude twist at its limit",
    "grid: a twist one beyond its limit",
    "grid: a twist in the last column and row alone",
    "grid: too steep behind a twisted cell",
    "grid: west edge at -648,000,000",
    "grid: west edge at 647,999,999",
    "grid: west edge at -648,000,001, refused",
    "grid: west edge at 648,000,000, refused",
    "meridian: a grid across it",
    "meridian: an east edge one short of it",
    "meridian: an east edge on it",
    "meridian: an east edge one past it",
    "meridian: a point west of it, on a grid across it",
    "meridian: a point east of it, on a grid across it",
    "meridian: a point on it",
    "meridian: a point one short of it",
    "meridian: an answer on it",
    "meridian: an answer one short of it",
    "meridian: an answer carried across it eastward",
    "meridian: an answer carried across it westward",
    "meridian: an answer carried across it eastward, from a grid beside it",
    "meridian: an answer carried across it westward, from a grid beside it",
    "meridian: back to a point west of it, on a grid across it",
    "meridian: back to a point east of it, on a grid across it",
    "meridian: back to a point on it",
    "meridian: back from an answer carried across it eastward",
    "meridian: back from an answer carried across it westward",
    "meridian: the same grid and points elsewhere on the circle",
    "meridian: the example's list",
    "no longitude: -648,000,001",
    "no longitude: 648,000,000",
    "no longitude: a turn east of a point of the grid",
    "no longitude: a turn west of a point of the grid",
    "no longitude: -64,800,000,001",
    "no longitude: 64,800,000,000",
    "no longitude: a turn east of an answer",
    "no longitude: a turn west of an answer",
    "order: a meridian, one thousandth apart",
    "order: a parallel, one thousandth apart",
    "order: a meridian, no cell in common",
    "order: a parallel, no cell in common",
    "order: a meridian, from the south edge",
    "order: a parallel, from the west edge",
    "order: a meridian, to the north edge",
    "order: a parallel, to the east edge",
    "order: a meridian, the whole height apart",
    "order: a parallel, the whole width apart",
    "order: a meridian, the whole height of the tallest grid",
    "order: a parallel, the whole width of the widest grid",
    "order: a meridian, the latitude shift falls as steeply as it may",
    "order: a parallel, the longitude shift falls as steeply as it may",
    "order: a meridian, the latitude shift rises as steeply as it may",
    "order: a parallel, the longitude shift rises as steeply as it may",
    "order: a meridian, neighbours with answers 93 apart",
    "order: a parallel, neighbours with answers 93 apart",
    "order: a meridian, neighbours with answers 107 apart",
    "order: a parallel, neighbours with answers 107 apart",
    "order: a meridian, a tie at the southern neighbour",
    "order: a parallel, a tie at the western neighbour",
    "order: a meridian, a tie at the northern neighbour",
    "order: a parallel, a tie at the eastern neighbour",
    "order: too steep, a meridian's points would change sides",
    "order: too steep, a parallel's points would change sides",
    "order: the 180th meridian between two points and between their answers",
    "order: the 180th meridian between two points alone",
    "order: the 180th meridian between two answers alone, carried east",
    "order: the 180th meridian between two answers alone, carried west",
    "order: the 180th meridian between the edges of the widest grid",
    "shift: latitude, the least of four unlike corners",
    "shift: longitude, the least of four unlike corners",
    "shift: latitude, the greatest of four unlike corners",
    "shift: longitude, the greatest of four unlike corners",
    "shift: inside a cell",
    "shift: on a side shared by a south and a north cell",
    "shift: on a side shared by a west and an east cell",
    "shift: at an inner node, which four cells share",
    "shift: at a corner of the grid",
    "node: latitude shift 6,000,000",
    "node: longitude shift 6,000,000",
    "node: latitude shift -6,000,000",
    "node: longitude shift -6,000,000",
    "node: on the 180th meridian",
    "node: every node of a grid",
];

pub struct Coverage {
    refusals: [[u64; LARGEST + 1]; CALLS],
    rules: [[u64; 9]; CALLS],
    answers: [u64; CALLS],
    nulls: [[u64; 7]; CALLS],
    marks: BTreeMap<&'static str, u64>,
}

impl Coverage {
    pub fn new() -> Coverage {
        let marks = MARKS.iter().map(|&mark| (mark, 0)).collect();
        let (refusals, rules) = ([[0; LARGEST + 1]; CALLS], [[0; 9]; CALLS]);
        Coverage { refusals, rules, answers: [0; CALLS], nulls: [[0; 7]; CALLS], marks }
    }

    pub fn answered(&mut self, call: Call) {
        self.answers[call as usize] += 1;
    }

    pub fn refused(&mut self, call: Call, number: u8, place: u64) {
        self.refusals[call as usize][number as usize] += 1;
        if number == 2 {
            self.rules[call as usize][place as usize] += 1;
        }
    }

    /// Notes which slices, in the order of the table above, were lent as NULL.
    pub fn lent(&mut self, call: Call, nulls: &[bool]) {
        for (slice, &null) in nulls.iter().enumerate() {
            self.nulls[call as usize][slice] += u64::from(null);
        }
    }

    pub fn mark(&mut self, name: &'static str) {
        *self.marks.get_mut(name).expect("the mark is in the table") += 1;
    }

    pub fn mark_if(&mut self, reached: bool, name: &'static str) {
        if reached {
            self.mark(name);
        }
    }

    /// What no case reached.
    pub fn missing(&self) -> Vec<String> {
        let mut missing: Vec<String> = Vec::new();
        for (k, known) in KNOWN.iter().enumerate() {
            let mut need = |count: u64, what: String| {
                if count == 0 {
                    missing.push(format!("{}: {what}", known.name));
                }
            };
            need(self.answers[k], "an answer".to_string());
            known.refusals.iter().for_each(|&number| need(self.refusals[k][number], format!("refusal {number}")));
            let rules = if known.refusals.contains(&2) { 1..=8 } else { 1..=0 };
            rules.for_each(|rule| need(self.rules[k][rule], format!("header rule {rule}")));
            known.slices.iter().enumerate().for_each(|(s, name)| need(self.nulls[k][s], format!("{name} lent as NULL")));
        }
        missing.extend(self.marks.iter().filter(|(_, &count)| count == 0).map(|(name, _)| name.to_string()));
        missing
    }
}

impl Call {
    pub fn name(self) -> &'static str {
        KNOWN[self as usize].name
    }
}
