//! The text side of the paper, implemented a second time: the reader, the writer and the list.

use crate::model::{check, in_range, refuse, Answer, Grid, Reply, TO27, TO83};

/// What a text holds when it is accepted.
pub struct Content {
    pub header: Vec<i64>,
    pub lat: Vec<i64>,
    pub lon: Vec<i64>,
}

/// The lines of a text, taken one after the other.
struct Lines<'a> {
    rest: &'a [u8],
    number: usize,
}

impl<'a> Lines<'a> {
    /// The next line, judged by `form`. A line that is missing, lacks its newline or is not of its form is refused.
    fn take<T>(&mut self, form: impl Fn(&[u8]) -> Option<T>) -> Reply<T> {
        self.number += 1;
        let Some(end) = self.rest.iter().position(|&byte| byte == b'\n') else {
            return refuse(1, self.number);
        };
        let line = &self.rest[..end];
        self.rest = &self.rest[end + 1..];
        form(line).map_or(refuse(1, self.number), Ok)
    }
}

/// A number is of its form exactly when writing its value again gives the same bytes; 11 digits are the most.
fn number(bytes: &[u8]) -> Option<i64> {
    let text = std::str::from_utf8(bytes).ok()?;
    let value: i64 = text.parse().ok()?;
    (value.unsigned_abs() <= 99_999_999_999 && value.to_string() == text).then_some(value)
}

fn named_number(line: &[u8], name: &[u8]) -> Option<i64> {
    number(line.strip_prefix(name)?)
}

fn named_pair(line: &[u8], name: &[u8]) -> Option<[i64; 2]> {
    let values = line.strip_prefix(name)?;
    let comma = values.iter().position(|&byte| byte == b',')?;
    Some([number(&values[..comma])?, number(&values[comma + 1..])?])
}

/// Reads a text, with `lat_room` and `lon_room` elements lent for the nodes.
pub fn read(text: &[u8], lat_room: usize, lon_room: usize) -> Reply<Content> {
    let mut lines = Lines { rest: text, number: 0 };
    for fixed in ["from=NAD27", "to=NAD83"] {
        lines.take(|line| (line == fixed.as_bytes()).then_some(()))?;
    }
    let mut header = Vec::new();
    for name in ["south=", "west=", "dlat=", "dlon=", "rows=", "cols="] {
        header.push(lines.take(|line| named_number(line, name.as_bytes()))?);
    }
    let shape = Grid::unjudged(&header, &[], &[]);
    if let Some(rule) = shape.broken_rule() {
        return refuse(2, rule);
    }
    let nodes = shape.nodes();
    if lat_room < nodes || lon_room < nodes {
        return refuse(5, nodes);
    }
    let (mut lat, mut lon) = (Vec::new(), Vec::new());
    for node in 0..nodes {
        let shifts = lines.take(|line| named_pair(line, b"node="))?;
        if !shifts.into_iter().all(in_range) {
            return refuse(3, node);
        }
        lat.push(shifts[0]);
        lon.push(shifts[1]);
    }
    lines.take(|line| (named_number(line, b"end=")? == nodes as i64).then_some(()))?;
    if !lines.rest.is_empty() {
        return refuse(1, lines.number + 1);
    }
    check(&header, &lat, &lon)?;
    Ok(Content { header, lat, lon })
}

/// The text of six header numbers and of as many nodes as there are, whether or not they pass the checks.
pub fn text_of(header: &[i64], lat: &[i64], lon: &[i64]) -> String {
    let mut text = String::from("from=NAD27\nto=NAD83\n");
    for (name, value) in ["south", "west", "dlat", "dlon", "rows", "cols"].iter().zip(header) {
        text += &format!("{name}={value}\n");
    }
    for (lat, lon) in lat.iter().zip(lon) {
        text += &format!("node={lat},{lon}\n");
    }
    text + &format!("end={}\n", lat.len().min(lon.len()))
}

enum Request {
    To83([i64; 2]),
    To27([i64; 2]),
}

/// The request of a line that still has its newline, if it is of the form.
fn request(line: &[u8]) -> Option<Request> {
    let line = line.strip_suffix(b"\n")?;
    if line.len() > 64 {
        return None;
    }
    let to83 = named_pair(line, b"to83=").map(Request::To83);
    to83.or_else(|| named_pair(line, b"to27=").map(Request::To27))
}

/// `ok83=LAT,LON,SIGN,SIGN`, the latitude's sign first, or `ok27=LAT,LON`.
fn answer_line(word: &str, answer: Answer) -> String {
    let numbers: Vec<String> = answer.numbers().iter().map(i64::to_string).collect();
    format!("{word}={}\n", numbers.join(","))
}

/// The signs in a line of the list, if it is an answer that has signs.
pub fn signs_of(line: &str) -> Option<[i64; 2]> {
    let mut signs = line.strip_prefix("ok83=")?.split(',').skip(2).map(|sign| sign.parse().ok());
    Some([signs.next()??, signs.next()??])
}

/// The reply to a line that still has its newline, if it has one: its text, and the number of the refusal or 0.
fn reply(grid: &Grid, line: &[u8]) -> (String, u8) {
    let (word, answer) = match request(line) {
        None => ("", refuse(1, 0)),
        Some(Request::To83(point)) => ("ok83", grid.convert(TO83, point)),
        Some(Request::To27(figure)) => ("ok27", grid.convert(TO27, figure)),
    };
    match answer {
        Ok(answer) => (answer_line(word, answer), 0),
        Err(refusal) => (format!("no={}\n", refusal.number), refusal.number),
    }
}

/// The list over the request lines, and how many lines were refused 1, 6 and 7.
pub fn list(grid: &Grid, requests: &[u8]) -> (String, [usize; 3]) {
    let mut out = format!("sheet={}\n", grid.nodes());
    let (mut answered, mut refused) = (0, [0; 3]);
    for line in requests.split_inclusive(|&byte| byte == b'\n') {
        let (text, number) = reply(grid, line);
        out += &text;
        match [1, 6, 7].iter().position(|&known| known == number) {
            Some(place) => refused[place] += 1,
            None => answered += 1,
        }
    }
    out += &format!("done={},{}\n", answered, refused.iter().sum::<usize>());
    (out, refused)
}

/// The most bytes that are kept of a line under way.
pub const LINE: usize = 65;
/// The numbers of a list.
pub const STATE: usize = 3;

/// A list that is under way.
pub struct Sitting {
    pub line: Vec<u8>,
    answered: i64,
    refused: i64,
}

impl Sitting {
    /// Any memory that is long enough is a list.
    pub fn of(line: &[u8], state: &[i64]) -> Sitting {
        let length = state[0].clamp(0, LINE as i64) as usize;
        Sitting { line: line[..length].to_vec(), answered: state[1], refused: state[2] }
    }

    pub fn state(&self) -> [i64; STATE] {
        [self.line.len() as i64, self.answered, self.refused]
    }

    /// The replies to the lines that end in a piece.
    pub fn feed(&mut self, grid: &Grid, piece: &[u8]) -> String {
        let mut out = String::new();
        for part in piece.split_inclusive(|&byte| byte == b'\n') {
            self.line.extend_from_slice(part);
            if part.ends_with(b"\n") {
                let (text, number) = reply(grid, &self.line);
                let total = if number == 0 { &mut self.answered } else { &mut self.refused };
                *total = total.saturating_add(1);
                out += &text;
                self.line.clear();
            }
            self.line.truncate(LINE);
        }
        out
    }

    /// The last lines of the list.
    pub fn finish(&self) -> String {
        let Sitting { line, answered, refused } = self;
        if line.is_empty() {
            return format!("done={answered},{refused}\n");
        }
        format!("no=1\ndone={answered},{}\n", refused.saturating_add(1))
    }
}
