//! Texts for the reader: written by the model, then damaged.

use crate::circle::CIRCLE27;
use crate::compare::{Bench, Case};
use crate::grids::{self, Plain};
use crate::model_text::text_of;
use crate::random::Random;

/// Node slices of this length take every grid.
const ALL: [Option<usize>; 3] = [Some(6), Some(2_048), Some(2_048)];

/// Replacements for a number. Some are of the form and beyond every limit, the others are not of the form.
const NUMBERS: [&str; 38] = [
    "-0",
    "0",
    "00",
    "01",
    "-01",
    "+1",
    "+0",
    "",
    "-",
    "--1",
    " 1",
    "1 ",
    "1\r",
    "0x1",
    "1.0",
    "1e3",
    "1_000",
    "1,2",
    ",",
    "99999999999",
    "-99999999999",
    "100000000000",
    "-100000000000",
    "000000000000",
    "9223372036854775807",
    "9223372036854775808",
    "-9223372036854775808",
    "18446744073709551617",
    "6000000",
    "6000001",
    "-6000000",
    "-6000001",
    "647999999",
    "648000000",
    "-648000000",
    "-648000001",
    "1\0",
    "\u{661}",
];

fn read(bench: &mut Bench, text: &[u8], behind: &[u8]) {
    read_into(bench, text, behind, ALL);
}

/// Compares the reading of a text and, where it is accepted, the writing of what was read, which must give the text again.
fn read_into(bench: &mut Bench, text: &[u8], behind: &[u8], rooms: [Option<usize>; 3]) {
    let Some(content) = bench.read(Some(text), behind, rooms) else { return };
    let case = Case::of(&content.header, &content.lat, &content.lon);
    bench.write(&case, &String::from_utf8_lossy(text), Some(text.len()));
    bench.coverage.mark("text: read and written again");
}

/// Compares writing a grid, reading the text, and writing what was read.
pub fn there_and_back(bench: &mut Bench, plain: &Plain) {
    let nodes = plain.nodes();
    let text = text_of(&plain.header, &plain.lat, &plain.lon);
    let case = Case::of(&plain.header, &plain.lat, &plain.lon);
    for room in [text.len(), text.len() - 1, text.len() + 5, text.len() / 2, 0] {
        bench.write(&case, &text, Some(room));
    }
    read_into(bench, text.as_bytes(), b"", [Some(6), Some(nodes), Some(nodes)]);
}

/// The text cut at every length, with the part cut off standing behind the slice.
pub fn cuts(bench: &mut Bench, plain: &Plain) {
    let text = text_of(&plain.header, &plain.lat, &plain.lon).into_bytes();
    for length in 0..=text.len() {
        read(bench, &text[..length], &text[length..]);
    }
}

/// Each byte of the text replaced by each of a few others, removed, and doubled.
pub fn each_byte(bench: &mut Bench, plain: &Plain) {
    let text = text_of(&plain.header, &plain.lat, &plain.lon).into_bytes();
    for place in 0..text.len() {
        for byte in *b"\n\r\0 +-,=05NA\xff" {
            let mut changed = text.clone();
            changed[place] = byte;
            read(bench, &changed, b"\n");
            changed = text.clone();
            changed.insert(place, byte);
            read(bench, &changed, b"\n");
        }
        let mut changed = text.clone();
        changed.remove(place);
        read(bench, &changed, b"\n");
    }
}

/// Each number of the text replaced by each of the odd ones.
pub fn each_number(bench: &mut Bench, plain: &Plain) {
    let text = text_of(&plain.header, &plain.lat, &plain.lon);
    let lines: Vec<&str> = text.lines().collect();
    for (place, line) in lines.iter().enumerate().skip(2) {
        let (name, values) = line.split_once('=').unwrap();
        for number in NUMBERS {
            let changed: Vec<String> = match values.split_once(',') {
                Some((lat, lon)) => vec![format!("{name}={number},{lon}"), format!("{name}={lat},{number}")],
                None => vec![format!("{name}={number}")],
            };
            for line in &changed {
                let mut all = lines.clone();
                all[place] = line;
                read(bench, (all.join("\n") + "\n").as_bytes(), b"\n");
            }
        }
    }
}

/// What may stand at the end: nothing, other lines, and bytes that are no lines.
pub fn endings(bench: &mut Bench, plain: &Plain) {
    let text = text_of(&plain.header, &plain.lat, &plain.lon);
    for more in ["", "\n", " ", "\0", "node=0,0\n", "end=4\n", "\nend=4\n", "from=NAD27\n", "\r\n", "x"] {
        read(bench, (text.clone() + more).as_bytes(), b"\n");
        read(bench, (text.trim_end().to_string() + more).as_bytes(), b"\n");
    }
    let endless = text.clone() + &"node=0,0\n".repeat(6_000);
    bench.coverage.mark_if(endless.len() > 48_000, "text: above 48,000 bytes");
    read(bench, endless.as_bytes(), b"\n");
    read(bench, &b"from=NAD27".repeat(6_000), b"\n");
    read(bench, text.replace("south=", &format!("south={}", "9".repeat(60_000))).as_bytes(), b"\n");
    read(bench, text.replace('\n', "\r\n").as_bytes(), b"\n");
    bench.read(None, b"", ALL);
}

/// Texts damaged one to three times at random, of grids that pass and of grids that do not.
pub fn damaged(bench: &mut Bench, random: &mut Random, count: usize) {
    for _ in 0..count {
        let shape = grids::mostly_small_shape(random);
        let mut plain = grids::passing(random, shape);
        if random.once_in(2) {
            grids::disturb(random, &mut plain);
        }
        if random.once_in(6) {
            plain.header = grids::odd_header(random);
        }
        let text = text_of(&plain.header, &plain.lat, &plain.lon).into_bytes();
        for _ in 0..8 {
            let mut changed = text.clone();
            for _ in 0..=random.below(3) {
                changed = damage(random, changed);
            }
            let rooms = [ALL, ALL, [Some(7), Some(plain.lat.len()), Some(plain.lat.len() + random.below(3) - 1)]];
            read_into(bench, &changed, b"\n", random.pick(&rooms));
        }
    }
}

fn damage(random: &mut Random, text: Vec<u8>) -> Vec<u8> {
    if text.len() < 2 || random.once_in(2) {
        damage_lines(random, text)
    } else {
        damage_bytes(random, text)
    }
}

fn damage_bytes(random: &mut Random, mut text: Vec<u8>) -> Vec<u8> {
    let place = random.below(text.len() - 1);
    let byte = if random.once_in(3) { random.next() as u8 } else { random.pick(b"0123456789-+,=\n\r \0") };
    match random.below(6) {
        0 => text[place] = byte,
        1 => text.insert(place, byte),
        2 => drop(text.remove(place)),
        3 => text.swap(place, place + 1),
        4 => text.truncate(place),
        _ => text.push(byte),
    }
    text
}

fn damage_lines(random: &mut Random, text: Vec<u8>) -> Vec<u8> {
    let mut lines: Vec<Vec<u8>> = text.split_inclusive(|&byte| byte == b'\n').map(<[u8]>::to_vec).collect();
    if lines.is_empty() {
        return b"\n".to_vec();
    }
    let (one, other) = (random.below(lines.len()), random.below(lines.len()));
    match random.below(5) {
        0 => drop(lines.remove(one)),
        1 => lines.insert(other, lines[one].clone()),
        2 => lines.swap(one, other),
        3 => lines[one] = lines[other].clone(),
        _ => lines[one] = another_number(random, &lines[one]),
    }
    lines.concat()
}

/// The line with what follows its last `=` or `,` replaced by a number of another size or another form.
fn another_number(random: &mut Random, line: &[u8]) -> Vec<u8> {
    let front = line.iter().rposition(|&byte| byte == b'=' || byte == b',').map_or(0, |place| place + 1);
    let number = match random.below(3) {
        0 => random.pick(&NUMBERS).to_string(),
        1 => {
            let limit = limit_for(random, line);
            random.near(limit).to_string()
        }
        _ => random.between(-6_000_001, 6_000_001).to_string(),
    };
    [&line[..front], number.as_bytes(), b"\n"].concat()
}

/// A limit that may concern the line, chosen by its first letter.
fn limit_for(random: &mut Random, line: &[u8]) -> i64 {
    match line.first() {
        Some(b's') => grids::LAT_LIMIT,
        Some(b'w') => random.pick(&[CIRCLE27.first, CIRCLE27.last]),
        Some(b'd') => 900_000,
        Some(b'r' | b'c') => 256,
        Some(b'n') => grids::SHIFT_LIMIT,
        _ => 4,
    }
}

/// Bytes with no sense, and bytes that begin with some.
pub fn noise(bench: &mut Bench, random: &mut Random, count: usize) {
    let start = text_of(&grids::paper_q().header, &[], &[]).into_bytes();
    for _ in 0..count {
        let mut text = start[..random.below(start.len())].to_vec();
        let length = random.below(40);
        text.extend((0..length).map(|_| random.next() as u8));
        read(bench, &text, b"\n");
    }
}
