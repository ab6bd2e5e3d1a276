//! Gives one input to the library and to the model, and compares the reply and all lent memory.

use crate::coverage::{Call, Coverage};
use crate::lent::{Element, Lent};
use crate::library::{self, Batch, GridMemory};
use crate::model::{self, refuse, Answer, Grid, Refusal, Reply, TO27, TO83};
use crate::model_text::{self, Content};

/// A grid lent to the library, and the model's verdict on it: the number of nodes or a refusal.
pub struct Case {
    pub memory: GridMemory,
    pub verdict: Reply<u64>,
}

impl Case {
    /// `None` lends NULL. `behind` is what stands behind a header slice that was cut short.
    pub fn new(header: Option<&[i64]>, behind: &[i64], lat: Option<&[i64]>, lon: Option<&[i64]>) -> Case {
        let memory =
            GridMemory { header: Lent::content(header, behind), lat: Lent::content(lat, &[]), lon: Lent::content(lon, &[]) };
        let verdict = model::check(memory.header.original(), memory.lat.original(), memory.lon.original());
        let verdict = verdict.map(|grid| grid.nodes() as u64);
        Case { memory, verdict }
    }

    pub fn of(header: &[i64], lat: &[i64], lon: &[i64]) -> Case {
        Case::new(Some(header), &[], Some(lat), Some(lon))
    }

    /// The grid, if it passed the checks.
    pub fn grid(&self) -> Reply<Grid<'_>> {
        self.verdict.map(|_| self.unjudged())
    }

    fn unjudged(&self) -> Grid<'_> {
        let GridMemory { header, lat, lon } = &self.memory;
        Grid::unjudged(header.original(), lat.original(), lon.original())
    }

    pub fn unchanged(&self) -> bool {
        self.memory.header.unchanged() && self.memory.lat.unchanged() && self.memory.lon.unchanged()
    }

    pub fn account(&self) -> String {
        let GridMemory { header, lat, lon } = &self.memory;
        let start = |slice: &Lent<i64>| slice.original().iter().take(9).copied().collect::<Vec<_>>();
        let (few_lat, few_lon) = (start(lat), start(lon));
        format!("header {:?}, lat {few_lat:?} of {}, lon {few_lon:?} of {}", header.original(), lat.len(), lon.len())
    }
}

/// Nothing to convert, over a grid that fails a check: refused all the same.
const EMPTY_BATCHES: [(u8, &str); 5] = [
    (2, "batch: no requests, refused 2"),
    (5, "batch: no requests, refused 5"),
    (3, "batch: no requests, refused 3"),
    (4, "batch: no requests, refused 4"),
    (14, "batch: no requests, refused 14"),
];
const EMPTY_LISTS: [(u8, &str); 5] = [
    (2, "list: no lines, refused 2"),
    (5, "list: no lines, refused 5"),
    (3, "list: no lines, refused 3"),
    (4, "list: no lines, refused 4"),
    (14, "list: no lines, refused 14"),
];

/// The signs -1, 0 and 1 of the latitude and of the longitude.
type Signs = [[&'static str; 3]; 2];

const BATCH_SIGNS: Signs = [
    ["batch: latitude sign -1", "batch: latitude sign 0", "batch: latitude sign 1"],
    ["batch: longitude sign -1", "batch: longitude sign 0", "batch: longitude sign 1"],
];
const LIST_SIGNS: Signs = [
    ["list: latitude sign -1", "list: latitude sign 0", "list: latitude sign 1"],
    ["list: longitude sign -1", "list: longitude sign 0", "list: longitude sign 1"],
];

pub struct Bench {
    pub comparisons: u64,
    pub coverage: Coverage,
}

/// Lengths of request lines, before the newline, that a run has to reach.
const LINE_LENGTHS: [(usize, &str); 4] = [
    (0, "list: empty line"),
    (64, "list: line of 64 bytes"),
    (65, "list: line of 65 bytes"),
    (100_000, "list: line of 100,000 bytes"),
];

/// Prints what differed and ends the run.
pub fn fail(call: Call, input: &str, expected: &str, got: &str) -> ! {
    println!("differential: {} differs: expected {expected}, got {got}", call.name());
    println!("  input: {input}");
    std::process::exit(1);
}

/// A text as it would be written in a program, cut to a readable length.
pub fn shown(text: &[u8]) -> String {
    let cut = &text[..text.len().min(300)];
    format!("\"{}\" ({} bytes)", cut.escape_ascii(), text.len())
}

pub fn nulls_of(memory: &GridMemory) -> [bool; 3] {
    [memory.header.is_null(), memory.lat.is_null(), memory.lon.is_null()]
}

impl Bench {
    pub fn new() -> Bench {
        Bench { comparisons: 0, coverage: Coverage::new() }
    }

    /// Compares a reply: the refusal in the lowest 8 bits, the value or place above them.
    pub fn reply(&mut self, call: Call, expected: &Reply<u64>, got: u64, input: impl Fn() -> String) {
        self.comparisons += 1;
        let (number, value) = match expected {
            Ok(value) => (0, *value),
            Err(refusal) => (refusal.number, refusal.place),
        };
        if got != value << 8 | u64::from(number) {
            let expected = format!("refusal {number} value {value}");
            fail(call, &input(), &expected, &format!("refusal {} value {}", got & 255, got >> 8));
        }
        match expected {
            Ok(_) => self.coverage.answered(call),
            Err(Refusal { number, place }) => self.coverage.refused(call, *number, *place),
        }
    }

    /// Compares what a written slice holds: `front`, and behind it and around it what it held.
    pub fn written<T: Element>(&self, call: Call, slice: &Lent<T>, front: &[T], input: impl Fn() -> String) {
        if !slice.holds(front) {
            let told = match slice.first_difference(front) {
                Some((place, expected, got)) => (format!("{expected:?} at place {place}"), format!("{got:?}")),
                None => (format!("a slice of {} elements", front.len()), format!("one of {}", slice.len())),
            };
            let state = if front.is_empty() { "refused, memory unchanged" } else { "answered" };
            let around = format!("{} (in a written slice of {} elements; {state})", told.0, slice.len());
            fail(call, &input(), &around, &told.1);
        }
    }

    /// Fails unless slices that are only read hold what they held.
    pub fn untouched(&self, call: Call, unchanged: bool, input: impl Fn() -> String) {
        if !unchanged {
            fail(call, &input(), "slices that are only read to stay", "a changed element in or beside one");
        }
    }

    pub fn check(&mut self, case: &Case) {
        let call = Call::Check;
        self.coverage.lent(call, &nulls_of(&case.memory));
        let got = library::check(&case.memory);
        self.reply(call, &case.verdict, got, || case.account());
        self.untouched(call, case.unchanged(), || case.account());
        self.mark_twists(case);
        self.mark_edges(&case.unjudged(), &case.verdict);
    }

    /// Notes how far the cells are twisted, where the checks before 4 have passed.
    fn mark_twists(&mut self, case: &Case) {
        let grid = case.unjudged();
        let place = match case.verdict {
            Ok(_) => grid.nodes(),
            Err(Refusal { number: 4 | 14, place }) => place as usize,
            Err(_) => return,
        };
        let (limit, last_cell) = (100 * grid.dlat.min(grid.dlon) / 64, grid.nodes() - grid.cols as usize - 2);
        let greatest = |component: usize| grid.twists().map(|(_, twists)| twists[component].abs()).max().unwrap_or(0);
        let (lat, lon) = (greatest(0), greatest(1));
        let (passed, steep, twisted) = (place == grid.nodes(), grid.steep_node().is_some(), grid.twisted_node());
        let marks = &mut self.coverage;
        marks.mark_if(passed && lat == limit, "grid: a latitude twist at its limit");
        marks.mark_if(passed && lon == limit, "grid: a longitude twist at its limit");
        marks.mark_if(!passed && !steep && lat.max(lon) == limit + 1, "grid: a twist one beyond its limit");
        marks.mark_if(!steep && last_cell > 0 && twisted == Some(last_cell), "grid: a twist in the last column and row alone");
        marks.mark_if(steep && twisted.is_some_and(|node| node < place), "grid: too steep behind a twisted cell");
    }

    /// Compares the writing of a grid's text, whose length is the reply's value. The caller passes the text that is expected.
    pub fn write(&mut self, case: &Case, text: &str, room: Option<usize>) {
        let call = Call::Write;
        let mut room = Lent::room(room);
        let [header, lat, lon] = nulls_of(&case.memory);
        self.coverage.lent(call, &[header, lat, lon, room.is_null()]);
        let fits = |_| if room.len() < text.len() { refuse(8, text.len()) } else { Ok(text.len() as u64) };
        let expected = case.verdict.and_then(fits);
        let got = library::write(&case.memory, &mut room);
        let account = || format!("{}, room {}", case.account(), room.len());
        self.reply(call, &expected, got, account);
        self.written(call, &room, if expected.is_ok() { text.as_bytes() } else { &[] }, account);
        self.untouched(call, case.unchanged(), account);
    }

    /// Compares the reading of a text. `rooms` are the lengths of the header, latitude and longitude slices. Answers what
    /// was read, if the text was accepted.
    pub fn read(&mut self, text: Option<&[u8]>, behind: &[u8], rooms: [Option<usize>; 3]) -> Option<Content> {
        let call = Call::Read;
        let text = Lent::content(text, behind);
        let [header, lat, lon] = rooms.map(Lent::room);
        let mut memory = GridMemory { header, lat, lon };
        let [header, lat, lon] = nulls_of(&memory);
        self.coverage.lent(call, &[header, lat, lon, text.is_null()]);
        let expected = if memory.header.len() < 6 {
            refuse(8, 6)
        } else {
            model_text::read(text.original(), memory.lat.len(), memory.lon.len())
        };
        let got = library::read(&text, &mut memory);
        let account = || format!("text {}, rooms {rooms:?}", shown(text.original()));
        let value = expected.as_ref().map(|content| content.lat.len() as u64).map_err(|&refusal| refusal);
        self.reply(call, &value, got, account);
        let (header, lat, lon) = match &expected {
            Ok(content) => (&content.header[..], &content.lat[..], &content.lon[..]),
            Err(_) => (&[][..], &[][..], &[][..]),
        };
        self.written(call, &memory.header, header, account);
        self.written(call, &memory.lat, lat, account);
        self.written(call, &memory.lon, lon, account);
        self.untouched(call, text.unchanged(), account);
        self.mark_text(text.original());
        expected.ok()
    }

    fn mark_text(&mut self, text: &[u8]) {
        let has = |part: &[u8]| text.windows(part.len()).any(|window| window == part);
        self.coverage.mark_if(text.is_empty(), "text: empty");
        if text.len() < 400 {
            self.coverage.mark_if(text.last().is_some_and(|&byte| byte != b'\n'), "text: last newline missing");
            self.coverage.mark_if(has(b"\r\n"), "text: lines ended by CR LF");
            self.coverage.mark_if(has(b"=-0\n"), "text: a -0");
        }
    }

    /// Compares the conversion of one point or, for `Call::To27`, of one figure.
    pub fn one(&mut self, call: Call, case: &Case, point: [i64; 2], room: Option<usize>) -> Reply<Answer> {
        let mut answer = Lent::room(room);
        let [header, lat, lon] = nulls_of(&case.memory);
        self.coverage.lent(call, &[header, lat, lon, answer.is_null()]);
        let way = if call == Call::To83 { TO83 } else { TO27 };
        let converted = case.grid().and_then(|grid| grid.convert(way, point));
        let fits = |numbers: Vec<i64>| if answer.len() < numbers.len() { refuse(8, numbers.len()) } else { Ok(numbers) };
        let expected = converted.and_then(|found| fits(found.numbers()));
        let got = match call {
            Call::To83 => library::to83(&case.memory, point, &mut answer),
            _ => library::to27(&case.memory, point, &mut answer),
        };
        let account = || format!("point or figure {point:?}, {}, answer {room:?}", case.account());
        self.reply(call, &expected.as_ref().map(|_| 1).map_err(|&refusal| refusal), got, account);
        self.written(call, &answer, &expected.unwrap_or_default(), account);
        self.untouched(call, case.unchanged(), account);
        match (case.grid(), way) {
            (Ok(grid), TO83) => self.mark_there(&grid, point, &converted),
            (Ok(grid), _) => self.mark_back(&grid, point, &converted),
            (Err(_), _) => (),
        }
        converted
    }

    /// Compares a batch of requests. `rooms` are the lengths of the answers and of the refusals.
    pub fn batch(&mut self, case: &Case, ways: Option<&[u8]>, points: Option<&[i64]>, rooms: [Option<usize>; 2]) {
        let requests = ways.unwrap_or(&[]).iter().zip(points.unwrap_or(&[]).chunks_exact(2));
        let converted: Vec<_> = match case.grid() {
            Ok(grid) => requests.map(|(&way, pair)| grid.convert(way, [pair[0], pair[1]])).collect(),
            Err(_) => Vec::new(),
        };
        self.batch_known(case, ways, points, rooms, &converted);
    }

    /// The same where the caller already knows what each request comes to.
    pub fn batch_known(
        &mut self,
        case: &Case,
        ways: Option<&[u8]>,
        points: Option<&[i64]>,
        rooms: [Option<usize>; 2],
        known: &[Reply<Answer>],
    ) {
        let call = Call::Convert;
        let (answers, refusals) = (Lent::room(rooms[0]), Lent::room(rooms[1]));
        let mut batch = Batch { ways: Lent::content(ways, &[]), points: Lent::content(points, &[]), answers, refusals };
        self.lent_to_batch(case, &batch);
        let expected = case.verdict.and_then(|_| self.enough(&batch));
        let (mut answers, mut marks) = (Vec::new(), Vec::new());
        if expected.is_ok() {
            // Four places for each request: a refused one leaves all of them as they were, the way back the last two.
            answers = batch.answers.original()[..4 * known.len()].to_vec();
            marks = vec![0; known.len()];
            for (k, converted) in known.iter().enumerate() {
                match converted.map(|answer| answer.numbers()) {
                    Ok(numbers) => answers[4 * k..4 * k + numbers.len()].copy_from_slice(&numbers),
                    Err(refusal) => marks[k] = refusal.number,
                }
            }
            self.mark_signs(BATCH_SIGNS, known.iter().flatten().filter_map(|answer| answer.signs));
        }
        self.mark_batch(&batch, &expected, &marks);
        let got = library::convert(&case.memory, &mut batch);
        let account =
            || format!("{}, {} ways, {} numbers, rooms {rooms:?}", case.account(), batch.ways.len(), batch.points.len());
        self.reply(call, &expected, got, account);
        self.comparisons += marks.len() as u64;
        self.name_first_difference(case, &batch, &answers, &marks);
        self.written(call, &batch.answers, &answers, account);
        self.written(call, &batch.refusals, &marks, account);
        self.untouched(call, batch.ways.unchanged() && batch.points.unchanged() && case.unchanged(), account);
    }

    fn lent_to_batch(&mut self, case: &Case, batch: &Batch) {
        let [header, lat, lon] = nulls_of(&case.memory);
        let Batch { ways, points, answers, refusals } = batch;
        let nulls = [header, lat, lon, ways.is_null(), points.is_null(), answers.is_null(), refusals.is_null()];
        self.coverage.lent(Call::Convert, &nulls);
    }

    /// Among many requests, names the one that differs rather than the whole slice.
    fn name_first_difference(&self, case: &Case, batch: &Batch, answers: &[i64], marks: &[u8]) {
        let (points, found, flags) = (batch.points.original(), batch.answers.now(), batch.refusals.now());
        if found.starts_with(answers) && flags.starts_with(marks) {
            return;
        }
        let differs = |k: &usize| found[4 * k..4 * k + 4] != answers[4 * k..4 * k + 4] || flags[*k] != marks[*k];
        if let Some(k) = (0..marks.len()).find(differs) {
            let (way, places) = (batch.ways.original()[k], 4 * k..4 * k + 4);
            let input = format!("way {way}, {:?}, request {k}, {}", &points[2 * k..2 * k + 2], case.account());
            let told = |answer: &[i64], mark: u8| format!("{answer:?} refusal {mark}");
            fail(Call::Convert, &input, &told(&answers[places.clone()], marks[k]), &told(&found[places], flags[k]));
        }
    }

    /// Whether the slices of a batch are long enough for its ways.
    fn enough(&mut self, batch: &Batch) -> Reply<u64> {
        let count = batch.ways.len();
        let (short_points, short_answers) = (batch.points.len() < 2 * count, batch.answers.len() < 4 * count);
        let short_refusals = batch.refusals.len() < count;
        self.coverage.mark_if(short_points, "batch: points too short");
        self.coverage.mark_if(short_answers && !short_points, "batch: answers too short");
        self.coverage.mark_if(short_points && short_answers, "batch: points and answers too short");
        self.coverage.mark_if(short_answers && short_refusals && !short_points, "batch: answers and refusals too short");
        self.coverage.mark_if(batch.points.len() > 2 * count, "batch: points longer than needed");
        if short_points {
            return refuse(8, 2 * count);
        }
        if short_answers {
            return refuse(8, 4 * count);
        }
        if short_refusals {
            self.coverage.mark("batch: refusals too short");
            return refuse(8, count);
        }
        Ok(count as u64)
    }

    fn mark_batch(&mut self, batch: &Batch, expected: &Reply<u64>, marks: &[u8]) {
        let ways = batch.ways.original();
        let answered = |way: u8| ways.iter().zip(marks).any(|(&asked, &mark)| asked == way && mark == 0);
        self.coverage.mark_if(answered(TO83) && answered(TO27), "batch: both ways answered");
        self.coverage.mark_if(marks.contains(&6), "batch: point refused 6");
        self.coverage.mark_if(marks.contains(&7), "batch: figure refused 7");
        for (way, mark) in [(0, "batch: way 0"), (3, "batch: way 3"), (255, "batch: way 255")] {
            self.coverage.mark_if(expected.is_ok() && ways.contains(&way), mark);
        }
        if ways.is_empty() {
            self.coverage.mark_if(expected.is_ok(), "batch: no requests");
            self.mark_refused(expected, EMPTY_BATCHES);
        }
    }

    /// Marks each sign that an answer has.
    fn mark_signs(&mut self, names: Signs, signs: impl Iterator<Item = [i64; 2]> + Clone) {
        for (component, names) in names.iter().enumerate() {
            for (sign, name) in (-1..=1).zip(names) {
                self.coverage.mark_if(signs.clone().any(|signs| signs[component] == sign), name);
            }
        }
    }

    /// Marks the check that a grid failed.
    pub fn mark_refused(&mut self, expected: &Reply<u64>, checks: [(u8, &'static str); 5]) {
        for (number, mark) in checks {
            self.coverage.mark_if(expected.is_err_and(|refusal| refusal.number == number), mark);
        }
    }

    /// Compares a list; `room_for` makes the length of the room from the number of bytes needed.
    pub fn list(&mut self, case: &Case, requests: Option<&[u8]>, behind: &[u8], room_for: impl Fn(usize) -> Option<usize>) {
        let call = Call::List;
        let requests = Lent::content(requests, behind);
        let made = case.grid().map(|grid| model_text::list(&grid, requests.original()));
        let needed = made.as_ref().map_or(100, |(text, _)| text.len());
        let mut room = Lent::room(room_for(needed));
        let [header, lat, lon] = nulls_of(&case.memory);
        self.coverage.lent(call, &[header, lat, lon, requests.is_null(), room.is_null()]);
        let expected = match &made {
            Err(refusal) => Err(*refusal),
            Ok(_) if room.len() < needed => refuse(8, needed),
            Ok(_) => Ok(needed as u64),
        };
        let got = library::list(&case.memory, &requests, &mut room);
        let account = || format!("requests {}, {}, room {}", shown(requests.original()), case.account(), room.len());
        self.reply(call, &expected, got, account);
        let front = made.as_ref().map_or("", |(text, _)| if expected.is_ok() { text } else { "" });
        if expected.is_ok() && !room.now().starts_with(front.as_bytes()) {
            fail(call, &account(), &shown(front.as_bytes()), &shown(&room.now()[..needed]));
        }
        self.written(call, &room, front.as_bytes(), account);
        self.untouched(call, requests.unchanged() && case.unchanged(), account);
        if requests.original().is_empty() {
            self.mark_refused(&expected, EMPTY_LISTS);
        }
        self.mark_signs(LIST_SIGNS, front.lines().filter_map(model_text::signs_of));
        if let Ok((_, refused)) = made {
            self.mark_list(requests.original(), refused);
        }
    }

    fn mark_list(&mut self, requests: &[u8], [form, off, none]: [usize; 3]) {
        let lines: Vec<&[u8]> = requests.split(|&byte| byte == b'\n').collect();
        self.comparisons += lines.len() as u64 - 1;
        self.coverage.mark_if(form > 0, "list: line refused 1");
        self.coverage.mark_if(off > 0, "list: line refused 6");
        self.coverage.mark_if(none > 0, "list: line refused 7");
        self.coverage.mark_if(requests.is_empty(), "list: no lines");
        self.coverage.mark_if(lines.last().is_some_and(|last| !last.is_empty()), "list: last line without newline");
        for (length, mark) in LINE_LENGTHS {
            self.coverage.mark_if(lines[..lines.len() - 1].iter().any(|line| line.len() == length), mark);
        }
        self.coverage.mark_if(lines.iter().any(|line| line.ends_with(b"\r")), "list: line ended by CR LF");
    }
}
