//! The list in pieces: request texts cut anywhere, with the list handed on in lent memory from call to call.

use crate::compare::{fail, nulls_of, shown, Bench, Case};
use crate::coverage::Call;
use crate::grids::{paper_q, Plain, SHIFT_LIMIT};
use crate::lent::{Element, Lent};
use crate::library::{self, ListMemory};
use crate::model::{refuse, Reply};
use crate::model_text::{self, Sitting, LINE, STATE};
use crate::random::Random;

/// No line of a list is longer.
const MAX_REPLY: usize = 53;

/// What is lent as a list: the bytes of its line, and its numbers. `None` lends NULL.
#[derive(Clone)]
pub struct Memory {
    line: Option<Vec<u8>>,
    state: Option<Vec<i64>>,
}

impl Memory {
    /// A list that no byte was fed to, with some elements more than needed; the line is whatever the memory held.
    fn fresh(more: usize) -> Memory {
        let mut state: Vec<i64> = (0..STATE + more).map(i64::filler).collect();
        state[..STATE].fill(0);
        Memory { line: Some((0..LINE + more).map(u8::filler).collect()), state: Some(state) }
    }

    fn lend(&self) -> ListMemory {
        ListMemory { line: Lent::content(self.line.as_deref(), &[]), state: Lent::content(self.state.as_deref(), &[]) }
    }
}

/// The list that lent memory is, if it is long enough.
fn sitting(list: &ListMemory) -> Reply<Sitting> {
    let (line, state) = (list.line.original(), list.state.original());
    if line.len() < LINE {
        return refuse(8, LINE);
    }
    if state.len() < STATE {
        return refuse(8, STATE);
    }
    Ok(Sitting::of(line, state))
}

/// Nothing is fed, over a grid that fails a check: refused all the same.
const EMPTY_PIECES: [(u8, &str); 5] = [
    (2, "pieces: an empty piece, refused 2"),
    (5, "pieces: an empty piece, refused 5"),
    (3, "pieces: an empty piece, refused 3"),
    (4, "pieces: an empty piece, refused 4"),
    (14, "pieces: an empty piece, refused 14"),
];
const LATER_PIECES: [(u8, &str); 5] = [
    (2, "pieces: a later piece, refused 2"),
    (5, "pieces: a later piece, refused 5"),
    (3, "pieces: a later piece, refused 3"),
    (4, "pieces: a later piece, refused 4"),
    (14, "pieces: a later piece, refused 14"),
];

/// Room for a text: its bytes, or a refusal.
fn fits(text: Reply<&str>, room: &Lent<u8>) -> Reply<u64> {
    let needed = text?.len();
    if room.len() < needed {
        refuse(8, needed)
    } else {
        Ok(needed as u64)
    }
}

impl Bench {
    /// Compares the first line of a list. Answers it.
    pub fn begin(&mut self, case: &Case, room_for: impl Fn(usize) -> Option<usize>) -> Vec<u8> {
        let call = Call::Begin;
        let text = case.verdict.map(|nodes| format!("sheet={nodes}\n"));
        let mut room = Lent::room(room_for(text.as_ref().map_or(100, String::len)));
        let [header, lat, lon] = nulls_of(&case.memory);
        self.coverage.lent(call, &[header, lat, lon, room.is_null()]);
        let expected = fits(text.as_deref().map_err(|&refusal| refusal), &room);
        let got = library::begin(&case.memory, &mut room);
        let account = || format!("{}, room {}", case.account(), room.len());
        self.reply(call, &expected, got, account);
        let front = if expected.is_ok() { text.unwrap_or_default() } else { String::new() };
        self.written(call, &room, front.as_bytes(), account);
        self.untouched(call, case.unchanged(), account);
        room.now()[..front.len()].to_vec()
    }

    /// Compares the replies to a piece. Answers them, as the library wrote them; `memory` is then what the library left there.
    pub fn feed(
        &mut self,
        case: &Case,
        memory: &mut Memory,
        piece: Option<&[u8]>,
        room_for: impl Fn(usize) -> Option<usize>,
    ) -> Reply<Vec<u8>> {
        let call = Call::Feed;
        let mut list = memory.lend();
        let piece = Lent::content(piece, b"\nto83=0,0\n");
        let fed = case.grid().and_then(|grid| {
            let mut next = sitting(&list)?;
            let text = next.feed(&grid, piece.original());
            Ok((next, text))
        });
        let mut room = Lent::room(room_for(fed.as_ref().map_or(100, |(_, text)| text.len())));
        let [header, lat, lon] = nulls_of(&case.memory);
        let nulls = [header, lat, lon, list.line.is_null(), list.state.is_null(), piece.is_null(), room.is_null()];
        self.coverage.lent(call, &nulls);
        let expected = fits(fed.as_ref().map(|(_, text)| text.as_str()).map_err(|&refusal| refusal), &room);
        self.mark_feed(case, &list, piece.original(), &expected);
        let got = library::feed(&case.memory, &mut list, &piece, &mut room);
        let account = || {
            let (line, state) = (shown(list.line.original()), list.state.original());
            format!("line {line}, numbers {state:?}, piece {}, {}, room {}", shown(piece.original()), case.account(), room.len())
        };
        self.reply(call, &expected, got, account);
        let (line, state, text) = match (&fed, &expected) {
            (Ok((next, text)), Ok(_)) => (next.line.clone(), next.state().to_vec(), text.as_str()),
            _ => (Vec::new(), Vec::new(), ""),
        };
        self.comparisons += text.matches('\n').count() as u64;
        self.written(call, &room, text.as_bytes(), account);
        self.written(call, &list.line, &line, account);
        self.written(call, &list.state, &state, account);
        self.untouched(call, piece.unchanged() && case.unchanged(), account);
        memory.line = memory.line.as_ref().map(|_| list.line.now().to_vec());
        memory.state = memory.state.as_ref().map(|_| list.state.now().to_vec());
        expected.map(|_| room.now()[..text.len()].to_vec())
    }

    fn mark_feed(&mut self, case: &Case, list: &ListMemory, piece: &[u8], expected: &Reply<u64>) {
        let (line, state) = (list.line.original(), list.state.original());
        if piece.is_empty() {
            self.coverage.mark_if(expected.is_ok(), "pieces: an empty piece");
            self.mark_refused(expected, EMPTY_PIECES);
        }
        let (short, few) = (line.len() < LINE, state.len() < STATE);
        if case.verdict.is_ok() {
            self.coverage.mark_if(short && !few, "pieces: the line too short");
            self.coverage.mark_if(few && !short, "pieces: the numbers too few");
            self.coverage.mark_if(short && few, "pieces: the line and the numbers too short");
            self.coverage.mark_if(expected.is_err() && !short && !few, "pieces: the room too short");
        }
        if expected.is_ok() {
            self.coverage.mark_if(state[0] < 0, "pieces: length below 0");
            self.coverage.mark_if(state[0] > LINE as i64, "pieces: length above 65");
            let held = &line[..state[0].clamp(0, LINE as i64) as usize];
            self.coverage.mark_if(held.contains(&b'\n'), "pieces: a newline in the line that is lent");
            let ends = piece.contains(&b'\n');
            self.coverage.mark_if(ends && state[1..STATE].contains(&i64::MAX), "pieces: a total at its greatest");
            self.coverage.mark_if(held.len() == LINE && !ends, "pieces: 65 bytes of a longer line");
        }
    }

    /// Compares the last lines of a list. Answers them.
    pub fn finish(&mut self, memory: &Memory, room_for: impl Fn(usize) -> Option<usize>) -> Vec<u8> {
        let call = Call::Finish;
        let list = memory.lend();
        let text = sitting(&list).map(|last| last.finish());
        let mut room = Lent::room(room_for(text.as_ref().map_or(100, String::len)));
        self.coverage.lent(call, &[list.line.is_null(), list.state.is_null(), room.is_null()]);
        let expected = fits(text.as_deref().map_err(|&refusal| refusal), &room);
        let got = library::finish(&list, &mut room);
        let account = || {
            let (line, state) = (shown(list.line.original()), list.state.original());
            format!("line {line}, numbers {state:?}, room {}", room.len())
        };
        self.reply(call, &expected, got, account);
        let front = if expected.is_ok() { text.unwrap_or_default() } else { String::new() };
        self.written(call, &room, front.as_bytes(), account);
        self.untouched(call, list.line.unchanged() && list.state.unchanged(), account);
        room.now()[..front.len()].to_vec()
    }
}

/// A whole sitting, piece by piece. What was written, joined, is the second implementation's list, and the library's own.
fn sit(bench: &mut Bench, case: &Case, pieces: &[&[u8]], more: usize) {
    let Ok(grid) = case.grid() else { return };
    let requests = pieces.concat();
    let mut memory = Memory::fresh(more);
    let mut joined = bench.begin(case, |needed| Some(needed + more));
    let mut parts = 0;
    for &piece in pieces {
        joined.extend(bench.feed(case, &mut memory, Some(piece), |needed| Some(needed + more)).unwrap_or_default());
        parts += usize::from(!piece.is_empty());
        bench.coverage.mark_if(parts == 3, "pieces: a line in three pieces");
        if piece.contains(&b'\n') {
            parts = usize::from(!piece.ends_with(b"\n"));
        }
    }
    joined.extend(bench.finish(&memory, |needed| Some(needed + more)));
    let whole = model_text::list(&grid, &requests).0;
    if joined != whole.as_bytes() {
        fail(Call::Feed, &format!("pieces of {}", shown(&requests)), &shown(whole.as_bytes()), &shown(&joined));
    }
    bench.list(case, Some(&requests), b"", Some);
    bench.coverage.mark("pieces: joined, they are the whole list");
    let ended = requests.last().map_or(true, |&byte| byte == b'\n');
    bench.coverage.mark_if(!ended, "pieces: last line without newline");
}

/// A text cut at random places; some pieces are empty.
fn cut<'a>(random: &mut Random, text: &'a [u8]) -> Vec<&'a [u8]> {
    let count = random.pick(&[0, 1, 2, 5, 20]);
    let mut places: Vec<usize> = (0..count).map(|_| random.below(text.len() + 1)).collect();
    places.extend([0, text.len()]);
    places.sort_unstable();
    places.windows(2).map(|pair| &text[pair[0]..pair[1]]).collect()
}

/// Request lines cut at random, and now and then at every byte.
pub fn compare(bench: &mut Bench, random: &mut Random, case: &Case, requests: &[u8]) {
    let pieces = cut(random, requests);
    let more = random.below(3);
    sit(bench, case, &pieces, more);
    if random.once_in(50) {
        let bytes: Vec<&[u8]> = requests.chunks(1).collect();
        sit(bench, case, &bytes, more);
        bench.coverage.mark_if(bytes.len() > 2, "pieces: every byte a piece");
    }
    refused_between(bench, random, case, &pieces);
}

/// A room that is too short refuses a piece and leaves the list where it was: the same piece is then fed again, with the room that the
/// C header says is always enough.
fn refused_between(bench: &mut Bench, random: &mut Random, case: &Case, pieces: &[&[u8]]) {
    let mut memory = Memory::fresh(1);
    for piece in pieces {
        let choice = random.below(3);
        let short = |needed: usize| [Some(needed / 2), None, Some(needed.saturating_sub(1))][choice];
        let _ = bench.feed(case, &mut memory, Some(piece), short);
        let enough = MAX_REPLY * piece.len();
        if bench.feed(case, &mut memory, Some(piece), |_| Some(enough)).is_err() {
            fail(Call::Feed, &shown(piece), &format!("an answer in {enough} bytes"), "a refusal");
        }
    }
    bench.finish(&memory, |needed| Some(needed - 1));
}

/// A call of each function, over a grid that may be refused. The list's memory and the room are often too short as well.
pub fn every_call(bench: &mut Bench, random: &mut Random, case: &Case) {
    let mut memory = Memory::fresh(random.below(2));
    if random.once_in(3) {
        memory.line = random.pick(&[None, Some(0), Some(LINE - 1)]).map(|length| vec![b't'; length]);
    }
    if random.once_in(3) {
        memory.state = random.pick(&[None, Some(0), Some(STATE - 1)]).map(|length| vec![0; length]);
    }
    let choice = random.below(5);
    let room = |needed: usize| [Some(needed), Some(needed + 2), Some(needed.saturating_sub(1)), Some(0), None][choice];
    bench.begin(case, room);
    let _ = bench.feed(case, &mut memory, Some(b""), room);
    let _ = bench.feed(case, &mut memory, Some(b"to83=0,0\nto27=0,0\nto83"), room);
    let _ = bench.feed(case, &mut memory, None, room);
    bench.finish(&memory, room);
}

/// Sheet Q spoilt for each check, under a list that a first piece was fed to on the sheet as it is. Every piece is put to the checks.
pub fn spoilt_behind_a_piece(bench: &mut Bench) {
    let q = paper_q();
    let good = Case::of(&q.header, &q.lat, &q.lon);
    let spoilt = [
        Plain { header: vec![0, 0, 1_000, 1_000, 2, 1], ..q.clone() },
        Plain { lat: vec![0, 1, 0], ..q.clone() },
        Plain { lon: vec![0, SHIFT_LIMIT + 1, 0, -1], ..q.clone() },
        Plain { lon: vec![0, 90_000, 0, 90_000], ..q.clone() },
        Plain { lat: vec![0, 1_563, 0, 0], ..q.clone() },
    ];
    for ((number, mark), Plain { header, lat, lon }) in LATER_PIECES.into_iter().zip(&spoilt) {
        let case = Case::of(header, lat, lon);
        let mut memory = Memory::fresh(2);
        let _ = bench.feed(&good, &mut memory, Some(b"to83=0,499\nto83=0,5"), Some);
        for piece in [&b""[..], b"00\n", b"to83=0,500\n", b"\nto83=0,500\n"] {
            for room in [Some(100), Some(0), None] {
                match bench.feed(&case, &mut memory, Some(piece), |_| room) {
                    Err(refusal) if refusal.number == number => bench.coverage.mark(mark),
                    other => fail(
                        Call::Feed,
                        "sheet Q spoilt behind a first piece",
                        &format!("refusal {number}"),
                        &format!("{other:?}"),
                    ),
                }
            }
        }
        let answer = bench.feed(&good, &mut memory, Some(b"00\n"), Some);
        if answer.as_deref() != Ok(b"ok83=0,50000,-1,1\n") {
            fail(Call::Feed, "sheet Q again, as it is", "the line's answer", &format!("{answer:?}"));
        }
        bench.finish(&memory, Some);
    }
    bench.coverage.mark("pieces: the paper's sheet made too steep behind a first piece");
}

/// Slices of every length around the one needed, and NULL.
pub fn slices(bench: &mut Bench, plain: &Plain) {
    let case = Case::of(&plain.header, &plain.lat, &plain.lon);
    let lines = [None, Some(0), Some(1), Some(LINE - 1), Some(LINE), Some(LINE + 1), Some(2 * LINE)];
    let states = [None, Some(0), Some(1), Some(STATE - 1), Some(STATE), Some(STATE + 1)];
    let start = b"to27=0,0";
    for (line, state) in lines.into_iter().flat_map(|line| states.map(|state| (line, state))) {
        let at = |k: usize| start.get(k).copied().unwrap_or_else(|| u8::filler(k));
        let number = |k: usize| [start.len() as i64, 3, 4].get(k).copied().unwrap_or_else(|| i64::filler(k));
        let lent = Memory { line: line.map(|n| (0..n).map(at).collect()), state: state.map(|n| (0..n).map(number).collect()) };
        for piece in [None, Some(&b""[..]), Some(b"\n"), Some(b"0\nto83=1")] {
            for room in std::iter::once(None).chain((0..12).map(Some)) {
                let _ = bench.feed(&case, &mut lent.clone(), piece, |_| room);
            }
        }
        for room in std::iter::once(None).chain((0..20).map(Some)) {
            bench.finish(&lent, |_| room);
        }
    }
    for room in std::iter::once(None).chain((0..12).map(Some)) {
        bench.begin(&case, |_| room);
    }
}

/// Memory that no call has left: any length, any totals, any bytes in the line.
pub fn damaged(bench: &mut Bench, random: &mut Random, plain: &Plain, count: usize) {
    let case = Case::of(&plain.header, &plain.lat, &plain.lon);
    let valid = format!("to83={},{}\n", plain.header[0], plain.header[1]);
    for _ in 0..count {
        let length = random.pick(&[i64::MIN, -1, 0, 1, 5, 25, 64, 65, 66, 1 << 32, (1 << 32) + 3, i64::MAX]);
        let totals = [0, -1, 7, i64::MAX - 1, i64::MAX, i64::MIN];
        let state = vec![length, random.pick(&totals), random.pick(&totals)];
        let mut line: Vec<u8> = valid.bytes().cycle().take(LINE + random.below(3)).collect();
        if random.once_in(2) {
            line.rotate_left(random.below(LINE));
        }
        let mut memory = Memory { line: Some(line), state: Some(state) };
        let place = random.below(valid.len() + 1);
        for piece in [&valid.as_bytes()[place..], b"\n\n", b"", valid.as_bytes()] {
            let _ = bench.feed(&case, &mut memory, Some(piece), Some);
            bench.finish(&memory, Some);
        }
    }
}
