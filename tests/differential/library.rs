//! The functions of the library under test, called with lent memory.

use crate::lent::Lent;

/// A grid in lent memory: header, latitude shifts, longitude shifts.
pub struct GridMemory {
    pub header: Lent<i64>,
    pub lat: Lent<i64>,
    pub lon: Lent<i64>,
}

type Numbers = *const i64;
type NumbersOut = *mut i64;
type Bytes = *const u8;
type BytesOut = *mut u8;

// The arguments are those of the C header, in its order: a pointer and the number of its elements for each slice.
#[rustfmt::skip]
extern "C" {
    fn dagglehurst_read(
        text: Bytes, text_length: usize,
        header: NumbersOut, header_length: usize, lat: NumbersOut, lat_length: usize, lon: NumbersOut, lon_length: usize,
    ) -> u64;
    fn dagglehurst_write(
        header: Numbers, header_length: usize, lat: Numbers, lat_length: usize, lon: Numbers, lon_length: usize,
        room: BytesOut, room_length: usize,
    ) -> u64;
    fn dagglehurst_check(
        header: Numbers, header_length: usize, lat: Numbers, lat_length: usize, lon: Numbers, lon_length: usize,
    ) -> u64;
    fn dagglehurst_to83(
        header: Numbers, header_length: usize, lat: Numbers, lat_length: usize, lon: Numbers, lon_length: usize,
        north: i64, east: i64, answer: NumbersOut, answer_length: usize,
    ) -> u64;
    fn dagglehurst_to27(
        header: Numbers, header_length: usize, lat: Numbers, lat_length: usize, lon: Numbers, lon_length: usize,
        north: i64, east: i64, answer: NumbersOut, answer_length: usize,
    ) -> u64;
    fn dagglehurst_convert(
        header: Numbers, header_length: usize, lat: Numbers, lat_length: usize, lon: Numbers, lon_length: usize,
        ways: Bytes, ways_length: usize, points: Numbers, points_length: usize,
        answers: NumbersOut, answers_length: usize, refusals: BytesOut, refusals_length: usize,
    ) -> u64;
    fn dagglehurst_list(
        header: Numbers, header_length: usize, lat: Numbers, lat_length: usize, lon: Numbers, lon_length: usize,
        requests: Bytes, requests_length: usize, room: BytesOut, room_length: usize,
    ) -> u64;
    fn dagglehurst_begin(
        header: Numbers, header_length: usize, lat: Numbers, lat_length: usize, lon: Numbers, lon_length: usize,
        room: BytesOut, room_length: usize,
    ) -> u64;
    fn dagglehurst_feed(
        header: Numbers, header_length: usize, lat: Numbers, lat_length: usize, lon: Numbers, lon_length: usize,
        line: BytesOut, line_length: usize, state: NumbersOut, state_length: usize,
        piece: Bytes, piece_length: usize, room: BytesOut, room_length: usize,
    ) -> u64;
    fn dagglehurst_finish(
        line: Bytes, line_length: usize, state: Numbers, state_length: usize, room: BytesOut, room_length: usize,
    ) -> u64;
}

// Each pointer below belongs to a `Lent` that has the stated number of elements and lives until the call returns; the slices of
// one call are separate allocations. That is all that the library asks for.

/// Calls a function whose first six arguments are a grid.
macro_rules! call_with_grid {
    ($function:ident, $grid:expr $(, $more:expr)*) => {
        unsafe {
            $function(
                $grid.header.pointer(), $grid.header.len(),
                $grid.lat.pointer(), $grid.lat.len(),
                $grid.lon.pointer(), $grid.lon.len()
                $(, $more)*
            )
        }
    };
}

pub fn check(grid: &GridMemory) -> u64 {
    call_with_grid!(dagglehurst_check, grid)
}

pub fn write(grid: &GridMemory, room: &mut Lent<u8>) -> u64 {
    call_with_grid!(dagglehurst_write, grid, room.pointer_mut(), room.len())
}

pub fn list(grid: &GridMemory, requests: &Lent<u8>, room: &mut Lent<u8>) -> u64 {
    call_with_grid!(dagglehurst_list, grid, requests.pointer(), requests.len(), room.pointer_mut(), room.len())
}

/// A list that is under way: its line and its numbers.
pub struct ListMemory {
    pub line: Lent<u8>,
    pub state: Lent<i64>,
}

pub fn begin(grid: &GridMemory, room: &mut Lent<u8>) -> u64 {
    call_with_grid!(dagglehurst_begin, grid, room.pointer_mut(), room.len())
}

pub fn feed(grid: &GridMemory, list: &mut ListMemory, piece: &Lent<u8>, room: &mut Lent<u8>) -> u64 {
    let ListMemory { line, state } = list;
    let (line_out, state_out) = (line.pointer_mut(), state.pointer_mut());
    call_with_grid!(
        dagglehurst_feed,
        grid,
        line_out,
        line.len(),
        state_out,
        state.len(),
        piece.pointer(),
        piece.len(),
        room.pointer_mut(),
        room.len()
    )
}

pub fn finish(list: &ListMemory, room: &mut Lent<u8>) -> u64 {
    let ListMemory { line, state } = list;
    let (out, length) = (room.pointer_mut(), room.len());
    unsafe { dagglehurst_finish(line.pointer(), line.len(), state.pointer(), state.len(), out, length) }
}

pub fn to83(grid: &GridMemory, point: [i64; 2], answer: &mut Lent<i64>) -> u64 {
    call_with_grid!(dagglehurst_to83, grid, point[0], point[1], answer.pointer_mut(), answer.len())
}

pub fn to27(grid: &GridMemory, figure: [i64; 2], answer: &mut Lent<i64>) -> u64 {
    call_with_grid!(dagglehurst_to27, grid, figure[0], figure[1], answer.pointer_mut(), answer.len())
}

/// The slices of a batch.
pub struct Batch {
    pub ways: Lent<u8>,
    pub points: Lent<i64>,
    pub answers: Lent<i64>,
    pub refusals: Lent<u8>,
}

pub fn convert(grid: &GridMemory, batch: &mut Batch) -> u64 {
    let Batch { ways, points, answers, refusals } = batch;
    let (ways, ways_length, points, points_length) = (ways.pointer(), ways.len(), points.pointer(), points.len());
    let (out, marks) = (answers.pointer_mut(), refusals.pointer_mut());
    call_with_grid!(
        dagglehurst_convert,
        grid,
        ways,
        ways_length,
        points,
        points_length,
        out,
        answers.len(),
        marks,
        refusals.len()
    )
}

/// Reads into a grid's memory, which is written here.
pub fn read(text: &Lent<u8>, into: &mut GridMemory) -> u64 {
    let GridMemory { header, lat, lon } = into;
    let (header_out, lat_out, lon_out) = (header.pointer_mut(), lat.pointer_mut(), lon.pointer_mut());
    unsafe { dagglehurst_read(text.pointer(), text.len(), header_out, header.len(), lat_out, lat.len(), lon_out, lon.len()) }
}
