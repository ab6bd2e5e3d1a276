//! Converts between NAD 27 and NAD 83 in Rust: a small safe layer over the C functions, then the same steps as in the C example.
//!
//!     rustc --edition 2021 -L LIBRARY/lib convert.rs && ./convert ../bulletin/sheet.txt

type In = *const i64;
type Out = *mut i64;

// Functions of dagglehurst.h. A slice is a pointer and the number of its elements.
#[link(name = "dagglehurst", kind = "static")]
unsafe extern "C" {
    fn dagglehurst_read(text: *const u8, bytes: usize, header: Out, six: usize, lat: Out, nlat: usize, lon: Out, nlon: usize) -> u64;
    fn dagglehurst_to83(header: In, six: usize, lat: In, nlat: usize, lon: In, nlon: usize,
        north: i64, east: i64, answer: Out, four: usize) -> u64;
    fn dagglehurst_to27(header: In, six: usize, lat: In, nlat: usize, lon: In, nlon: usize,
        north: i64, east: i64, answer: Out, two: usize) -> u64;
    fn dagglehurst_convert(header: In, six: usize, lat: In, nlat: usize, lon: In, nlon: usize, ways: *const u8, nways: usize,
        points: In, npoints: usize, answers: Out, nanswers: usize, refusals: *mut u8, nrefusals: usize) -> u64;
}

/// The way to NAD 83 in dagglehurst.h; 2 is the way back.
const TO83: u8 = 1;

#[derive(Debug)]
struct Refusal { number: u8, place: u64 }

/// Takes a reply apart: its lowest byte is the number of the refusal, or 0.
fn outcome(reply: u64) -> Result<u64, Refusal> {
    match reply as u8 {
        0 => Ok(reply >> 8),
        number => Err(Refusal { number, place: reply >> 8 }),
    }
}

/// A latitude and a longitude. An array of points has them one after the other, as the library takes them.
type Point = [i64; 2];

/// A NAD 83 figure, latitude and longitude, and the two signs of its shifts, the latitude's first. A sign is read so: -1, the rounded
/// shift is below the exact one; 0, the shift is exact; 1, the rounded shift is above the exact one.
type Figure = [i64; 4];

struct Grid { header: [i64; 6], lat: Vec<i64>, lon: Vec<i64> }

// The library asks of its caller that a slice is as long as it says, and that no written slice overlaps another. References in Rust
// promise both, so these functions are safe for all arguments.
impl Grid {
    fn read(text: &[u8]) -> Result<Grid, Refusal> {
        let (mut h, mut lat, mut lon) = ([0; 6], vec![0; 2048], vec![0; 2048]); // room for every grid
        let nodes = outcome(unsafe { dagglehurst_read(text.as_ptr(), text.len(), h.as_mut_ptr(), h.len(),
            lat.as_mut_ptr(), lat.len(), lon.as_mut_ptr(), lon.len()) })?;
        lat.truncate(nodes as usize);
        lon.truncate(nodes as usize);
        Ok(Grid { header: h, lat, lon })
    }

    fn to83(&self, [north, east]: Point) -> Result<Figure, Refusal> {
        let (Grid { header: h, lat, lon }, mut to) = (self, [0; 4]);
        outcome(unsafe { dagglehurst_to83(h.as_ptr(), h.len(), lat.as_ptr(), lat.len(), lon.as_ptr(), lon.len(),
            north, east, to.as_mut_ptr(), to.len()) }).map(|_| to)
    }

    fn to27(&self, [north, east]: Point) -> Result<Point, Refusal> {
        let (Grid { header: h, lat, lon }, mut to) = (self, [0; 2]);
        outcome(unsafe { dagglehurst_to27(h.as_ptr(), h.len(), lat.as_ptr(), lat.len(), lon.as_ptr(), lon.len(),
            north, east, to.as_mut_ptr(), to.len()) }).map(|_| to)
    }

    /// One check of the grid for all points. Each has a way and a refusal of its own, or 0 and its answer. The way back leaves the
    /// signs' places as they were.
    fn convert(&self, ways: &[u8], points: &[Point], to: &mut [Figure], refusals: &mut [u8]) -> Result<u64, Refusal> {
        let (Grid { header: h, lat, lon }, p, to) = (self, points.as_flattened(), to.as_flattened_mut());
        outcome(unsafe { dagglehurst_convert(h.as_ptr(), h.len(), lat.as_ptr(), lat.len(), lon.as_ptr(), lon.len(),
            ways.as_ptr(), ways.len(), p.as_ptr(), p.len(), to.as_mut_ptr(), to.len(), refusals.as_mut_ptr(), refusals.len()) })
    }
}

fn main() -> Result<(), Refusal> {
    let file = std::env::args().nth(1).expect("usage: convert GRID");
    let text = std::fs::read_to_string(file).expect("the grid's file cannot be read");
    let grid = Grid::read(text.as_bytes())?;
    println!("grid: {} nodes", grid.lat.len());

    let [north, east, lat_sign, lon_sign] = grid.to83([118210250, -298581930])?;
    println!("mast in NAD 83: {north},{east} signs {lat_sign},{lon_sign}");
    let [lat, lon] = grid.to27([north, east])?;
    println!("mast taken back: {lat},{lon}");
    let Refusal { number, place } = grid.to27([north + 1, east]).unwrap_err();
    println!("one figure north: refusal {number}, place {place}");

    // The southwest corner, the middle of the cell, a thousandth of an arc second off the grid, the northeast corner.
    let points = [[117900000, -298800000], [118125000, -298575000], [118350001, -298350000], [118350000, -298350000]];
    let (mut answers, mut refusals) = ([[0; 4]; 4], [0; 4]);
    println!("array: {} points", grid.convert(&[TO83; 4], &points, &mut answers, &mut refusals)?);
    for (k, ([north, east, lat_sign, lon_sign], number)) in answers.iter().zip(refusals).enumerate() {
        match number {
            0 => println!("point {k}: {north},{east} signs {lat_sign},{lon_sign}"),
            _ => println!("point {k}: refusal {number}"),
        }
    }

    // A semicolon for the first comma: line 9, the first node, is no longer of its form.
    let Refusal { number, place } = Grid::read(text.replacen(',', ";", 1).as_bytes()).err().expect("a refusal");
    println!("damaged text: refusal {number}, place {place}");
    Ok(())
}
