//! Longitudes as places on a circle, each of them named by one number. A number outside the range names no place.

/// A circle whose places are named from `first`, the 180th meridian, to `last`, the place just west of it.
pub struct Circle {
    pub first: i64,
    pub last: i64,
}

/// NAD 27 longitudes, in thousandths of an arc second.
pub const CIRCLE27: Circle = Circle { first: -648_000_000, last: 647_999_999 };
/// NAD 83 longitudes, in hundred-thousandths.
pub const CIRCLE83: Circle = Circle { first: -64_800_000_000, last: 64_799_999_999 };

impl Circle {
    pub fn has(&self, number: impl Into<i128>) -> bool {
        (self.first.into()..=self.last.into()).contains(&number.into())
    }

    /// A whole turn: as many as there are names.
    pub fn turn(&self) -> i64 {
        self.last - self.first + 1
    }

    /// How far a place lies eastward from another: less than a whole turn.
    pub fn eastward(&self, from: i128, to: i128) -> i128 {
        (to - from).rem_euclid(self.turn().into())
    }

    /// How far a place lies eastward from another, below zero where the way westward is the shorter one.
    pub fn nearer_way(&self, from: i128, to: i128) -> i128 {
        let (turn, east) = (self.turn().into(), self.eastward(from, to));
        if 2 * east < turn {
            east
        } else {
            east - turn
        }
    }

    /// The name of the place that one comes to by counting on from a name, past an end of the range too.
    pub fn name(&self, counted: impl Into<i128>) -> i64 {
        (i128::from(self.first) + self.eastward(self.first.into(), counted.into())) as i64
    }
}
