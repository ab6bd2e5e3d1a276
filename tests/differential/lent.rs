//! Memory lent to the library, with guard elements before and behind it, so that a write outside the slice is seen.

use std::fmt::Debug;

const GUARD: usize = 8;

/// Elements that are recognised again. Each place has its own, so that a moved element is seen too.
pub trait Element: Copy + PartialEq + Debug {
    fn filler(place: usize) -> Self;
}

impl Element for i64 {
    /// Beyond every limit of a grid, so that a number read outside its slice shows in the answer.
    fn filler(place: usize) -> i64 {
        7_000_000_000_000 + 1_001 * place as i64
    }
}

impl Element for u8 {
    fn filler(place: usize) -> u8 {
        (place as u8).wrapping_mul(151) ^ 0xa5
    }
}

pub struct Lent<T> {
    cells: Vec<T>,
    before: Vec<T>,
    length: usize,
    null: bool,
}

impl<T: Element> Lent<T> {
    /// A slice to be read; `None` lends NULL with no elements. `behind` follows its end directly: where a slice was cut short,
    /// the part that was cut off stands there, and reading on would find it.
    pub fn content(content: Option<&[T]>, behind: &[T]) -> Lent<T> {
        let inside = content.unwrap_or(&[]);
        let mut cells: Vec<T> = (0..GUARD).map(T::filler).collect();
        cells.extend_from_slice(inside);
        cells.extend_from_slice(behind);
        let used = cells.len();
        cells.extend((used..used + GUARD).map(T::filler));
        Lent { before: cells.clone(), cells, length: inside.len(), null: content.is_none() }
    }

    /// A slice to be written; `None` lends NULL with no elements.
    pub fn room(length: Option<usize>) -> Lent<T> {
        let count = length.unwrap_or(0);
        let cells: Vec<T> = (0..count + 2 * GUARD).map(T::filler).collect();
        Lent { before: cells.clone(), cells, length: count, null: length.is_none() }
    }

    pub fn len(&self) -> usize {
        self.length
    }

    pub fn is_null(&self) -> bool {
        self.null
    }

    /// What the slice held when it was lent.
    pub fn original(&self) -> &[T] {
        &self.before[GUARD..GUARD + self.length]
    }

    /// What the slice holds now.
    pub fn now(&self) -> &[T] {
        &self.cells[GUARD..GUARD + self.length]
    }

    pub fn pointer(&self) -> *const T {
        if self.null {
            std::ptr::null()
        } else {
            self.cells[GUARD..].as_ptr()
        }
    }

    pub fn pointer_mut(&mut self) -> *mut T {
        if self.null {
            std::ptr::null_mut()
        } else {
            self.cells[GUARD..].as_mut_ptr()
        }
    }

    /// Whether the slice and its guards hold what they held.
    pub fn unchanged(&self) -> bool {
        self.cells == self.before
    }

    /// The first place where `holds` fails, counted from the start of the slice, with what should be there and what is.
    pub fn first_difference(&self, front: &[T]) -> Option<(isize, T, T)> {
        let mut expected = self.before.clone();
        let end = (GUARD + front.len()).min(expected.len());
        expected[GUARD..end].copy_from_slice(&front[..end - GUARD]);
        let place = (0..expected.len()).find(|&k| expected[k] != self.cells[k])?;
        Some((place as isize - GUARD as isize, expected[place], self.cells[place]))
    }

    /// Whether the slice begins with `front` and all else, the guards included, holds what it held.
    pub fn holds(&self, front: &[T]) -> bool {
        let end = GUARD + front.len();
        front.len() <= self.length
            && self.cells[..GUARD] == self.before[..GUARD]
            && self.cells[GUARD..end] == *front
            && self.cells[end..] == self.before[end..]
    }
}
