//! Memory as it is lent to the exports, with guards on both sides.

use std::ptr;

/// The cells of a guard.
const GUARD: usize = 16;

/// Cells that are lent, and guards that nobody may write.
pub struct Lent<T> {
    cells: Vec<T>,
    guard: T,
}

impl<T: Copy + PartialEq> Lent<T> {
    pub fn new(content: &[T], guard: T) -> Lent<T> {
        let mut cells = vec![guard; GUARD];
        cells.extend_from_slice(content);
        cells.extend_from_slice(&[guard; GUARD]);
        Lent { cells, guard }
    }

    pub fn len(&self) -> usize {
        self.cells.len() - 2 * GUARD
    }

    /// The lent cells.
    pub fn content(&self) -> &[T] {
        &self.cells[GUARD..GUARD + self.len()]
    }

    /// The pointer to lend: null where there is nothing.
    pub fn pointer(&mut self) -> *mut T {
        match self.len() {
            0 => ptr::null_mut(),
            _ => self.cells[GUARD..].as_mut_ptr(),
        }
    }

    /// Whether the guards are as they were.
    pub fn is_guarded(&self) -> bool {
        let end = GUARD + self.len();
        let mut guards = self.cells[..GUARD].iter().chain(&self.cells[end..]);
        guards.all(|cell| *cell == self.guard)
    }
}
