use crate::Cell;

/// A row that a screen keeps, displayed or not, returned by
/// [`Screen::kept_row`](crate::Screen::kept_row). Not in the crate `vt100`.
#[derive(Clone, Debug, Eq, PartialEq)]
pub struct KeptRow {
    cells: Vec<Cell>,
    wrapped: bool,
}

impl KeptRow {
    pub(crate) fn new(cells: Vec<Cell>, wrapped: bool) -> Self {
        Self { cells, wrapped }
    }

    /// Returns the cells, from left to right.
    #[must_use]
    pub fn cells(&self) -> &[Cell] {
        &self.cells
    }

    /// Returns whether the row is wrapped (its text continues on the next row).
    #[must_use]
    pub fn wrapped(&self) -> bool {
        self.wrapped
    }
}
