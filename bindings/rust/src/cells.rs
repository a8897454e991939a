//! The cells of a screen that were requested since it last changed.

use crate::changes::Changes;
use crate::{Cell, Screen};
use std::sync::{Mutex, MutexGuard, OnceLock, PoisonError};

/// The cells of one screen that were requested since the screen last changed.
///
/// The first cell requested from each row is fetched individually, since many programs look at only
/// a few cells after each change. A request for another cell of the row fetches the whole row. Rows
/// that a change is found to have left as they were are not fetched again.
#[derive(Default)]
pub struct Cells {
    first: OnceLock<(u16, Single)>,
    rows: OnceLock<Vec<Row>>,

    /// The rows before the last change, until rows are requested again.
    expired: Mutex<Vec<Row>>,
    changes: Mutex<Changes>,
}

/// A cell that was fetched individually.
struct Single {
    col: u16,
    cell: Option<Cell>,
}

/// A displayed row.
#[derive(Default)]
struct Row {
    whole: OnceLock<Whole>,
    first: OnceLock<Single>,

    /// The cells before the last change, or memory for them.
    kept: Mutex<Vec<Cell>>,

    /// Whether the cells in `kept` are also those after the last change.
    is_kept: bool,
}

/// All cells of a row.
struct Whole {
    cells: Vec<Cell>,

    /// The column of the cell that had been fetched individually, if one had. References to that
    /// cell do not point into `cells`.
    first_col: Option<u16>,
}

impl Cells {
    /// Records that the screen changes.
    pub fn expire(&mut self) {
        self.first.take();
        if let Some(rows) = self.rows.take() {
            *unlocked(&mut self.expired) = rows;
        }
    }

    /// Returns the cell of `screen` at a position, or `None` if there is none.
    pub fn get(&self, screen: &Screen, row: u16, col: u16) -> Option<&Cell> {
        if let Some(whole) = self.whole(row) {
            if whole.first_col != Some(col) {
                return whole.cells.get(usize::from(col));
            }
        }
        self.request(screen, row, col)
    }

    /// Returns the row at an index if all its cells were fetched.
    fn whole(&self, row: u16) -> Option<&Whole> {
        self.rows.get()?.get(usize::from(row))?.whole.get()
    }

    /// Returns a cell as [`get`](Self::get) does, which may be one that was fetched individually.
    fn request(&self, screen: &Screen, row: u16, col: u16) -> Option<&Cell> {
        let fetch = || Single::fetch(screen, row, col);
        let (first_row, first) = self.first.get_or_init(|| (row, fetch()));
        if row == *first_row {
            if col == first.col {
                return first.cell.as_ref();
            }
            let cells = self.rows(screen).get(usize::from(row))?;
            return cells.whole(screen, row, Some(first)).get(usize::from(col));
        }
        let cells = self.rows(screen).get(usize::from(row))?;
        if cells.is_kept {
            return cells.whole(screen, row, None).get(usize::from(col));
        }
        let first = cells.first.get_or_init(fetch);
        if col == first.col {
            return first.cell.as_ref();
        }
        cells.whole(screen, row, Some(first)).get(usize::from(col))
    }

    /// Returns the rows of `screen`, after finding out which rows the last change has left as they
    /// were if most of them were requested before it.
    fn rows(&self, screen: &Screen) -> &[Row] {
        self.rows.get_or_init(|| {
            let mut rows = std::mem::take(&mut *locked(&self.expired));
            let read = rows.iter().filter(|row| row.whole.get().is_some()).count();
            let are_most_read = 2 * read > rows.len();
            let unchanged = locked(&self.changes).unchanged_rows(screen, are_most_read);
            rows.resize_with(usize::from(screen.state().rows), Row::default);
            for (index, row) in rows.iter_mut().enumerate() {
                row.expire(unchanged.get(index) == Some(&true));
            }
            rows
        })
    }
}

impl Row {
    /// Prepares the row for requests after a change of the screen.
    fn expire(&mut self, is_unchanged: bool) {
        self.first.take();
        if let Some(whole) = self.whole.take() {
            *unlocked(&mut self.kept) = whole.cells;
            self.is_kept = true;
        }
        self.is_kept &= is_unchanged;
    }

    /// Returns all cells of the row, which is `row` of `screen`, and of which the cell `first` may
    /// have been fetched.
    fn whole(&self, screen: &Screen, row: u16, first: Option<&Single>) -> &[Cell] {
        let whole = self.whole.get_or_init(|| {
            let mut cells = std::mem::take(&mut *locked(&self.kept));
            if !self.is_kept {
                fetch_row(screen, row, &mut cells);
            }
            let first_col = first.map(|first| first.col);
            Whole { cells, first_col }
        });
        &whole.cells
    }
}

impl Single {
    fn fetch(screen: &Screen, row: u16, col: u16) -> Self {
        let cell = screen.lock().cell(row, col).map(Cell::new);
        Self { col, cell }
    }
}

/// Replaces `cells` with all cells of a row. A scrollback row may have more or fewer cells than the
/// screen has columns.
fn fetch_row(screen: &Screen, row: u16, cells: &mut Vec<Cell>) {
    let state = *screen.state();
    let mut handle = screen.lock();
    if usize::from(row) >= state.scrollback {
        cells.resize(usize::from(state.cols), Cell::blank());
        handle.read_cells(row, cells);
        return;
    }
    let fetched = (0..=u16::MAX).map_while(|col| handle.cell(row, col));
    cells.clear();
    cells.extend(fetched.map(Cell::new));
}

fn locked<T>(mutex: &Mutex<T>) -> MutexGuard<'_, T> {
    mutex.lock().unwrap_or_else(PoisonError::into_inner)
}

fn unlocked<T>(mutex: &mut Mutex<T>) -> &mut T {
    mutex.get_mut().unwrap_or_else(PoisonError::into_inner)
}
