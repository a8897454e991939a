use crate::cells::Cells;
use crate::library::{self, Handle, State};
use crate::{Cell, Color, CursorStyle, KeptRow, MouseProtocolEncoding, MouseProtocolMode};
use std::num::NonZeroU16;
use std::sync::{Mutex, MutexGuard, OnceLock, PoisonError};

/// A terminal screen, which belongs to a parser or is a copy.
///
/// Rows and columns are 0-based. Cells and strings are those of the displayed rows, which include
/// scrollback rows after a call to [`set_scrollback`](Self::set_scrollback).
pub struct Screen {
    /// A parser or a saved screen of the library. Each call to the library needs exclusive access,
    /// even one that only reads.
    handle: Mutex<Handle>,

    /// The state, if it was requested since the last change.
    state: OnceLock<State>,
    cells: Cells,
}

impl Screen {
    pub(crate) fn new(handle: Handle) -> Self {
        Self {
            handle: Mutex::new(handle),
            state: OnceLock::new(),
            cells: Cells::default(),
        }
    }

    /// Returns the handle without locking it.
    pub(crate) fn handle(&self) -> &Mutex<Handle> {
        &self.handle
    }

    /// Locks the handle, for calls that do not change the screen.
    pub(crate) fn lock(&self) -> MutexGuard<'_, Handle> {
        self.handle.lock().unwrap_or_else(PoisonError::into_inner)
    }

    /// Returns the handle, for calls that do not change the screen.
    pub(crate) fn unchanged(&mut self) -> &mut Handle {
        self.handle
            .get_mut()
            .unwrap_or_else(PoisonError::into_inner)
    }

    /// Returns the handle, for calls that change the screen.
    pub(crate) fn changed(&mut self) -> &mut Handle {
        self.state.take();
        self.cells.expire();
        self.unchanged()
    }

    pub(crate) fn state(&self) -> &State {
        self.state.get_or_init(|| self.lock().state())
    }

    /// Resizes the screen as [`Parser::set_size`](crate::Parser::set_size) does, but without
    /// invoking callbacks.
    pub fn set_size(&mut self, rows: NonZeroU16, cols: NonZeroU16) {
        self.changed().screen_set_size(rows.get(), cols.get());
    }

    /// Returns the number of rows and columns.
    #[must_use]
    pub fn size(&self) -> (NonZeroU16, NonZeroU16) {
        let state = self.state();
        let number = |count| NonZeroU16::new(count).expect("a screen has rows and columns");
        (number(state.rows), number(state.cols))
    }

    /// Returns the number of scrollback rows, which is 0 on the alternate screen.
    #[must_use]
    pub fn scrollback_len(&self) -> usize {
        self.state().scrollback_len
    }

    /// Returns the maximum number of scrollback rows, which is 0 on the alternate screen.
    #[must_use]
    pub fn scrollback_capacity(&self) -> usize {
        self.state().scrollback_capacity
    }

    /// Scrolls the display back by `rows` rows, or by all scrollback rows if there are fewer; 0
    /// displays the page itself. Does nothing on the alternate screen.
    pub fn set_scrollback(&mut self, rows: usize) {
        self.changed().set_scrollback(rows);
    }

    /// Discards the scrollback without invoking callbacks. Does nothing on the alternate screen.
    pub fn clear_scrollback(&mut self) {
        self.changed().clear_scrollback();
    }

    /// Returns the number of rows by which the display is scrolled back.
    #[must_use]
    pub fn scrollback(&self) -> usize {
        self.state().scrollback
    }

    /// Returns the row and column of the cursor. If a wrap is pending (after a character was
    /// printed in the last column), the column equals the number of columns.
    #[must_use]
    pub fn cursor_position(&self) -> (u16, u16) {
        let state = self.state();
        (state.cursor_row, state.cursor_col)
    }

    /// Returns the displayed cell at a row and column, or `None` if there is no such cell.
    #[must_use]
    pub fn cell(&self, row: u16, col: u16) -> Option<&Cell> {
        self.cells.get(self, row, col)
    }

    /// Returns whether a displayed row is wrapped (its text continues on the next row). Returns
    /// `false` if there is no such row.
    #[must_use]
    pub fn row_wrapped(&self, row: u16) -> bool {
        self.lock().row_wrapped(row)
    }

    /// Returns the row at `index` among all rows that the screen keeps, whether they are displayed or
    /// not, or `None` if there is no such row: first come the rows of scrollback, oldest first, and
    /// then those of the page.
    ///
    /// A scrollback row has a length of its own, without blank cells at its end, unless it was
    /// displayed. The display does not change. Not in the crate `vt100`.
    ///
    /// ```
    /// let size = |count| std::num::NonZeroU16::new(count).unwrap();
    /// let mut parser = vt100::Parser::new(size(1), size(9), 5);
    /// parser.process(b"first\r\nsecond");
    /// let row = parser.screen().kept_row(0).unwrap();
    /// assert_eq!((row.cells().len(), row.wrapped()), (5, false));
    /// assert_eq!(parser.screen().kept_row_contents(0).unwrap(), "first");
    /// ```
    #[must_use]
    pub fn kept_row(&self, index: usize) -> Option<KeptRow> {
        let (cells, wrapped) = self.lock().kept_row(index)?;
        Some(KeptRow::new(cells, wrapped))
    }

    /// Returns the plain text of the row at `index` among all rows that the screen keeps, up to its
    /// last character, or `None` if there is no such row. Not in the crate `vt100`.
    #[must_use]
    pub fn kept_row_contents(&self, index: usize) -> Option<String> {
        self.lock().kept_text(index)
    }

    /// Returns whether the alternate screen is active.
    #[must_use]
    pub fn alternate_screen(&self) -> bool {
        self.state().alternate_screen == 1
    }

    /// Returns whether the keypad is in application mode.
    #[must_use]
    pub fn application_keypad(&self) -> bool {
        self.state().application_keypad == 1
    }

    /// Returns whether the cursor keys are in application mode.
    #[must_use]
    pub fn application_cursor(&self) -> bool {
        self.state().application_cursor == 1
    }

    /// Returns whether the cursor is hidden.
    #[must_use]
    pub fn hide_cursor(&self) -> bool {
        self.state().hide_cursor == 1
    }

    /// Returns whether bracketed paste mode is set.
    #[must_use]
    pub fn bracketed_paste(&self) -> bool {
        self.state().bracketed_paste == 1
    }

    /// Returns the mouse events that the program has requested.
    #[must_use]
    pub fn mouse_protocol_mode(&self) -> MouseProtocolMode {
        MouseProtocolMode::of(self.state().mouse_protocol_mode)
    }

    /// Returns the encoding of mouse events.
    #[must_use]
    pub fn mouse_protocol_encoding(&self) -> MouseProtocolEncoding {
        MouseProtocolEncoding::of(self.state().mouse_protocol_encoding)
    }

    /// Returns the style of the cursor.
    #[must_use]
    pub fn cursor_style(&self) -> CursorStyle {
        CursorStyle::of(self.state().cursor_style)
    }

    /// Returns the foreground color of the next character.
    #[must_use]
    pub fn fgcolor(&self) -> Color {
        Color::of(self.state().fgcolor)
    }

    /// Returns the background color of the next character.
    #[must_use]
    pub fn bgcolor(&self) -> Color {
        Color::of(self.state().bgcolor)
    }

    /// Returns whether the next character is bold.
    #[must_use]
    pub fn bold(&self) -> bool {
        self.has(library::BOLD)
    }

    /// Returns whether the next character is dim.
    #[must_use]
    pub fn dim(&self) -> bool {
        self.has(library::DIM)
    }

    /// Returns whether the next character is italic.
    #[must_use]
    pub fn italic(&self) -> bool {
        self.has(library::ITALIC)
    }

    /// Returns whether the next character is underlined.
    #[must_use]
    pub fn underline(&self) -> bool {
        self.has(library::UNDERLINE)
    }

    /// Returns whether the foreground and background colors of the next character are swapped.
    #[must_use]
    pub fn inverse(&self) -> bool {
        self.has(library::INVERSE)
    }

    /// Returns whether the screen is steady: every displayed glyph reproduces itself when it is
    /// printed on a blank row.
    ///
    /// A terminal that reads the redraw of a steady screen, or a diff to it, displays exactly that
    /// screen. Only U+FE0F can make a screen unsteady. Not in the crate `vt100`.
    #[must_use]
    pub fn is_steady(&self) -> bool {
        self.lock().is_steady()
    }

    /// Returns a screen of the same size that displays the same content, without scrollback or the
    /// inactive page. While scrollback is displayed, the result is a clone.
    ///
    /// The copy can be the `prev` of a later [`contents_diff`](Self::contents_diff) and takes less
    /// memory than a clone. Not in the crate `vt100`.
    ///
    /// ```
    /// let mut parser = vt100::Parser::default();
    /// let prev = parser.screen().shown_copy();
    /// parser.process(b"a");
    /// assert_eq!(parser.screen().contents_diff(&prev), "a");
    /// ```
    #[must_use]
    pub fn shown_copy(&self) -> Self {
        Self::new(self.lock().shown_copy())
    }

    fn has(&self, flag: u8) -> bool {
        self.state().flags & flag != 0
    }
}

impl Clone for Screen {
    fn clone(&self) -> Self {
        Self::new(self.lock().save())
    }
}

impl std::fmt::Debug for Screen {
    fn fmt(&self, f: &mut std::fmt::Formatter<'_>) -> std::fmt::Result {
        f.debug_struct("Screen")
            .field("size", &self.size())
            .field("cursor_position", &self.cursor_position())
            .field("contents", &self.contents())
            .finish_non_exhaustive()
    }
}
