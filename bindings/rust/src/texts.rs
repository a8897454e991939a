//! The text of a screen, and its redraws and diffs as strings.

use crate::capture::BasicFormattedCaptureRange;
use crate::library::{Difference, DifferenceWith, Handle, RowTexts, Text, TextWith};
use crate::options::{DiffOptions, RedrawOptions};
use crate::Screen;
use std::fmt;

impl Screen {
    /// Returns the plain text of the displayed rows. Each row is followed by a newline, unless it
    /// is wrapped and the next row has text. Newlines at the end are omitted.
    #[must_use]
    pub fn contents(&self) -> String {
        self.lock().text(Text::CONTENTS)
    }

    /// Returns the plain text of each displayed row in `width` columns from column `start` on.
    pub fn rows(&self, start: u16, width: u16) -> impl Iterator<Item = String> + '_ {
        let rows = self.state().rows;
        self.lock()
            .rows(RowTexts::PLAIN, start, width, rows)
            .into_iter()
    }

    /// Returns the plain text from one position up to but excluding another, which is empty if the
    /// end is before the start. Each row except the last is followed by a newline, unless it is
    /// wrapped.
    ///
    /// # Panics
    ///
    /// Panics if the range has more than one row and `start_col` is greater than the number of
    /// columns.
    #[must_use]
    pub fn contents_between(
        &self,
        start_row: u16,
        start_col: u16,
        end_row: u16,
        end_col: u16,
    ) -> String {
        self.lock()
            .between((start_row, start_col), (end_row, end_col))
    }

    /// Returns the escape sequences that redraw the screen and set the input modes:
    /// [`contents_formatted`](Self::contents_formatted) followed by
    /// [`input_mode_formatted`](Self::input_mode_formatted).
    #[must_use]
    pub fn state_formatted(&self) -> String {
        self.lock().text(Text::STATE)
    }

    /// Returns the escape sequences that turn the display and the input modes of `prev` into those
    /// of `self`: [`contents_diff`](Self::contents_diff) followed by
    /// [`input_mode_diff`](Self::input_mode_diff).
    #[must_use]
    pub fn state_diff(&self, prev: &Self) -> String {
        self.difference(prev, Difference::STATE)
            .unwrap_or_else(|| self.contents_formatted() + &self.input_mode_diff(prev))
    }

    /// Returns a redraw: the escape sequences that make any plain terminal of this size display the
    /// screen.
    ///
    /// A terminal is plain if its scroll region is the whole page, origin mode is off, no
    /// scrollback is displayed and no sequence is unfinished; every new terminal is plain. If this
    /// screen is steady (see [`is_steady`](Self::is_steady)), the terminal then displays exactly
    /// this screen.
    #[must_use]
    pub fn contents_formatted(&self) -> String {
        self.lock().text(Text::FORMATTED)
    }

    /// Returns the text of the displayed rows with SGR sequences for colors and attributes, and
    /// without other escape sequences. Each row ends with a newline, unless it is wrapped or is the
    /// last one.
    #[must_use]
    pub fn contents_formatted_basic(&self) -> String {
        self.lock().text(Text::BASIC)
    }

    /// Writes rows in the form of [`contents_formatted_basic`](Self::contents_formatted_basic): the
    /// displayed rows, or all rows as the continuation of a capture.
    ///
    /// # Errors
    ///
    /// Returns an error if the writer fails. The state of the capture is then as if all rows had
    /// been written.
    pub fn write_contents_formatted_basic(
        &self,
        writer: &mut impl fmt::Write,
        range: BasicFormattedCaptureRange<'_>,
    ) -> fmt::Result {
        let text = match range {
            BasicFormattedCaptureRange::Visible => self.contents_formatted_basic(),
            BasicFormattedCaptureRange::Full(state) => self.lock().capture_screen(state.handle()),
        };
        writer.write_str(&text)
    }

    /// Returns the escape sequences that draw each row, in `width` columns from column `start` on,
    /// on a blank row of a plain terminal.
    ///
    /// Before the terminal reads the output of a row, it must have default attributes and its
    /// cursor in column `start` of that row; the final position of the cursor is unspecified.
    /// Neither end of the range may split a wide character. If `start` is not a column of the
    /// screen, all strings are empty.
    pub fn rows_formatted(&self, start: u16, width: u16) -> impl Iterator<Item = String> + '_ {
        let (rows, cols) = (self.state().rows, self.state().cols);
        let texts = if start < cols {
            self.lock().rows(RowTexts::FORMATTED, start, width, rows)
        } else {
            vec![String::new(); usize::from(rows)]
        };
        texts.into_iter()
    }

    /// Returns a diff: the escape sequences that turn the display of `prev` on a plain terminal
    /// into the display of `self`. If the sizes differ, returns the redraw instead.
    #[must_use]
    pub fn contents_diff(&self, prev: &Self) -> String {
        self.difference(prev, Difference::CONTENTS)
            .unwrap_or_else(|| self.contents_formatted())
    }

    /// Returns a diff that may begin by moving rows or columns, and is never longer than that of
    /// [`contents_diff`](Self::contents_diff), or than the redraw. If the sizes differ, returns the
    /// redraw instead. The output may contain LF, HT and BS: the tty must not translate output, and
    /// the tab stops must be at every eighth column. Not in the crate `vt100`.
    #[must_use]
    pub fn contents_diff_scrolling(&self, prev: &Self) -> String {
        self.difference(prev, Difference::SCROLLING)
            .unwrap_or_else(|| self.contents_formatted())
    }

    /// Returns the redraw of [`contents_formatted`](Self::contents_formatted), or its portable form.
    /// Not in the crate `vt100`.
    #[must_use]
    pub fn contents_formatted_with(&self, options: RedrawOptions) -> String {
        self.lock().text_with(TextWith::FORMATTED, options)
    }

    /// Returns a diff with options, which is never longer than that of
    /// [`contents_diff`](Self::contents_diff) or, if it is portable, than its portable form. If the
    /// sizes differ, returns the redraw instead, which is portable if the diff must be. Not in the
    /// crate `vt100`.
    #[must_use]
    pub fn contents_diff_with(&self, prev: &Self, options: DiffOptions) -> String {
        self.difference_with(prev, DifferenceWith::CONTENTS, options)
            .unwrap_or_else(|| self.contents_formatted_with(options.of_redraw()))
    }

    /// Returns the escape sequences that redraw the screen and set the input modes:
    /// [`contents_formatted_with`](Self::contents_formatted_with) followed by
    /// [`input_mode_formatted`](Self::input_mode_formatted). Not in the crate `vt100`.
    #[must_use]
    pub fn state_formatted_with(&self, options: RedrawOptions) -> String {
        self.lock().text_with(TextWith::STATE, options)
    }

    /// Returns the escape sequences that turn the display and the input modes of `prev` into those
    /// of `self`: [`contents_diff_with`](Self::contents_diff_with) followed by
    /// [`input_mode_diff`](Self::input_mode_diff). Not in the crate `vt100`.
    #[must_use]
    pub fn state_diff_with(&self, prev: &Self, options: DiffOptions) -> String {
        self.difference_with(prev, DifferenceWith::STATE, options)
            .unwrap_or_else(|| {
                self.contents_formatted_with(options.of_redraw()) + &self.input_mode_diff(prev)
            })
    }

    /// Returns the escape sequences that turn each row of `prev` into the corresponding row of
    /// `self`, in `width` columns from column `start` on.
    ///
    /// The attributes, the cursor and the range must be as for
    /// [`rows_formatted`](Self::rows_formatted). If the sizes differ, returns the output of
    /// `rows_formatted` for the rows that both screens have.
    pub fn rows_diff<'a>(
        &'a self,
        prev: &'a Self,
        start: u16,
        width: u16,
    ) -> impl Iterator<Item = String> + 'a {
        let (rows, cols) = (self.state().rows, self.state().cols);
        let both = usize::from(rows.min(prev.state().rows));
        let texts = if start < cols {
            self.with_both(prev, |handle, prev| {
                handle.rows_diff(prev, start, width, rows)
            })
        } else {
            Some(vec![String::new(); usize::from(rows)])
        };
        texts
            .unwrap_or_else(|| self.rows_formatted(start, width).collect())
            .into_iter()
            .take(both)
    }

    /// Returns the escape sequences that set the input modes: keypad, cursor keys, bracketed paste,
    /// mouse and cursor style. The terminal must have the default mouse mode, mouse encoding and
    /// cursor style, because these are set only if they are not the default.
    #[must_use]
    pub fn input_mode_formatted(&self) -> String {
        self.lock().text(Text::INPUT_MODE)
    }

    /// Returns the escape sequences that turn the input modes of `prev` into those of `self`. The
    /// screens may have different sizes.
    #[must_use]
    pub fn input_mode_diff(&self, prev: &Self) -> String {
        self.difference(prev, Difference::INPUT_MODE)
            .unwrap_or_else(|| self.input_mode_formatted())
    }

    /// Returns the part of a redraw that sets the attributes of the next character.
    #[must_use]
    pub fn attributes_formatted(&self) -> String {
        self.lock().text(Text::ATTRIBUTES)
    }

    /// Returns the part of a redraw that moves the cursor and shows or hides it, for a plain
    /// terminal of this size that displays the rows of this screen and has default attributes. If a
    /// wrap is pending, this part may draw the end of a row again.
    #[must_use]
    pub fn cursor_state_formatted(&self) -> String {
        self.lock().text(Text::CURSOR_STATE)
    }

    fn difference(&self, prev: &Self, difference: Difference) -> Option<String> {
        self.with_both(prev, |handle, prev| handle.difference(prev, difference))
    }

    fn difference_with(
        &self,
        prev: &Self,
        difference: DifferenceWith,
        options: DiffOptions,
    ) -> Option<String> {
        self.with_both(prev, |handle, prev| {
            handle.difference_with(prev, difference, options)
        })
    }

    /// Passes both handles to `f`, locked in the order of their addresses, so that two threads
    /// cannot deadlock. If both screens are the same, the second handle is that of a copy.
    fn with_both<T>(&self, prev: &Self, f: impl FnOnce(&mut Handle, &mut Handle) -> T) -> T {
        let (one, other): (*const Self, *const Self) = (self, prev);
        if one == other {
            let mut handle = self.lock();
            let mut copy = handle.save();
            f(&mut handle, &mut copy)
        } else if one < other {
            let mut handle = self.lock();
            f(&mut handle, &mut prev.lock())
        } else {
            let mut prev = prev.lock();
            f(&mut self.lock(), &mut prev)
        }
    }
}
