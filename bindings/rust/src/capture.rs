//! Captures: the text of rows with colors and attributes. A capture contains the rows that scroll
//! off a screen, in order, followed by the rows that are still on it.

use crate::library::{self, Handle};
use std::fmt;
use std::iter::FusedIterator;
use std::sync::{Mutex, PoisonError};

/// The range of rows that [`Screen::write_contents_formatted_basic`] writes.
///
/// [`Screen::write_contents_formatted_basic`]: crate::Screen::write_contents_formatted_basic
#[derive(Debug)]
pub enum BasicFormattedCaptureRange<'a> {
    /// All rows, including scrollback, continuing a capture from this state.
    Full(&'a mut BasicFormattedCaptureState),

    /// The displayed rows.
    Visible,
}

/// The state of a capture between two rows: the attributes in effect, and whether a newline is due.
///
/// The default is the state of an empty capture.
#[derive(Default)]
pub struct BasicFormattedCaptureState {
    /// The library's capture, or an empty handle before the first row.
    capture: Mutex<Handle>,
}

impl BasicFormattedCaptureState {
    /// Creates the state of an empty capture.
    #[must_use]
    pub fn new() -> Self {
        Self::default()
    }

    pub(crate) fn handle(&mut self) -> &mut Handle {
        let handle = self
            .capture
            .get_mut()
            .unwrap_or_else(PoisonError::into_inner);
        if handle.is_empty() {
            *handle = Handle::capture();
        }
        handle
    }
}

impl Clone for BasicFormattedCaptureState {
    fn clone(&self) -> Self {
        let mut handle = self.capture.lock().unwrap_or_else(PoisonError::into_inner);
        if handle.is_empty() {
            return Self::default();
        }
        Self {
            capture: Mutex::new(handle.save()),
        }
    }
}

impl fmt::Debug for BasicFormattedCaptureState {
    fn fmt(&self, f: &mut fmt::Formatter<'_>) -> fmt::Result {
        f.debug_struct("BasicFormattedCaptureState")
            .finish_non_exhaustive()
    }
}

/// A row that scrolled off a screen, as passed to
/// [`Callbacks::on_scroll`](crate::Callbacks::on_scroll).
pub struct RowContents<'a> {
    parser: &'a Mutex<Handle>,

    /// The index of the row among the rows that the parser has logged.
    index: usize,
}

impl<'a> RowContents<'a> {
    pub(crate) fn new(parser: &'a Mutex<Handle>, index: usize) -> Self {
        Self { parser, index }
    }

    /// Writes the row, continuing a capture from `state`.
    ///
    /// # Errors
    ///
    /// Returns an error if the writer fails. The state is then as if the whole row had been
    /// written.
    pub fn write_formatted_basic(
        &self,
        writer: &mut impl fmt::Write,
        state: &mut BasicFormattedCaptureState,
    ) -> fmt::Result {
        let mut parser = self.parser.lock().unwrap_or_else(PoisonError::into_inner);
        let text = parser.capture_row(self.index, state.handle());
        drop(parser);
        writer.write_str(&text)
    }
}

/// An iterator over the plain text of a capture, returned by [`basic_formatted_to_plain`].
pub struct BasicFormattedToPlain<'a> {
    indexed: BasicFormattedToPlainIndexed<'a>,
}

impl<'a> Iterator for BasicFormattedToPlain<'a> {
    type Item = &'a str;

    fn next(&mut self) -> Option<Self::Item> {
        self.indexed.next().map(|(_, piece)| piece)
    }
}

impl FusedIterator for BasicFormattedToPlain<'_> {}

/// An iterator over the plain text of a capture with byte indices, returned by
/// [`basic_formatted_to_plain_indexed`].
pub struct BasicFormattedToPlainIndexed<'a> {
    capture: &'a str,
    at: usize,
}

impl<'a> Iterator for BasicFormattedToPlainIndexed<'a> {
    /// The byte index of a chunk, and the chunk.
    type Item = (usize, &'a str);

    fn next(&mut self) -> Option<Self::Item> {
        let capture: &'a str = self.capture;
        let rest = &capture[self.at..];
        let (start, end) = in_windows(rest, FIRST_WINDOW, |window| {
            let (start, end) = library::next_plain(window);
            (end < window.len()).then_some((start, end))
        })
        .unwrap_or_else(|| library::next_plain(rest));
        if start == end {
            self.at = capture.len();
            return None;
        }
        let begin = self.at + start;
        self.at += end;
        Some((begin, &capture[begin..self.at]))
    }
}

impl FusedIterator for BasicFormattedToPlainIndexed<'_> {}

/// Returns an iterator over the text of a capture without its escape sequences, in chunks. If
/// `capture` is not a capture, the chunks are unspecified.
#[must_use]
pub fn basic_formatted_to_plain(capture: &str) -> BasicFormattedToPlain<'_> {
    BasicFormattedToPlain {
        indexed: basic_formatted_to_plain_indexed(capture),
    }
}

/// Returns an iterator over the text of a capture without its escape sequences, in chunks with
/// their byte indices. If `capture` is not a capture, the chunks are unspecified.
///
/// ```
/// # use vt100::capture::basic_formatted_to_plain_indexed;
/// let mut iter = basic_formatted_to_plain_indexed("hello\x1b[31;1mworld");
/// assert_eq!(iter.next(), Some((0, "hello")));
/// assert_eq!(iter.next(), Some((12, "world")));
/// assert_eq!(iter.next(), None);
/// ```
#[must_use]
pub fn basic_formatted_to_plain_indexed(capture: &str) -> BasicFormattedToPlainIndexed<'_> {
    BasicFormattedToPlainIndexed { capture, at: 0 }
}

/// An iterator over the rows of a capture, returned by [`basic_formatted_rows`].
pub struct BasicFormattedRows<'a> {
    capture: Option<&'a str>,
    width: u16,
}

impl<'a> Iterator for BasicFormattedRows<'a> {
    type Item = &'a str;

    fn next(&mut self) -> Option<Self::Item> {
        let capture = self.capture?;
        let first = FIRST_WINDOW + 4 * usize::from(self.width);
        let (end, next) = in_windows(capture, first, |window| {
            let (end, next) = library::next_row(window, self.width);
            next.map(|next| (end, Some(next)))
        })
        .unwrap_or_else(|| library::next_row(capture, self.width));
        self.capture = next.map(|next| &capture[next..]);
        Some(&capture[..end])
    }
}

impl FusedIterator for BasicFormattedRows<'_> {}

/// Returns an iterator over the rows of a capture on a screen of `screen_width` columns, with their
/// escape sequences but without the newlines between them. If `capture` is not a capture, the rows
/// are unspecified.
#[must_use]
pub fn basic_formatted_rows(capture: &str, screen_width: u16) -> BasicFormattedRows<'_> {
    BasicFormattedRows {
        capture: Some(capture),
        width: screen_width,
    }
}

/// The number of bytes in the first prefix of a capture that is passed to the library.
const FIRST_WINDOW: usize = 256;

/// Calls `find` with longer and longer prefixes of `text`, and returns its first result, which must
/// be that for the whole text. The first prefix has `first` bytes, and each later one is twice as
/// long. Returns `None` if there is no result for a prefix that is shorter than `text`. This avoids
/// passing a long capture to the library for each row, since the library examines all bytes that it
/// gets.
fn in_windows<T>(text: &str, first: usize, find: impl Fn(&str) -> Option<T>) -> Option<T> {
    let mut len = first;
    while len < text.len() {
        let end = (0..=len).rev().find(|&end| text.is_char_boundary(end))?;
        if let Some(found) = find(&text[..end]) {
            return Some(found);
        }
        len *= 2;
    }
    None
}
