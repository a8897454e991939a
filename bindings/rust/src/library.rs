//! Declarations of the C library, and safe wrappers of its functions. All unsafe code of this crate
//! is here.
//!
//! Two things are trusted: these declarations match `vt100.h`, and calls follow the rules of that
//! header. A [`Handle`] ensures the latter:
//!
//! - It is borrowed as `&mut` by each call, so that only one call at a time uses it, and the two
//!   handles of a call are different.
//! - It is neither `Clone` nor `Copy`, and its pointer is private, so that no copy of it is used.
//! - It frees its object exactly once, when it is dropped.
//! - Bytes are passed as the pointer and length of a slice. Results are stored in local variables
//!   of this module, or in a vector or a slice, whose length is also passed. A [`crate::Cell`] has
//!   the layout of a [`Cell`].

use crate::options::{DiffOptions, RedrawOptions};

/// Defines structs with the layout of the header.
macro_rules! structs {
    ($($(#[$meta:meta])* $name:ident { $($field:ident: $type:ty,)* })*) => {
        $($(#[$meta])*
        #[repr(C)]
        #[derive(Clone, Copy, Default, PartialEq, Eq)]
        pub struct $name { $(pub $field: $type,)* })*
    };
}

structs! {
    /// A color: kind 0 is the default, 1 a palette color, 2 an RGB color.
    Color { kind: u8, red: u8, green: u8, blue: u8, }

    /// A cell; the bytes of `text` after the first `len` are 0.
    Cell { text: [u8; 30], len: u8, flags: u8, fgcolor: Color, bgcolor: Color, }

    /// The properties of a screen other than its cells.
    State {
        rows: u16, cols: u16, cursor_row: u16, cursor_col: u16,
        alternate_screen: u8, application_keypad: u8, application_cursor: u8, hide_cursor: u8,
        bracketed_paste: u8, mouse_protocol_mode: u8, mouse_protocol_encoding: u8, cursor_style: u8,
        flags: u8, reserved: [u8; 3], fgcolor: Color, bgcolor: Color,
        scrollback: usize, scrollback_len: usize, scrollback_capacity: usize,
    }
}

pub const BOLD: u8 = 1;
pub const DIM: u8 = 2;
pub const ITALIC: u8 = 4;
pub const UNDERLINE: u8 = 8;
pub const INVERSE: u8 = 16;
pub const WIDE: u8 = 32;
pub const WIDE_CONTINUATION: u8 = 64;

/// The argument `wanted` of [`Handle::parser`] with which no events are logged.
pub const NO_EVENTS: u16 = 0;

/// The argument `wanted` of [`Handle::parser`] with which all events are logged.
pub const ALL_EVENTS: u16 = ((1 << 13) - 1) | ROWS_WITHOUT_TEXT;

/// The bit of `wanted` that omits the text from the records of rows, which are read with
/// [`Handle::capture_row`] instead.
const ROWS_WITHOUT_TEXT: u16 = 1 << 13;

const OK: u8 = 0;
const OUT_OF_MEMORY: u8 = 1;
const FAILED: u8 = 2;
const BAD_ARGUMENT: u8 = 3;
const OTHER_SIZE: u8 = 5;

type OfOne = unsafe extern "C" fn(*mut Handle, *mut usize) -> u8;
type OfOneWith = unsafe extern "C" fn(*mut Handle, u8, *mut usize) -> u8;
type OfTwo = unsafe extern "C" fn(*mut Handle, *mut Handle, *mut usize) -> u8;
type OfTwoWith = unsafe extern "C" fn(*mut Handle, *mut Handle, u8, *mut usize) -> u8;
type OfViewer = unsafe extern "C" fn(*mut Handle, u64, *mut u16, *mut u16, *mut usize) -> u8;
type OfRows = unsafe extern "C" fn(*mut Handle, u16, u16, *mut usize, usize, *mut usize) -> u8;

extern "C" {
    fn vt100_parser_new(rows: u16, cols: u16, capacity: usize, wanted: u16, out: *mut Handle)
        -> u8;
    fn vt100_mirror_new(rows: u16, cols: u16, capacity: usize, out: *mut Handle) -> u8;
    fn vt100_capture_new(out: *mut Handle) -> u8;
    fn vt100_charsets_new(out: *mut Handle) -> u8;
    fn vt100_charsets_translate(
        charsets: *mut Handle,
        bytes: *const u8,
        len: usize,
        out: *mut u8,
        room: usize,
        out_len: *mut usize,
    ) -> u8;
    fn vt100_save(handle: *mut Handle, out: *mut Handle) -> u8;
    fn vt100_shown_copy(handle: *mut Handle, out: *mut Handle) -> u8;
    fn vt100_swap(handle: *mut Handle, other: *mut Handle) -> u8;
    fn vt100_free(handle: *mut Handle);
    fn vt100_process(handle: *mut Handle, bytes: *const u8, len: usize) -> u8;
    fn vt100_process_until(
        handle: *mut Handle,
        bytes: *const u8,
        len: usize,
        used: *mut usize,
    ) -> u8;
    fn vt100_pending_len(handle: *mut Handle, len: *mut usize) -> u8;
    fn vt100_is_ground(handle: *mut Handle, out: *mut u8) -> u8;
    fn vt100_scrollback_erasures(handle: *mut Handle, count: *mut u64) -> u8;
    fn vt100_set_size(handle: *mut Handle, rows: u16, cols: u16) -> u8;
    fn vt100_screen_set_size(handle: *mut Handle, rows: u16, cols: u16) -> u8;
    fn vt100_set_scrollback(handle: *mut Handle, rows: usize) -> u8;
    fn vt100_clear_scrollback(handle: *mut Handle) -> u8;
    fn vt100_get_state(handle: *mut Handle, out: *mut State) -> u8;
    fn vt100_get_cell(handle: *mut Handle, row: u16, col: u16, out: *mut Cell) -> u8;
    fn vt100_get_cells(handle: *mut Handle, row: u16, out: *mut crate::Cell, room: usize) -> u8;
    fn vt100_row_wrapped(handle: *mut Handle, row: u16, out: *mut u8) -> u8;
    fn vt100_get_row_cells(
        handle: *mut Handle,
        row: usize,
        out: *mut crate::Cell,
        room: usize,
        len: *mut usize,
        wrapped: *mut u8,
    ) -> u8;
    fn vt100_row_contents(handle: *mut Handle, row: usize, len: *mut usize) -> u8;
    fn vt100_is_steady(handle: *mut Handle, out: *mut u8) -> u8;
    fn vt100_contents(handle: *mut Handle, len: *mut usize) -> u8;
    fn vt100_contents_between(
        handle: *mut Handle,
        start_row: u16,
        start_col: u16,
        end_row: u16,
        end_col: u16,
        len: *mut usize,
    ) -> u8;
    fn vt100_contents_formatted(handle: *mut Handle, len: *mut usize) -> u8;
    fn vt100_contents_formatted_with(handle: *mut Handle, options: u8, len: *mut usize) -> u8;
    fn vt100_contents_formatted_basic(handle: *mut Handle, len: *mut usize) -> u8;
    fn vt100_state_formatted(handle: *mut Handle, len: *mut usize) -> u8;
    fn vt100_state_formatted_with(handle: *mut Handle, options: u8, len: *mut usize) -> u8;
    fn vt100_cursor_state_formatted(handle: *mut Handle, len: *mut usize) -> u8;
    fn vt100_attributes_formatted(handle: *mut Handle, len: *mut usize) -> u8;
    fn vt100_input_mode_formatted(handle: *mut Handle, len: *mut usize) -> u8;
    fn vt100_contents_diff(handle: *mut Handle, prev: *mut Handle, len: *mut usize) -> u8;
    fn vt100_contents_diff_scrolling(handle: *mut Handle, prev: *mut Handle, len: *mut usize)
        -> u8;
    fn vt100_contents_diff_with(
        handle: *mut Handle,
        prev: *mut Handle,
        options: u8,
        len: *mut usize,
    ) -> u8;
    fn vt100_state_diff(handle: *mut Handle, prev: *mut Handle, len: *mut usize) -> u8;
    fn vt100_state_diff_with(
        handle: *mut Handle,
        prev: *mut Handle,
        options: u8,
        len: *mut usize,
    ) -> u8;
    fn vt100_input_mode_diff(handle: *mut Handle, prev: *mut Handle, len: *mut usize) -> u8;
    fn vt100_rows(
        handle: *mut Handle,
        start: u16,
        width: u16,
        ends: *mut usize,
        room: usize,
        len: *mut usize,
    ) -> u8;
    fn vt100_rows_formatted(
        handle: *mut Handle,
        start: u16,
        width: u16,
        ends: *mut usize,
        room: usize,
        len: *mut usize,
    ) -> u8;
    fn vt100_rows_diff(
        handle: *mut Handle,
        prev: *mut Handle,
        start: u16,
        width: u16,
        ends: *mut usize,
        room: usize,
        len: *mut usize,
    ) -> u8;
    fn vt100_copy(handle: *mut Handle, out: *mut u8, room: usize) -> usize;
    fn vt100_capture_screen(handle: *mut Handle, capture: *mut Handle, len: *mut usize) -> u8;
    fn vt100_capture_row(
        parser: *mut Handle,
        index: usize,
        capture: *mut Handle,
        len: *mut usize,
    ) -> u8;
    fn vt100_next_plain(
        text: *const u8,
        len: usize,
        at: usize,
        start: *mut usize,
        end: *mut usize,
    ) -> u8;
    fn vt100_next_row(
        text: *const u8,
        len: usize,
        width: u16,
        at: usize,
        end: *mut usize,
        next: *mut usize,
    ) -> u8;
    fn vt100_events(handle: *mut Handle, len: *mut usize, is_whole: *mut u8) -> u8;
    fn vt100_copy_events(handle: *mut Handle, out: *mut u8, room: usize) -> usize;
    fn vt100_clear_events(handle: *mut Handle) -> u8;
    fn vt100_set_event_limit(handle: *mut Handle, bytes: usize) -> u8;
    fn vt100_join(mirror: *mut Handle, viewer: *mut u64) -> u8;
    fn vt100_leave(mirror: *mut Handle, viewer: u64) -> u8;
    fn vt100_mirror_is_current(mirror: *mut Handle, viewer: u64, out: *mut u8) -> u8;
    fn vt100_update(
        mirror: *mut Handle,
        viewer: u64,
        rows: *mut u16,
        cols: *mut u16,
        len: *mut usize,
    ) -> u8;
    fn vt100_update_scrolling(
        mirror: *mut Handle,
        viewer: u64,
        rows: *mut u16,
        cols: *mut u16,
        len: *mut usize,
    ) -> u8;
    fn vt100_update_with(
        mirror: *mut Handle,
        viewer: u64,
        options: u8,
        rows: *mut u16,
        cols: *mut u16,
        len: *mut usize,
    ) -> u8;
}

/// A kind of text generated from one screen.
#[derive(Clone, Copy)]
pub struct Text(OfOne);

impl Text {
    pub const CONTENTS: Self = Self(vt100_contents);
    pub const FORMATTED: Self = Self(vt100_contents_formatted);
    pub const BASIC: Self = Self(vt100_contents_formatted_basic);
    pub const STATE: Self = Self(vt100_state_formatted);
    pub const CURSOR_STATE: Self = Self(vt100_cursor_state_formatted);
    pub const ATTRIBUTES: Self = Self(vt100_attributes_formatted);
    pub const INPUT_MODE: Self = Self(vt100_input_mode_formatted);
}

/// A kind of text generated from one screen with options.
#[derive(Clone, Copy)]
pub struct TextWith(OfOneWith);

impl TextWith {
    pub const FORMATTED: Self = Self(vt100_contents_formatted_with);
    pub const STATE: Self = Self(vt100_state_formatted_with);
}

/// A kind of text generated from two screens.
#[derive(Clone, Copy)]
pub struct Difference(OfTwo);

impl Difference {
    pub const CONTENTS: Self = Self(vt100_contents_diff);
    pub const SCROLLING: Self = Self(vt100_contents_diff_scrolling);
    pub const STATE: Self = Self(vt100_state_diff);
    pub const INPUT_MODE: Self = Self(vt100_input_mode_diff);
}

/// A kind of text generated from two screens with options.
#[derive(Clone, Copy)]
pub struct DifferenceWith(OfTwoWith);

impl DifferenceWith {
    pub const CONTENTS: Self = Self(vt100_contents_diff_with);
    pub const STATE: Self = Self(vt100_state_diff_with);
}

/// A kind of update for the viewers of a mirror.
#[derive(Clone, Copy)]
pub struct Updates(OfViewer);

impl Updates {
    pub const DRAWN: Self = Self(vt100_update);
    pub const SCROLLING: Self = Self(vt100_update_scrolling);
}

/// A kind of text generated for each row.
#[derive(Clone, Copy)]
pub struct RowTexts(OfRows);

impl RowTexts {
    pub const PLAIN: Self = Self(vt100_rows);
    pub const FORMATTED: Self = Self(vt100_rows_formatted);
}

/// A handle, which owns an object of the library or is empty.
#[repr(C)]
pub struct Handle {
    at: *mut u8,
}

// SAFETY: the header allows moving a handle to another thread, and a `Handle` is the only handle of
// its object.
unsafe impl Send for Handle {}

// SAFETY: no method of `Handle` takes `&self`, except one that only checks for a null pointer.
unsafe impl Sync for Handle {}

impl Drop for Handle {
    fn drop(&mut self) {
        // SAFETY: the handle is empty, or it is the only handle of its object.
        unsafe { vt100_free(self) }
    }
}

impl Default for Handle {
    /// Returns an empty handle.
    fn default() -> Self {
        Self {
            at: std::ptr::null_mut(),
        }
    }
}

/// Panics if the status of a call is an error.
#[track_caller]
fn check(status: u8) {
    match status {
        OK => {}
        OUT_OF_MEMORY => panic!("vt100: out of memory"),
        FAILED => panic!("vt100: the parser ran out of memory in an earlier call"),
        BAD_ARGUMENT => panic!("vt100: a bad argument"),
        _ => panic!("vt100: status {status}"),
    }
}

// The calls below are safe for the reasons given at the top of this module.
impl Handle {
    /// Creates a parser with a blank screen and an event log without a limit. The log needs none,
    /// because it is cleared whenever the parser stops: besides 64 KiB of rows, it then holds only
    /// the events of one byte, which reports at most all rows of the screen (SU), all rows of
    /// scrollback (ED 3), or the rows that 65535 characters fill (REP).
    pub fn parser(rows: u16, cols: u16, capacity: usize, wanted: u16) -> Self {
        let mut out = Self::default();
        check(unsafe { vt100_parser_new(rows, cols, capacity, wanted, &mut out) });
        check(unsafe { vt100_set_event_limit(&mut out, usize::MAX) });
        out
    }

    /// Creates a mirror with a blank screen and no viewers.
    pub fn mirror(rows: u16, cols: u16, capacity: usize) -> Self {
        let mut out = Self::default();
        check(unsafe { vt100_mirror_new(rows, cols, capacity, &mut out) });
        out
    }

    /// Creates an empty capture.
    pub fn capture() -> Self {
        let mut out = Self::default();
        check(unsafe { vt100_capture_new(&mut out) });
        out
    }

    /// Creates a translator of character sets at the start of its input.
    pub fn charsets() -> Self {
        let mut out = Self::default();
        check(unsafe { vt100_charsets_new(&mut out) });
        out
    }

    /// Returns the translation of bytes, which is at most three times as long.
    pub fn translate(&mut self, bytes: &[u8]) -> Vec<u8> {
        let mut out = vec![0; bytes.len().saturating_mul(3)];
        let mut len = 0;
        let (start, room) = (out.as_mut_ptr(), out.len());
        check(unsafe {
            vt100_charsets_translate(self, bytes.as_ptr(), bytes.len(), start, room, &mut len)
        });
        out.truncate(len);
        out
    }

    /// Creates a saved screen of one cell.
    pub fn one_cell() -> Self {
        Self::parser(1, 1, 0, NO_EVENTS).save()
    }

    /// Returns whether the handle is empty.
    pub fn is_empty(&self) -> bool {
        self.at.is_null()
    }

    /// Returns a copy of the screen or of the capture.
    pub fn save(&mut self) -> Self {
        let mut out = Self::default();
        check(unsafe { vt100_save(self, &mut out) });
        out
    }

    /// Returns a screen of the same size and with the same modes that displays the same content,
    /// without scrollback or the inactive page. While scrollback is displayed, the result is a copy
    /// of the whole screen.
    pub fn shown_copy(&mut self) -> Self {
        let mut out = Self::default();
        check(unsafe { vt100_shown_copy(self, &mut out) });
        out
    }

    /// Returns the same as [`shown_copy`](Self::shown_copy), or `None` if memory is short.
    pub fn shown_copy_if_memory(&mut self) -> Option<Self> {
        let mut out = Self::default();
        let status = unsafe { vt100_shown_copy(self, &mut out) };
        (status == OK).then_some(out)
    }

    /// Swaps the screens of two handles.
    pub fn swap(&mut self, other: &mut Self) {
        check(unsafe { vt100_swap(self, other) });
    }

    pub fn process(&mut self, bytes: &[u8]) {
        check(unsafe { vt100_process(self, bytes.as_ptr(), bytes.len()) });
    }

    /// Parses bytes up to and including the first byte that logs an event, except that rows do not
    /// stop parsing until 64 KiB of them are logged. Returns the number of bytes read.
    pub fn process_until(&mut self, bytes: &[u8]) -> usize {
        let mut used = 0;
        check(unsafe { vt100_process_until(self, bytes.as_ptr(), bytes.len(), &mut used) });
        used
    }

    /// Returns the number of bytes that a parser stores for an unfinished operating system command.
    pub fn pending_len(&mut self) -> usize {
        let mut len = 0;
        check(unsafe { vt100_pending_len(self, &mut len) });
        len
    }

    /// Returns whether a parser or a mirror is in ground state.
    pub fn is_ground(&mut self) -> bool {
        let mut ground = 0;
        check(unsafe { vt100_is_ground(self, &mut ground) });
        ground == 1
    }

    /// Returns how often the input of a parser has asked to erase scrollback.
    pub fn scrollback_erasures(&mut self) -> u64 {
        let mut count = 0;
        check(unsafe { vt100_scrollback_erasures(self, &mut count) });
        count
    }

    /// Resizes a parser, which logs events for rows that scroll off.
    pub fn set_size(&mut self, rows: u16, cols: u16) {
        check(unsafe { vt100_set_size(self, rows, cols) });
    }

    /// Resizes the screen without logging events.
    pub fn screen_set_size(&mut self, rows: u16, cols: u16) {
        check(unsafe { vt100_screen_set_size(self, rows, cols) });
    }

    pub fn set_scrollback(&mut self, rows: usize) {
        check(unsafe { vt100_set_scrollback(self, rows) });
    }

    pub fn clear_scrollback(&mut self) {
        check(unsafe { vt100_clear_scrollback(self) });
    }

    pub fn state(&mut self) -> State {
        let mut state = State::default();
        check(unsafe { vt100_get_state(self, &mut state) });
        state
    }

    /// Returns the displayed cell at a row and column, or `None` if there is no such cell.
    pub fn cell(&mut self, row: u16, col: u16) -> Option<Cell> {
        let mut cell = Cell::default();
        match unsafe { vt100_get_cell(self, row, col, &mut cell) } {
            BAD_ARGUMENT => None,
            status => {
                check(status);
                Some(cell)
            }
        }
    }

    /// Replaces `cells` with those of a row; their number must be that of the screen's columns.
    pub fn read_cells(&mut self, row: u16, cells: &mut [crate::Cell]) {
        check(unsafe { vt100_get_cells(self, row, cells.as_mut_ptr(), cells.len()) });
    }

    /// Returns whether a row is wrapped; `false` if there is no such row.
    pub fn row_wrapped(&mut self, row: u16) -> bool {
        let mut wrapped = 0;
        match unsafe { vt100_row_wrapped(self, row, &mut wrapped) } {
            BAD_ARGUMENT => false,
            status => {
                check(status);
                wrapped == 1
            }
        }
    }

    /// Returns the cells of a row that the screen keeps, and whether the row is wrapped, or `None` if
    /// there is no such row.
    pub fn kept_row(&mut self, row: usize) -> Option<(Vec<crate::Cell>, bool)> {
        let mut cells = Vec::new();
        let (mut len, mut wrapped) = (0, 0);
        // The first call finds out how many cells there are, and the second one reads them.
        for _ in 0..2 {
            cells.resize_with(len, crate::Cell::blank);
            let (out, room) = (cells.as_mut_ptr(), cells.len());
            match unsafe { vt100_get_row_cells(self, row, out, room, &mut len, &mut wrapped) } {
                BAD_ARGUMENT => return None,
                status => check(status),
            }
        }
        Some((cells, wrapped == 1))
    }

    /// Returns the plain text of a row that the screen keeps, or `None` if there is no such row.
    pub fn kept_text(&mut self, row: usize) -> Option<String> {
        let mut len = 0;
        match unsafe { vt100_row_contents(self, row, &mut len) } {
            BAD_ARGUMENT => None,
            status => {
                check(status);
                Some(self.copied(len))
            }
        }
    }

    pub fn is_steady(&mut self) -> bool {
        let mut steady = 0;
        check(unsafe { vt100_is_steady(self, &mut steady) });
        steady == 1
    }

    pub fn text(&mut self, text: Text) -> String {
        let mut len = 0;
        check(unsafe { (text.0)(self, &mut len) });
        self.copied(len)
    }

    pub fn between(&mut self, start: (u16, u16), end: (u16, u16)) -> String {
        let mut len = 0;
        check(unsafe { vt100_contents_between(self, start.0, start.1, end.0, end.1, &mut len) });
        self.copied(len)
    }

    pub fn text_with(&mut self, text: TextWith, options: RedrawOptions) -> String {
        let mut len = 0;
        check(unsafe { (text.0)(self, options.bits(), &mut len) });
        self.copied(len)
    }

    /// Returns the diff from the screen `prev`, or `None` if the sizes differ.
    pub fn difference(&mut self, prev: &mut Self, difference: Difference) -> Option<String> {
        let mut len = 0;
        match unsafe { (difference.0)(self, prev, &mut len) } {
            OTHER_SIZE => None,
            status => {
                check(status);
                Some(self.copied(len))
            }
        }
    }

    /// Returns the diff from the screen `prev` with options, or `None` if the sizes differ.
    pub fn difference_with(
        &mut self,
        prev: &mut Self,
        difference: DifferenceWith,
        options: DiffOptions,
    ) -> Option<String> {
        let mut len = 0;
        match unsafe { (difference.0)(self, prev, options.bits(), &mut len) } {
            OTHER_SIZE => None,
            status => {
                check(status);
                Some(self.copied(len))
            }
        }
    }

    /// Returns the text of each displayed row; `rows` must be the number of rows of the screen.
    pub fn rows(&mut self, texts: RowTexts, start: u16, width: u16, rows: u16) -> Vec<String> {
        let mut ends = vec![0; usize::from(rows)];
        let mut len = 0;
        let (out, room) = (ends.as_mut_ptr(), ends.len());
        check(unsafe { (texts.0)(self, start, width, out, room, &mut len) });
        cut(&self.copied(len), &ends)
    }

    /// Returns the escape sequences that turn each row of the screen `prev` into the corresponding
    /// row of this screen, or `None` if the sizes differ.
    pub fn rows_diff(
        &mut self,
        prev: &mut Self,
        start: u16,
        width: u16,
        rows: u16,
    ) -> Option<Vec<String>> {
        let mut ends = vec![0; usize::from(rows)];
        let mut len = 0;
        let (out, room) = (ends.as_mut_ptr(), ends.len());
        match unsafe { vt100_rows_diff(self, prev, start, width, out, room, &mut len) } {
            OTHER_SIZE => None,
            status => {
                check(status);
                Some(cut(&self.copied(len), &ends))
            }
        }
    }

    /// Returns for each row whether its columns are equal to those of the screen `prev`, or `None` if
    /// that handle is empty, the sizes differ or memory is short. Scrollback rows may have more
    /// columns than the screen.
    pub fn equal_rows(&mut self, prev: &mut Self, rows: u16, cols: u16) -> Option<Vec<bool>> {
        let mut ends = vec![0; usize::from(rows)];
        let mut len = 0;
        let (out, room) = (ends.as_mut_ptr(), ends.len());
        if unsafe { vt100_rows_diff(self, prev, 0, cols, out, room, &mut len) } != OK {
            return None;
        }
        // The diff of a whole row is empty exactly if the rows are equal (clause `empty`).
        let starts = std::iter::once(&0).chain(&ends);
        Some(starts.zip(&ends).map(|(start, end)| start == end).collect())
    }

    /// Continues a capture with all rows of a screen, and returns the added text.
    pub fn capture_screen(&mut self, capture: &mut Self) -> String {
        let mut len = 0;
        check(unsafe { vt100_capture_screen(self, capture, &mut len) });
        capture.copied(len)
    }

    /// Continues a capture with a row that scrolled off a parser's screen, and returns the added
    /// text.
    pub fn capture_row(&mut self, index: usize, capture: &mut Self) -> String {
        let mut len = 0;
        check(unsafe { vt100_capture_row(self, index, capture, &mut len) });
        capture.copied(len)
    }

    /// Replaces `records` with the records of a parser's events. Panics if an event was lost.
    pub fn read_events(&mut self, records: &mut Vec<u8>) {
        let (mut len, mut is_whole) = (0, 0);
        check(unsafe { vt100_events(self, &mut len, &mut is_whole) });
        check(if is_whole == 1 { OK } else { OUT_OF_MEMORY });
        records.resize(len, 0);
        let copied = unsafe { vt100_copy_events(self, records.as_mut_ptr(), len) };
        records.truncate(copied);
    }

    pub fn clear_events(&mut self) {
        check(unsafe { vt100_clear_events(self) });
    }

    /// Adds a viewer to a mirror, and returns its number.
    pub fn join(&mut self) -> u64 {
        let mut viewer = 0;
        check(unsafe { vt100_join(self, &mut viewer) });
        viewer
    }

    /// Removes a viewer, and returns whether there was a viewer with this number.
    pub fn leave(&mut self, viewer: u64) -> bool {
        match unsafe { vt100_leave(self, viewer) } {
            BAD_ARGUMENT => false,
            status => {
                check(status);
                true
            }
        }
    }

    /// Returns whether a viewer is known to be up to date.
    pub fn is_current(&mut self, viewer: u64) -> bool {
        let mut current = 0;
        check(unsafe { vt100_mirror_is_current(self, viewer, &mut current) });
        current == 1
    }

    /// Returns the update that a viewer must read next, and the numbers of rows and columns to
    /// which the viewer's terminal must be resized first, or zeros if it keeps its size. Returns
    /// `None` if there is no such viewer.
    pub fn update(&mut self, updates: Updates, viewer: u64) -> Option<((u16, u16), String)> {
        let (mut rows, mut cols, mut len) = (0, 0, 0);
        match unsafe { (updates.0)(self, viewer, &mut rows, &mut cols, &mut len) } {
            BAD_ARGUMENT => None,
            status => {
                check(status);
                Some(((rows, cols), self.copied(len)))
            }
        }
    }

    /// Works like [`update`](Self::update), with options for a diff.
    pub fn update_with(
        &mut self,
        options: DiffOptions,
        viewer: u64,
    ) -> Option<((u16, u16), String)> {
        let (mut rows, mut cols, mut len) = (0, 0, 0);
        let bits = options.bits();
        match unsafe { vt100_update_with(self, viewer, bits, &mut rows, &mut cols, &mut len) } {
            BAD_ARGUMENT => None,
            status => {
                check(status);
                Some(((rows, cols), self.copied(len)))
            }
        }
    }

    /// Returns a copy of the handle's text, which has `len` bytes.
    fn copied(&mut self, len: usize) -> String {
        let mut text = Vec::with_capacity(len);
        // SAFETY: there is room for `len` bytes, and the returned number of bytes was written.
        unsafe {
            let copied = vt100_copy(self, text.as_mut_ptr(), len);
            text.set_len(copied.min(len));
        }
        String::from_utf8(text).expect("a screen's text is UTF-8")
    }
}

/// Splits `text` into strings that end at the byte indices in `ends`.
fn cut(text: &str, ends: &[usize]) -> Vec<String> {
    let mut start = 0;
    let mut texts = Vec::with_capacity(ends.len());
    for &end in ends {
        texts.push(text[start..end].to_owned());
        start = end;
    }
    texts
}

/// Returns the start and end of the first chunk of a capture without escape sequences. Both are the
/// length of the text if there is no such chunk.
pub fn next_plain(text: &str) -> (usize, usize) {
    let (mut start, mut end) = (0, 0);
    let (bytes, len) = (text.as_ptr(), text.len());
    check(unsafe { vt100_next_plain(bytes, len, 0, &mut start, &mut end) });
    (start, end)
}

/// Returns the end of the first row of a capture, and the start of the next row, or `None` if there
/// is no next row.
pub fn next_row(text: &str, width: u16) -> (usize, Option<usize>) {
    let (mut end, mut next) = (0, 0);
    let (bytes, len) = (text.as_ptr(), text.len());
    check(unsafe { vt100_next_row(bytes, len, width, 0, &mut end, &mut next) });
    (end, Some(next).filter(|&next| next != usize::MAX))
}
