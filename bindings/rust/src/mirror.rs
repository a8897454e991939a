//! A terminal whose screen is mirrored by remote viewers. Not in the crate `vt100`.

use crate::library::{Handle, Updates};
use crate::options::DiffOptions;
use std::num::NonZeroU16;
use std::sync::{Mutex, PoisonError};

/// An update for the terminal of a viewer.
#[derive(Clone, Debug, PartialEq, Eq)]
pub enum Update {
    /// A redraw: the viewer's terminal must be resized to this size and then process the text.
    Full {
        /// The number of rows of the viewer's terminal.
        rows: NonZeroU16,
        /// The number of columns of the viewer's terminal.
        cols: NonZeroU16,
        /// The redraw.
        text: String,
    },
    /// A diff from the screen of the viewer's previous update.
    Diff(String),
}

impl Update {
    /// Returns the escape sequences of the update.
    #[must_use]
    pub fn text(&self) -> &str {
        match self {
            Self::Full { text, .. } | Self::Diff(text) => text,
        }
    }
}

/// A terminal that remembers, for each of its viewers, the screen of the last update.
///
/// A viewer is a plain terminal (see [`Screen::contents_formatted`]) that reads all its updates in
/// order, and thus displays the mirror's screen as it was at the last update. A viewer's first
/// update, and its first update after a resize, redraws the screen; every other update is a diff
/// from the screen of the previous update. A viewer may join at any time and request updates as
/// rarely as it likes.
///
/// [`Screen::contents_formatted`]: crate::Screen::contents_formatted
///
/// ```
/// use std::num::NonZeroU16;
/// use vt100::mirror::{Mirror, Update};
///
/// let size = |number| NonZeroU16::new(number).unwrap();
/// let mut mirror = Mirror::new(size(3), size(20), 0);
/// mirror.process(b"the first row\r\nthe second row\r\nthe third row");
/// let viewer = mirror.join();
/// assert!(matches!(mirror.update(viewer), Some(Update::Full { .. })));
/// mirror.process(b"\r\n");
/// let update = mirror.update_scrolling(viewer).unwrap();
/// assert_eq!(update, Update::Diff("\x1b[H\x1b[M\n\n".to_owned()));
/// ```
pub struct Mirror {
    /// The library's mirror. Each call to the library needs exclusive access, even a call that only
    /// reads.
    handle: Mutex<Handle>,
}

impl Mirror {
    /// Creates a mirror without viewers. Its screen is blank and keeps at most
    /// `scrollback_capacity` scrollback rows.
    #[must_use]
    pub fn new(rows: NonZeroU16, cols: NonZeroU16, scrollback_capacity: usize) -> Self {
        Self {
            handle: Mutex::new(Handle::mirror(rows.get(), cols.get(), scrollback_capacity)),
        }
    }

    fn handle(&mut self) -> &mut Handle {
        self.handle
            .get_mut()
            .unwrap_or_else(PoisonError::into_inner)
    }

    /// Parses bytes and applies them to the screen. Input may be split anywhere: an incomplete
    /// character or sequence continues with the next call.
    pub fn process(&mut self, bytes: &[u8]) {
        self.handle().process(bytes);
    }

    /// Returns whether the mirror is in ground state: no escape sequence, control string or
    /// character is half read.
    #[must_use]
    pub fn is_ground(&self) -> bool {
        let mut handle = self.handle.lock().unwrap_or_else(PoisonError::into_inner);
        handle.is_ground()
    }

    /// Resizes the terminal.
    pub fn set_size(&mut self, rows: NonZeroU16, cols: NonZeroU16) {
        self.handle().set_size(rows.get(), cols.get());
    }

    /// Adds a viewer and returns its number, which is never reused.
    pub fn join(&mut self) -> u64 {
        self.handle().join()
    }

    /// Removes a viewer. Returns whether there was a viewer with this number.
    pub fn leave(&mut self, viewer: u64) -> bool {
        self.handle().leave(viewer)
    }

    /// Returns the next update of a viewer, or `None` if there is no viewer with this number. The
    /// updates after it assume that the viewer has read it.
    pub fn update(&mut self, viewer: u64) -> Option<Update> {
        self.next(Updates::DRAWN, viewer)
    }

    /// Returns the next update of a viewer, or `None` if there is no viewer with this number. A
    /// diff may begin by moving rows or columns, and is never longer than that of
    /// [`update`](Self::update), or than the redraw. A viewer may use all kinds of updates in turn.
    ///
    /// If the screen of the viewer's last update was not steady (see
    /// [`Screen::is_steady`](crate::Screen::is_steady)), the update is a redraw, which corrects the
    /// viewer's display.
    pub fn update_scrolling(&mut self, viewer: u64) -> Option<Update> {
        self.next(Updates::SCROLLING, viewer)
    }

    /// Returns the next update of a viewer, or `None` if there is no viewer with this number. A
    /// diff has the given options, which may change from update to update, and is never longer than
    /// that of [`update`](Self::update) or, if it is portable, than its portable form.
    ///
    /// With the option `scroll`, the update may be a redraw, as with
    /// [`update_scrolling`](Self::update_scrolling). With the option `portable`, a redraw is
    /// portable, too.
    pub fn update_with(&mut self, viewer: u64, options: DiffOptions) -> Option<Update> {
        let update = self.handle().update_with(options, viewer)?;
        Some(update_of(update))
    }

    /// Returns whether a viewer is known to be up to date. If it is, its next update is an empty
    /// diff, except that [`update_scrolling`](Self::update_scrolling) and the option `scroll`
    /// redraw a screen that is not steady.
    ///
    /// Returns `false` if the viewer has had no update since it joined or since the last resize, if
    /// [`process`](Self::process) was called since its last update (even if nothing displayed has
    /// changed), and if there is no viewer with this number.
    #[must_use]
    pub fn is_current(&self, viewer: u64) -> bool {
        let mut handle = self.handle.lock().unwrap_or_else(PoisonError::into_inner);
        handle.is_current(viewer)
    }

    fn next(&mut self, updates: Updates, viewer: u64) -> Option<Update> {
        let update = self.handle().update(updates, viewer)?;
        Some(update_of(update))
    }
}

/// Returns the update with the given text for a terminal of the given size, or for a terminal that
/// keeps its size if the size is 0.
fn update_of(((rows, cols), text): ((u16, u16), String)) -> Update {
    match (NonZeroU16::new(rows), NonZeroU16::new(cols)) {
        (Some(rows), Some(cols)) => Update::Full { rows, cols, text },
        _ => Update::Diff(text),
    }
}

impl std::fmt::Debug for Mirror {
    fn fmt(&self, f: &mut std::fmt::Formatter<'_>) -> std::fmt::Result {
        f.debug_struct("Mirror").finish_non_exhaustive()
    }
}
