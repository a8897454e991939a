//! Which rows of a screen a change has left as they were.

use crate::library::Handle;
use crate::Screen;

/// How many times rows are not compared after a comparison that found few unchanged rows.
const PAUSE: u8 = 8;

/// A copy of what a screen displayed, with which its rows are compared after a change.
#[derive(Default)]
pub struct Changes {
    /// The copy, which displays no scrollback, or an empty handle.
    copy: Handle,

    /// How many times rows will not be compared.
    pause: u8,
}

impl Changes {
    /// Returns for each row whether it is as it was at the last call, or an empty vector if that is
    /// not known. It is never known if `is_worth_it` is false, while scrollback is displayed, or if
    /// memory is short.
    ///
    /// The rows at this call are copied for the next one, unless less than half of them are as they
    /// were. As long as that is so, a copy would be of no use.
    pub fn unchanged_rows(&mut self, screen: &Screen, is_worth_it: bool) -> Vec<bool> {
        let state = *screen.state();
        let mut copy = std::mem::take(&mut self.copy);
        if !is_worth_it || state.scrollback > 0 {
            return Vec::new();
        }
        if self.pause > 0 {
            self.pause -= 1;
            return Vec::new();
        }
        let mut handle = screen.lock();
        let equal = handle.equal_rows(&mut copy, state.rows, state.cols);
        drop(copy);
        let unchanged = equal.unwrap_or_default();
        let count = unchanged.iter().filter(|&&is_equal| is_equal).count();
        if 2 * count < unchanged.len() {
            self.pause = PAUSE;
        } else {
            self.copy = handle.shown_copy_if_memory().unwrap_or_default();
        }
        unchanged
    }
}
