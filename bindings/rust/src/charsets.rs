//! A translator of character sets. Not in the crate `vt100`.

use crate::library::Handle;
use std::fmt;
use std::sync::{Mutex, PoisonError};

/// A translator that replaces what a program prints in DEC Special Graphics, the character set for
/// line drawing, by Unicode characters in UTF-8.
///
/// A [`Parser`](crate::Parser) has no character sets, so boxes that are drawn with them appear as
/// letters such as `lqqqk`. A translator reads the output of a program before the parser does. It
/// follows the designations of G0 to G3, SO, SI, the single and locking shifts, DECSC and DECRC,
/// the modes 47, 1047, 1048 and 1049, DECSTR and RIS. All other sets are read as ASCII, and all
/// other bytes stay as they are, including the designations.
///
/// ```
/// let mut charsets = vt100::Charsets::new();
/// let mut parser = vt100::Parser::default();
/// parser.process(&charsets.translate(b"\x1b(0lqk\x1b(B"));
/// assert_eq!(parser.screen().contents(), "┌─┐");
/// ```
pub struct Charsets {
    handle: Mutex<Handle>,
}

impl Charsets {
    /// Creates a translator at the start of its input: ASCII is designated to G0 to G3.
    #[must_use]
    pub fn new() -> Self {
        Self {
            handle: Mutex::new(Handle::charsets()),
        }
    }

    /// Returns the translation of `bytes`, which is at most three times as long. Input may be split
    /// anywhere; no byte is held back.
    #[must_use]
    pub fn translate(&mut self, bytes: &[u8]) -> Vec<u8> {
        self.handle
            .get_mut()
            .unwrap_or_else(PoisonError::into_inner)
            .translate(bytes)
    }
}

impl Default for Charsets {
    fn default() -> Self {
        Self::new()
    }
}

impl fmt::Debug for Charsets {
    fn fmt(&self, f: &mut fmt::Formatter<'_>) -> fmt::Result {
        f.debug_struct("Charsets").finish_non_exhaustive()
    }
}
