//! Options for redraws and diffs.

/// The bit that the library expects for portable output.
pub(crate) const PORTABLE: u8 = 8;

/// Options for a full redraw. By default, it is that of `Screen::contents_formatted`. Not in the
/// crate `vt100`.
#[derive(Clone, Copy, PartialEq, Eq, Debug, Default)]
pub struct RedrawOptions {
    /// Whether the redraw avoids sequences on whose effects real terminals disagree: it changes
    /// between bold and dim only after a reset, moves the cursor from the last column only to an
    /// absolute position, and erases a wide glyph only as a whole.
    pub portable: bool,
}

impl RedrawOptions {
    /// Returns the bits that the library expects for these options.
    pub(crate) fn bits(self) -> u8 {
        if self.portable {
            PORTABLE
        } else {
            0
        }
    }
}

/// The one-column characters that a diff may repeat with REP (ECMA-48, 8.3.103). Not in the crate
/// `vt100`.
#[derive(Clone, Copy, Debug, Default, Eq, PartialEq)]
pub enum Repeat {
    /// No characters: the diff contains no REP.
    #[default]
    Never,

    /// Printable ASCII characters, the only ones that tmux 3.3a repeats.
    Ascii,

    /// All characters that take one column.
    Any,
}

/// Options that allow a diff to contain more than
/// [`Screen::contents_diff`](crate::Screen::contents_diff) uses. By default, none is set. Not in the
/// crate `vt100`.
#[derive(Clone, Copy, Debug, Default, Eq, PartialEq)]
pub struct DiffOptions {
    /// Whether the diff may begin by moving rows or columns.
    pub scroll: bool,

    /// The characters whose runs within a row may be written with REP (ECMA-48, 8.3.103). Some
    /// terminals ignore REP.
    pub repeat: Repeat,

    /// Whether the diff avoids sequences on whose effects real terminals disagree. A portable diff
    /// moves no columns; with `scroll`, it may move rows.
    pub portable: bool,
}

impl DiffOptions {
    /// Returns the options for a redraw that takes the place of the diff.
    pub(crate) fn of_redraw(self) -> RedrawOptions {
        RedrawOptions {
            portable: self.portable,
        }
    }

    /// Returns the bits that the library expects for these options.
    pub(crate) fn bits(self) -> u8 {
        let repeat = match self.repeat {
            Repeat::Never => 0,
            Repeat::Any => 2,
            Repeat::Ascii => 4,
        };
        u8::from(self.scroll) | repeat | if self.portable { PORTABLE } else { 0 }
    }
}
