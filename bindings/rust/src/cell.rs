use crate::library;
use crate::Color;

/// A cell of a screen: a character with its colors and attributes.
// The library writes cells of this type.
#[repr(transparent)]
#[derive(Clone, Eq, PartialEq)]
pub struct Cell(library::Cell);

/// All ASCII characters, in order.
const ASCII: &str = match std::str::from_utf8(&ascii()) {
    Ok(text) => text,
    Err(_) => unreachable!(),
};

const fn ascii() -> [u8; 128] {
    let mut bytes = [0; 128];
    let mut index = 0;
    while index < bytes.len() {
        bytes[index] = index as u8;
        index += 1;
    }
    bytes
}

impl Cell {
    pub(crate) const fn new(cell: library::Cell) -> Self {
        Self(cell)
    }

    pub(crate) fn blank() -> Self {
        Self::new(library::Cell::default())
    }

    /// Returns the cell's text: a character with its combining characters, or the empty string.
    #[must_use]
    pub fn contents(&self) -> &str {
        let text = &self.0.text[..usize::from(self.0.len)];
        // Most cells are blank or have one ASCII character, which takes less time to find out than to
        // check the text.
        match text {
            [] => "",
            [byte @ 0..=0x7f] => &ASCII[usize::from(*byte)..=usize::from(*byte)],
            _ => std::str::from_utf8(text).expect("a cell's text is UTF-8"),
        }
    }

    /// Returns whether the cell has text.
    #[must_use]
    pub fn has_contents(&self) -> bool {
        self.0.len > 0
    }

    /// Returns whether the cell's character is wide, which means that it takes up this cell and the
    /// next.
    #[must_use]
    pub fn is_wide(&self) -> bool {
        self.has(library::WIDE)
    }

    /// Returns whether this is the continuation cell of a wide character.
    #[must_use]
    pub fn is_wide_continuation(&self) -> bool {
        self.has(library::WIDE_CONTINUATION)
    }

    /// Returns the foreground color.
    #[must_use]
    pub fn fgcolor(&self) -> Color {
        Color::of(self.0.fgcolor)
    }

    /// Returns the background color.
    #[must_use]
    pub fn bgcolor(&self) -> Color {
        Color::of(self.0.bgcolor)
    }

    /// Returns whether the cell is bold.
    #[must_use]
    pub fn bold(&self) -> bool {
        self.has(library::BOLD)
    }

    /// Returns whether the cell is dim.
    #[must_use]
    pub fn dim(&self) -> bool {
        self.has(library::DIM)
    }

    /// Returns whether the cell is italic.
    #[must_use]
    pub fn italic(&self) -> bool {
        self.has(library::ITALIC)
    }

    /// Returns whether the cell is underlined.
    #[must_use]
    pub fn underline(&self) -> bool {
        self.has(library::UNDERLINE)
    }

    /// Returns whether the cell's foreground and background colors are swapped.
    #[must_use]
    pub fn inverse(&self) -> bool {
        self.has(library::INVERSE)
    }

    fn has(&self, flag: u8) -> bool {
        self.0.flags & flag != 0
    }
}

impl std::fmt::Debug for Cell {
    fn fmt(&self, f: &mut std::fmt::Formatter<'_>) -> std::fmt::Result {
        f.debug_struct("Cell")
            .field("contents", &self.contents())
            .field("fgcolor", &self.fgcolor())
            .field("bgcolor", &self.bgcolor())
            .field("flags", &self.0.flags)
            .finish()
    }
}
