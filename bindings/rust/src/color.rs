use crate::library;

/// A foreground or background color.
#[derive(Eq, PartialEq, Debug, Copy, Clone, Default)]
pub enum Color {
    /// The terminal's default color.
    #[default]
    Default,

    /// A palette color, by its index.
    Idx(u8),

    /// A color by its red, green and blue components.
    Rgb(u8, u8, u8),
}

impl Color {
    pub(crate) fn of(color: library::Color) -> Self {
        match color.kind {
            0 => Self::Default,
            1 => Self::Idx(color.red),
            _ => Self::Rgb(color.red, color.green, color.blue),
        }
    }
}
