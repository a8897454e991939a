/// The mouse events that a program has requested.
#[derive(Copy, Clone, Debug, Eq, PartialEq, Default)]
pub enum MouseProtocolMode {
    /// The program has requested no events.
    #[default]
    None,

    /// Button presses (xterm mode 9, X10).
    Press,

    /// Button presses and releases (xterm mode 1000, VT200).
    PressRelease,

    /// Presses, releases, and motion between cells while a button is down (xterm mode 1002).
    ButtonMotion,

    /// Presses, releases, and all motion between cells (xterm mode 1003).
    AnyMotion,
}

impl MouseProtocolMode {
    pub(crate) fn of(number: u8) -> Self {
        match number {
            0 => Self::None,
            1 => Self::Press,
            2 => Self::PressRelease,
            3 => Self::ButtonMotion,
            _ => Self::AnyMotion,
        }
    }
}

/// The encoding of the mouse events that a program receives.
#[derive(Copy, Clone, Debug, Eq, PartialEq, Default)]
pub enum MouseProtocolEncoding {
    /// Each number is encoded as one byte.
    #[default]
    Default,

    /// Each number is encoded as one UTF-8 character (xterm mode 1005).
    Utf8,

    /// Each number is encoded in decimal digits (xterm mode 1006, SGR).
    Sgr,
}

impl MouseProtocolEncoding {
    pub(crate) fn of(number: u8) -> Self {
        match number {
            0 => Self::Default,
            1 => Self::Utf8,
            _ => Self::Sgr,
        }
    }
}

/// The style of the cursor (DECSCUSR).
#[derive(Copy, Clone, Debug, Eq, PartialEq, Default)]
pub enum CursorStyle {
    /// The terminal's default style.
    #[default]
    Default,

    /// A blinking block.
    BlinkBlock,

    /// A steady block.
    SteadyBlock,

    /// A blinking underline.
    BlinkUnderline,

    /// A steady underline.
    SteadyUnderline,

    /// A blinking vertical bar.
    BlinkVerticalBar,

    /// A steady vertical bar.
    SteadyVerticalBar,
}

impl CursorStyle {
    pub(crate) fn of(number: u8) -> Self {
        match number {
            0 => Self::Default,
            1 => Self::BlinkBlock,
            2 => Self::SteadyBlock,
            3 => Self::BlinkUnderline,
            4 => Self::SteadyUnderline,
            5 => Self::BlinkVerticalBar,
            _ => Self::SteadyVerticalBar,
        }
    }
}
