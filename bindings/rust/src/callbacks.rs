use crate::capture::RowContents;
use crate::Screen;

/// The callbacks that a parser invokes for what a program asks of its terminal besides drawing, for
/// unsupported sequences, and for rows that scroll off and are not kept.
///
/// By default, each callback does nothing. All callbacks except [`on_scroll`](Self::on_scroll)
/// receive the screen as it is after the byte that caused the call, and may change it.
pub trait Callbacks {
    /// Called for the audible bell (BEL).
    fn audible_bell(&mut self, _: &mut Screen) {}

    /// Called for the visual bell (ESC `g`).
    fn visual_bell(&mut self, _: &mut Screen) {}

    /// Called when the program requests a resize to a number of rows and columns
    /// (`CSI 8 ; ROWS ; COLS t`). Either number may be 0.
    fn resize(&mut self, _: &mut Screen, _request: (u16, u16)) {}

    /// Called with a new icon name of the window (OSC 0 and 1).
    fn set_window_icon_name(&mut self, _: &mut Screen, _icon_name: &[u8]) {}

    /// Called with a new title of the window (OSC 0 and 2).
    fn set_window_title(&mut self, _: &mut Screen, _title: &[u8]) {}

    /// Called with base64 data for the clipboards that `ty` names (OSC 52).
    fn copy_to_clipboard(&mut self, _: &mut Screen, _ty: &[u8], _data: &[u8]) {}

    /// Called when the program requests the contents of the clipboards that `ty` names (OSC 52 with
    /// `?`).
    fn paste_from_clipboard(&mut self, _: &mut Screen, _ty: &[u8]) {}

    /// Called for a character that is not drawn: U+FFFD, which stands for malformed UTF-8, or a C1
    /// control character.
    fn unhandled_char(&mut self, _: &mut Screen, _c: char) {}

    /// Called for an unsupported control character.
    fn unhandled_control(&mut self, _: &mut Screen, _b: u8) {}

    /// Called for an unsupported escape sequence, with its intermediates and final byte.
    fn unhandled_escape(&mut self, _: &mut Screen, _i1: Option<u8>, _i2: Option<u8>, _b: u8) {}

    /// Called for an unsupported control sequence, with its private marker and intermediates, its
    /// parameters with their subparameters, and its final character.
    fn unhandled_csi(
        &mut self,
        _: &mut Screen,
        _i1: Option<u8>,
        _i2: Option<u8>,
        _params: &[&[u16]],
        _c: char,
    ) {
    }

    /// Called for an unsupported operating system command, split at its semicolons.
    fn unhandled_osc(&mut self, _: &mut Screen, _params: &[&[u8]]) {}

    /// Called for a row that scrolled off the top of the screen, or out of scrollback, and is not
    /// kept, and for each row of scrollback that ED 3 (`CSI 3 J`) erases. `alternate_screen` is
    /// `true` if the row was on the alternate screen.
    ///
    /// By the time of the call, the row has scrolled off, and later text may be on the screen. A
    /// panic in this callback therefore doesn't bring the row back.
    ///
    /// [`Parser::set_size`](crate::Parser::set_size) may also invoke this callback. If the height
    /// grows, blank rows replace the rows that are no longer kept, and are reported when they
    /// scroll off.
    #[allow(unused_variables)]
    fn on_scroll(&mut self, contents: RowContents<'_>, alternate_screen: bool) {}
}

impl Callbacks for () {}
