//! The lines with which case files describe a screen and the callbacks invoked.

use std::fmt::Write;
use vt100::capture::{BasicFormattedCaptureState, RowContents};
use vt100::{Callbacks, Cell, Color, Screen};

/// Returns the bytes that a word encodes in hexadecimal, or no bytes if the
/// word is a dot.
pub fn bytes_of(word: &str) -> Vec<u8> {
    if word == "." {
        return Vec::new();
    }
    let digits = |at: usize| u8::from_str_radix(&word[at..at + 2], 16).unwrap();
    (0..word.len()).step_by(2).map(digits).collect()
}

fn hex(bytes: &[u8]) -> String {
    if bytes.is_empty() {
        return ".".to_owned();
    }
    bytes.iter().map(|byte| format!("{byte:02x}")).collect()
}

/// Callbacks that write a line for each call.
#[derive(Default)]
pub struct Lines(pub String);

impl Lines {
    fn add(&mut self, call: &str) {
        writeln!(self.0, "event {call}").unwrap();
    }
}

fn text(bytes: &[u8]) -> String {
    format!("\"{}\"", bytes.escape_ascii())
}

impl Callbacks for Lines {
    fn audible_bell(&mut self, _: &mut Screen) {
        self.add("audible_bell()");
    }

    fn visual_bell(&mut self, _: &mut Screen) {
        self.add("visual_bell()");
    }

    fn resize(&mut self, _: &mut Screen, (rows, cols): (u16, u16)) {
        self.add(&format!("resize({rows}, {cols})"));
    }

    fn set_window_icon_name(&mut self, _: &mut Screen, name: &[u8]) {
        self.add(&format!("set_window_icon_name({})", text(name)));
    }

    fn set_window_title(&mut self, _: &mut Screen, title: &[u8]) {
        self.add(&format!("set_window_title({})", text(title)));
    }

    fn copy_to_clipboard(&mut self, _: &mut Screen, kind: &[u8], data: &[u8]) {
        self.add(&format!(
            "copy_to_clipboard({}, {})",
            text(kind),
            text(data)
        ));
    }

    fn paste_from_clipboard(&mut self, _: &mut Screen, kind: &[u8]) {
        self.add(&format!("paste_from_clipboard({})", text(kind)));
    }

    fn unhandled_char(&mut self, _: &mut Screen, c: char) {
        self.add(&format!("unhandled_char({})", c as u32));
    }

    fn unhandled_control(&mut self, _: &mut Screen, b: u8) {
        self.add(&format!("unhandled_control({b})"));
    }

    fn unhandled_escape(&mut self, _: &mut Screen, i1: Option<u8>, i2: Option<u8>, b: u8) {
        self.add(&format!("unhandled_escape({i1:?}, {i2:?}, {b})"));
    }

    fn unhandled_csi(
        &mut self,
        _: &mut Screen,
        i1: Option<u8>,
        i2: Option<u8>,
        params: &[&[u16]],
        c: char,
    ) {
        self.add(&format!("unhandled_csi({i1:?}, {i2:?}, {params:?}, {c:?})"));
    }

    fn unhandled_osc(&mut self, _: &mut Screen, params: &[&[u8]]) {
        let parts: Vec<String> = params.iter().map(|part| text(part)).collect();
        self.add(&format!("unhandled_osc({})", parts.join(", ")));
    }

    fn on_scroll(&mut self, row: RowContents<'_>, alternate: bool) {
        let mut line = String::new();
        let mut state = BasicFormattedCaptureState::new();
        row.write_formatted_basic(&mut line, &mut state).unwrap();
        let alternate = u8::from(alternate);
        writeln!(self.0, "scroll {} {alternate}", hex(line.as_bytes())).unwrap();
    }
}

/// Returns the lines that describe the size and the scrollback, each with its
/// newline.
pub fn size_lines(screen: &Screen) -> String {
    let (rows, cols) = screen.size();
    let (offset, length) = (screen.scrollback(), screen.scrollback_len());
    let capacity = screen.scrollback_capacity();
    let mut lines = format!("size {rows} {cols}\nscrollback {offset} {length} {capacity}\nlengths");
    for row in 0..rows.get() {
        write!(lines, " {}", row_of(screen, row).count()).unwrap();
    }
    lines + "\n"
}

/// Returns the lines that describe the cursor, the wrapped flags and the cells,
/// each with its newline.
pub fn picture_lines(screen: &Screen) -> String {
    let (rows, _) = screen.size();
    let (row, col) = screen.cursor_position();
    let flag = |row| if screen.row_wrapped(row) { '1' } else { '0' };
    let flags: String = (0..rows.get()).map(flag).collect();
    let mut lines = format!("cursor {row} {col}\nflags {flags}\n");
    for row in 0..rows.get() {
        for (col, cell) in row_of(screen, row).enumerate() {
            if let Some(words) = cell_words(cell) {
                writeln!(lines, "cell {row} {col} {words}").unwrap();
            }
        }
    }
    lines
}

fn row_of(screen: &Screen, row: u16) -> impl Iterator<Item = &Cell> {
    (0..=u16::MAX).map_while(move |col| screen.cell(row, col))
}

/// Returns the words that describe a cell, or `None` for a blank with default
/// attributes.
fn cell_words(cell: &Cell) -> Option<String> {
    let attrs = attrs_word([
        cell.bold(),
        cell.dim(),
        cell.italic(),
        cell.underline(),
        cell.inverse(),
    ]);
    let kind = match (cell.is_wide(), cell.is_wide_continuation()) {
        (true, _) => "w",
        (_, true) => "r",
        _ => "n",
    };
    let (fg, bg) = (color_word(cell.fgcolor()), color_word(cell.bgcolor()));
    let text = hex(cell.contents().as_bytes());
    assert_eq!(cell.has_contents(), text != ".");
    let words = format!("{text} {kind} {fg} {bg} {attrs}");
    Some(words).filter(|words| words != ". n default default -")
}

/// Returns the line that describes the modes, with its newline.
pub fn mode_line(screen: &Screen) -> String {
    let modes = [
        screen.hide_cursor(),
        screen.alternate_screen(),
        screen.application_keypad(),
        screen.application_cursor(),
        screen.bracketed_paste(),
    ];
    let modes: Vec<String> = modes.iter().map(|on| u8::from(*on).to_string()).collect();
    let mouse = screen.mouse_protocol_mode();
    let encoding = screen.mouse_protocol_encoding();
    let style = screen.cursor_style() as u8;
    let (fg, bg) = (color_word(screen.fgcolor()), color_word(screen.bgcolor()));
    let attrs = attrs_word([
        screen.bold(),
        screen.dim(),
        screen.italic(),
        screen.underline(),
        screen.inverse(),
    ]);
    let modes = modes.join(" ");
    format!("screen {modes} {mouse:?} {encoding:?} {style} {fg} {bg} {attrs}\n")
}

fn color_word(color: Color) -> String {
    match color {
        Color::Default => "default".to_owned(),
        Color::Idx(index) => index.to_string(),
        Color::Rgb(red, green, blue) => format!("rgb:{red}:{green}:{blue}"),
    }
}

fn attrs_word(attrs: [bool; 5]) -> String {
    let letters = "bdiuv".chars().zip(attrs);
    let word: String = letters.filter(|(_, on)| *on).map(|(c, _)| c).collect();
    if word.is_empty() {
        "-".to_owned()
    } else {
        word
    }
}
