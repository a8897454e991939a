//! Decoding the records of a parser's events.

use crate::callbacks::Callbacks;
use crate::Screen;

/// The size in bytes of a record without its text.
const HEAD: usize = 17;

/// An event, named after its callback.
pub enum Event<'a> {
    AudibleBell,
    VisualBell,
    Resize((u16, u16)),
    SetWindowIconName(&'a [u8]),
    SetWindowTitle(&'a [u8]),
    CopyToClipboard(&'a [u8], &'a [u8]),
    PasteFromClipboard(&'a [u8]),
    UnhandledChar(char),
    UnhandledControl(u8),
    UnhandledEscape(Option<u8>, Option<u8>, u8),
    UnhandledCsi(Option<u8>, Option<u8>, Vec<Vec<u16>>, char),
    UnhandledOsc(Vec<&'a [u8]>),

    /// A row scrolled off; the value is `true` if the row was on the alternate screen.
    OnScroll(bool),
}

/// Decodes the records in `log`, and returns their events in order.
pub fn records(mut log: &[u8]) -> impl Iterator<Item = Event<'_>> {
    std::iter::from_fn(move || {
        if log.is_empty() {
            return None;
        }
        let (head, behind) = log.split_at(HEAD);
        let (text, rest) = behind.split_at(length_at(head, 9));
        log = rest;
        Some(Event::of(head, text))
    })
}

impl<'a> Event<'a> {
    fn of(head: &[u8], text: &'a [u8]) -> Self {
        let (first, second) = (number_at(head, 1), number_at(head, 5));
        match head[0] {
            0 => Self::AudibleBell,
            1 => Self::VisualBell,
            2 => Self::Resize((small(first), small(second))),
            3 => Self::SetWindowIconName(text),
            4 => Self::SetWindowTitle(text),
            5 => {
                let parts = parts_of(text);
                Self::CopyToClipboard(parts[0], parts[1])
            }
            6 => Self::PasteFromClipboard(text),
            7 => Self::UnhandledChar(character(first)),
            8 => Self::UnhandledControl(head[1]),
            9 => Self::UnhandledEscape(byte(first), byte(second), text[0]),
            10 => {
                let last = character(number_at(text, 0));
                Self::UnhandledCsi(byte(first), byte(second), groups_of(&text[4..]), last)
            }
            11 => Self::UnhandledOsc(parts_of(text)),
            _ => Self::OnScroll(first == 1),
        }
    }

    /// Invokes the event's callback, unless the event is a row that scrolled off.
    pub fn tell(&self, callbacks: &mut impl Callbacks, screen: &mut Screen) {
        match self {
            Self::AudibleBell => callbacks.audible_bell(screen),
            Self::VisualBell => callbacks.visual_bell(screen),
            Self::Resize(size) => callbacks.resize(screen, *size),
            Self::SetWindowIconName(name) => callbacks.set_window_icon_name(screen, name),
            Self::SetWindowTitle(title) => callbacks.set_window_title(screen, title),
            Self::CopyToClipboard(kind, data) => callbacks.copy_to_clipboard(screen, kind, data),
            Self::PasteFromClipboard(kind) => callbacks.paste_from_clipboard(screen, kind),
            Self::UnhandledChar(c) => callbacks.unhandled_char(screen, *c),
            Self::UnhandledControl(b) => callbacks.unhandled_control(screen, *b),
            Self::UnhandledEscape(i1, i2, b) => callbacks.unhandled_escape(screen, *i1, *i2, *b),
            Self::UnhandledCsi(i1, i2, groups, c) => {
                let groups: Vec<&[u16]> = groups.iter().map(Vec::as_slice).collect();
                callbacks.unhandled_csi(screen, *i1, *i2, &groups, *c);
            }
            Self::UnhandledOsc(parts) => callbacks.unhandled_osc(screen, parts),
            Self::OnScroll(_) => {}
        }
    }
}

/// Returns the 4-byte number at an index.
fn number_at(bytes: &[u8], at: usize) -> u32 {
    let mut number = [0; 4];
    number.copy_from_slice(&bytes[at..at + 4]);
    u32::from_le_bytes(number)
}

/// Returns the 8-byte length at an index.
fn length_at(bytes: &[u8], at: usize) -> usize {
    let mut length = [0; 8];
    length.copy_from_slice(&bytes[at..at + 8]);
    usize::try_from(u64::from_le_bytes(length)).expect("a length that was allocated")
}

fn small(number: u32) -> u16 {
    u16::try_from(number).expect("rows and columns have 2 bytes")
}

/// Returns an intermediate byte, or `None` for 256.
fn byte(number: u32) -> Option<u8> {
    u8::try_from(number).ok()
}

fn character(code: u32) -> char {
    char::from_u32(code).expect("a code is a character's")
}

/// Returns the byte strings in a text, each of which is preceded by its length.
fn parts_of(mut text: &[u8]) -> Vec<&[u8]> {
    let mut parts = Vec::new();
    while !text.is_empty() {
        let (part, rest) = text[8..].split_at(length_at(text, 0));
        parts.push(part);
        text = rest;
    }
    parts
}

/// Returns the groups of 2-byte numbers in a text, each of which is preceded by its count.
fn groups_of(mut text: &[u8]) -> Vec<Vec<u16>> {
    let mut groups = Vec::new();
    while !text.is_empty() {
        let (numbers, rest) = text[8..].split_at(2 * length_at(text, 0));
        let number = |pair: &[u8]| u16::from_le_bytes([pair[0], pair[1]]);
        groups.push(numbers.chunks_exact(2).map(number).collect());
        text = rest;
    }
    groups
}
