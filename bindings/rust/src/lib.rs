//! A headless terminal emulator. It parses what a program writes to its terminal, maintains the
//! screen that a person would see, and returns it as text, as a redraw for another terminal, or as
//! a diff from an earlier screen.
//!
//! The items are those of the crate `vt100` 0.18.1, with the addition of [`mirror`], [`Charsets`],
//! [`DiffOptions`], [`RedrawOptions`], [`Repeat`], [`Parser::pending_len`], [`Parser::is_ground`],
//! [`Parser::scrollback_erasures`],
//! [`Screen::contents_formatted_with`], [`Screen::contents_diff_scrolling`],
//! [`Screen::contents_diff_with`], [`Screen::state_formatted_with`], [`Screen::state_diff_with`],
//! [`Screen::is_steady`], [`Screen::shown_copy`], [`TERMINAL_SETUP`] and [`TERMINAL_RESTORE`]. This crate wraps a formally verified library.
//!
//! # Synopsis
//!
//! ```
//! let mut parser = vt100::Parser::default();
//!
//! let screen = parser.screen().clone();
//! parser.process(b"this text is \x1b[31mRED\x1b[m");
//! assert_eq!(
//!     parser.screen().cell(0, 13).unwrap().fgcolor(),
//!     vt100::Color::Idx(1),
//! );
//!
//! let screen = parser.screen().clone();
//! parser.process(b"\x1b[3D\x1b[32mGREEN");
//! assert_eq!(
//!     parser.screen().contents_formatted(),
//!     "\x1b[?25h\x1b[m\x1b[H\x1b[Jthis text is \x1b[32mGREEN",
//! );
//! assert_eq!(
//!     parser.screen().contents_diff(&screen),
//!     "\x1b[1;14H\x1b[32mGREEN",
//! );
//! ```
//!
//! # Memory
//!
//! If an allocation in the library fails, the call panics and has changed nothing, except that
//! `process` has applied everything before the step whose allocation failed. From then on,
//! `process` of the same parser or mirror always panics. If the allocation was for the record of an
//! event, the step has taken effect, and the parser continues with the next call, as after a
//! callback that panics. If an allocation in Rust code fails (for a string, cells or event records),
//! the program aborts.

#![warn(missing_docs)]
#![deny(unsafe_code)]

mod callbacks;
pub mod capture;
mod cell;
mod cells;
mod changes;
mod charsets;
mod color;
mod event;
mod kept_row;
#[allow(unsafe_code)]
mod library;
pub mod mirror;
mod modes;
mod options;
mod parser;
mod screen;
mod terminal;
mod texts;

pub use callbacks::Callbacks;
pub use cell::Cell;
pub use charsets::Charsets;
pub use color::Color;
pub use kept_row::KeptRow;
pub use modes::{CursorStyle, MouseProtocolEncoding, MouseProtocolMode};
pub use options::{DiffOptions, RedrawOptions, Repeat};
pub use parser::Parser;
pub use screen::Screen;
pub use terminal::{TERMINAL_RESTORE, TERMINAL_SETUP};
