//! Tests of the exact types of the public items of the crate `vt100` 0.18.1. This file also
//! compiles with that crate.

#![allow(clippy::type_complexity, clippy::useless_conversion)]

use std::fmt::{self, Debug};
use std::iter::FusedIterator;
use std::num::NonZeroU16;
use std::panic::{RefUnwindSafe, UnwindSafe};
use std::sync::{OnceLock, RwLock};
use vt100::capture::{
    basic_formatted_rows, basic_formatted_to_plain, basic_formatted_to_plain_indexed,
    BasicFormattedCaptureRange, BasicFormattedCaptureState, BasicFormattedRows,
    BasicFormattedToPlain, BasicFormattedToPlainIndexed, RowContents,
};
use vt100::{
    Callbacks, Cell, Color, CursorStyle, MouseProtocolEncoding, MouseProtocolMode, Parser, Screen,
};

fn is_shared<T: Send + Sync + Unpin + UnwindSafe + RefUnwindSafe>() {}
fn is_plain_data<T: Send + Sync + Unpin + Debug + Copy + Eq + Default + 'static>() {}
fn is_fused<T: FusedIterator>() {}
fn has_shared_iterator<T: Send + Sync + Unpin + UnwindSafe + RefUnwindSafe>(_: &T) {}

#[test]
fn types_are_shared_by_threads() {
    is_shared::<Parser>();
    is_shared::<Screen>();
    is_shared::<Cell>();
    is_shared::<Color>();
    is_shared::<BasicFormattedCaptureState>();
    is_shared::<RowContents<'static>>();
    is_shared::<BasicFormattedToPlain<'static>>();
    is_shared::<BasicFormattedToPlainIndexed<'static>>();
    is_shared::<BasicFormattedRows<'static>>();
}

#[test]
fn types_have_the_derived_traits() {
    fn is_range<T: Send + Sync + Unpin + RefUnwindSafe + Debug>() {}
    fn is_cell<T: Clone + Debug + Eq>() {}
    fn is_screen<T: Clone + Debug>() {}
    fn is_state<T: Clone + Debug + Default>() {}
    fn is_writer<T: std::io::Write + Default>() {}
    fn is_callbacks<T: Callbacks>() {}
    is_range::<BasicFormattedCaptureRange<'static>>();
    is_cell::<Cell>();
    is_screen::<Screen>();
    is_state::<BasicFormattedCaptureState>();
    is_writer::<Parser>();
    is_callbacks::<()>();
    is_plain_data::<Color>();
    is_plain_data::<CursorStyle>();
    is_plain_data::<MouseProtocolEncoding>();
    is_plain_data::<MouseProtocolMode>();
    is_fused::<BasicFormattedToPlain<'static>>();
    is_fused::<BasicFormattedToPlainIndexed<'static>>();
    is_fused::<BasicFormattedRows<'static>>();
}

#[test]
fn default_sizes_are_constants() {
    const ROWS: NonZeroU16 = Parser::DEFAULT_ROWS;
    const COLS: NonZeroU16 = Parser::DEFAULT_COLS;
    assert_eq!((ROWS.get(), COLS.get()), (24, 80));
}

struct Nothing;
impl Callbacks for Nothing {}

#[test]
fn parsers_have_the_signatures() {
    let _: fn(NonZeroU16, NonZeroU16, usize) -> Parser = Parser::new;
    let _: fn(NonZeroU16, NonZeroU16, usize, Nothing) -> Parser<Nothing> =
        Parser::new_with_callbacks;
    let _: fn(&mut Parser<Nothing>, &[u8]) = Parser::process;
    let _: fn(&mut Parser<Nothing>, NonZeroU16, NonZeroU16) = Parser::set_size;
    let _: for<'a> fn(&'a Parser<Nothing>) -> &'a Screen = Parser::screen;
    let _: for<'a> fn(&'a mut Parser<Nothing>) -> &'a mut Screen = Parser::screen_mut;
    let _: for<'a> fn(&'a Parser<Nothing>) -> &'a Nothing = Parser::callbacks;
    let _: for<'a> fn(&'a mut Parser<Nothing>) -> &'a mut Nothing = Parser::callbacks_mut;
    let _: for<'a> fn(&'a mut Parser<Nothing>) -> (&'a mut Screen, &'a mut Nothing) =
        Parser::screen_and_callbacks_mut;
    let _: fn() -> Parser = Parser::default;
}

#[test]
fn screens_have_the_signatures() {
    let _: fn(&mut Screen, NonZeroU16, NonZeroU16) = Screen::set_size;
    let _: fn(&Screen) -> (NonZeroU16, NonZeroU16) = Screen::size;
    for f in [
        Screen::scrollback_len,
        Screen::scrollback_capacity,
        Screen::scrollback,
    ] {
        let _: fn(&Screen) -> usize = f;
    }
    let _: fn(&mut Screen, usize) = Screen::set_scrollback;
    let _: fn(&mut Screen) = Screen::clear_scrollback;
    let strings: [fn(&Screen) -> String; 7] = [
        Screen::contents,
        Screen::state_formatted,
        Screen::contents_formatted,
        Screen::contents_formatted_basic,
        Screen::input_mode_formatted,
        Screen::attributes_formatted,
        Screen::cursor_state_formatted,
    ];
    let diffs: [fn(&Screen, &Screen) -> String; 3] = [
        Screen::state_diff,
        Screen::contents_diff,
        Screen::input_mode_diff,
    ];
    let _ = (strings, diffs);
    let _: fn(&Screen, u16, u16, u16, u16) -> String = Screen::contents_between;
    let _: fn(&Screen) -> (u16, u16) = Screen::cursor_position;
    let _: for<'a> fn(&'a Screen, u16, u16) -> Option<&'a Cell> = Screen::cell;
    let _: fn(&Screen, u16) -> bool = Screen::row_wrapped;
}

#[test]
fn modes_and_attributes_have_the_signatures() {
    let _: [fn(&Screen) -> bool; 10] = [
        Screen::alternate_screen,
        Screen::application_keypad,
        Screen::application_cursor,
        Screen::hide_cursor,
        Screen::bracketed_paste,
        Screen::bold,
        Screen::dim,
        Screen::italic,
        Screen::underline,
        Screen::inverse,
    ];
    let _: fn(&Screen) -> MouseProtocolMode = Screen::mouse_protocol_mode;
    let _: fn(&Screen) -> MouseProtocolEncoding = Screen::mouse_protocol_encoding;
    let _: fn(&Screen) -> CursorStyle = Screen::cursor_style;
    let _: fn(&Screen) -> Color = Screen::fgcolor;
    let _: fn(&Screen) -> Color = Screen::bgcolor;
}

#[test]
fn cells_and_captures_have_the_signatures() {
    let _: for<'a> fn(&'a Cell) -> &'a str = Cell::contents;
    let _: [fn(&Cell) -> bool; 8] = [
        Cell::has_contents,
        Cell::is_wide,
        Cell::is_wide_continuation,
        Cell::bold,
        Cell::dim,
        Cell::italic,
        Cell::underline,
        Cell::inverse,
    ];
    let _: [fn(&Cell) -> Color; 2] = [Cell::fgcolor, Cell::bgcolor];
    let _: fn() -> BasicFormattedCaptureState = BasicFormattedCaptureState::new;
    let _: for<'a> fn(&'a str) -> BasicFormattedToPlain<'a> = basic_formatted_to_plain;
    let _: for<'a> fn(&'a str) -> BasicFormattedToPlainIndexed<'a> =
        basic_formatted_to_plain_indexed;
    let _: for<'a> fn(&'a str, u16) -> BasicFormattedRows<'a> = basic_formatted_rows;
}

#[test]
fn callbacks_have_the_signatures() {
    let _: fn(&mut Nothing, &mut Screen) = <Nothing as Callbacks>::audible_bell;
    let _: fn(&mut Nothing, &mut Screen) = <Nothing as Callbacks>::visual_bell;
    let _: fn(&mut Nothing, &mut Screen, (u16, u16)) = <Nothing as Callbacks>::resize;
    let _: fn(&mut Nothing, &mut Screen, &[u8]) = <Nothing as Callbacks>::set_window_icon_name;
    let _: fn(&mut Nothing, &mut Screen, &[u8]) = <Nothing as Callbacks>::set_window_title;
    let _: fn(&mut Nothing, &mut Screen, &[u8], &[u8]) = <Nothing as Callbacks>::copy_to_clipboard;
    let _: fn(&mut Nothing, &mut Screen, &[u8]) = <Nothing as Callbacks>::paste_from_clipboard;
    let _: fn(&mut Nothing, &mut Screen, char) = <Nothing as Callbacks>::unhandled_char;
    let _: fn(&mut Nothing, &mut Screen, u8) = <Nothing as Callbacks>::unhandled_control;
    let _: fn(&mut Nothing, &mut Screen, Option<u8>, Option<u8>, u8) =
        <Nothing as Callbacks>::unhandled_escape;
    let _: fn(&mut Nothing, &mut Screen, Option<u8>, Option<u8>, &[&[u16]], char) =
        <Nothing as Callbacks>::unhandled_csi;
    let _: fn(&mut Nothing, &mut Screen, &[&[u8]]) = <Nothing as Callbacks>::unhandled_osc;
    let _: fn(&mut Nothing, RowContents<'_>, bool) = <Nothing as Callbacks>::on_scroll;
}

/// A writer that borrows a writer of any type.
struct Borrowing<'a>(&'a mut dyn fmt::Write);

impl fmt::Write for Borrowing<'_> {
    fn write_str(&mut self, s: &str) -> fmt::Result {
        self.0.write_str(s)
    }
}

#[test]
fn texts_are_written_to_any_writer() {
    let mut parser = Parser::default();
    parser.process(b"a\x1b[31mb\r\nc");
    let screen = parser.screen();
    let (mut text, mut state) = (String::new(), BasicFormattedCaptureState::new());
    let visible = BasicFormattedCaptureRange::Visible;
    let full = BasicFormattedCaptureRange::Full(&mut state);
    screen
        .write_contents_formatted_basic(&mut Borrowing(&mut text), visible)
        .unwrap();
    let mut writer: &mut dyn fmt::Write = &mut text;
    screen
        .write_contents_formatted_basic(&mut writer, full)
        .unwrap();
    assert_eq!(text.matches("\x1b[31mb\nc").count(), 2, "{text:?}");
}

#[test]
fn rows_are_iterators_that_threads_share() {
    let (parser, other) = (Parser::default(), Parser::default());
    let rows = parser.screen().rows(0, 80);
    let formatted = parser.screen().rows_formatted(0, 80);
    let diff = parser.screen().rows_diff(other.screen(), 0, 80);
    has_shared_iterator(&rows);
    has_shared_iterator(&formatted);
    has_shared_iterator(&diff);
    assert_eq!(
        (rows.count(), formatted.count(), diff.count()),
        (24, 24, 24)
    );
}

/// Callbacks that pass titles on to callbacks of any type.
struct Boxed(Box<dyn Callbacks + Send>);

impl Callbacks for Boxed {
    fn set_window_title(&mut self, screen: &mut Screen, title: &[u8]) {
        self.0.set_window_title(screen, title);
    }
}

#[test]
fn callbacks_and_parsers_are_objects() {
    let size = |number| NonZeroU16::new(number).unwrap();
    let callbacks = Boxed(Box::new(()));
    let mut parser = Parser::new_with_callbacks(size(2), size(5), 0, callbacks);
    parser.process(b"\x1b]2;x\x07a");
    assert_eq!(parser.screen().contents(), "a");
    let mut writer: Box<dyn std::io::Write> = Box::new(Parser::default());
    write!(writer, "{}", 1).unwrap();
    writer.flush().unwrap();
}

#[test]
fn the_type_of_callbacks_is_inferred() {
    fn takes(_: &Parser) {}
    static SHARED: OnceLock<RwLock<Parser>> = OnceLock::new();
    let size = |number| NonZeroU16::new(number).unwrap();
    let parser = Parser::new(size(2), size(5), 0);
    takes(&parser);
    SHARED.get_or_init(|| RwLock::new(Parser::default()));
}

#[test]
fn a_color_has_one_conversion() {
    // The type of the argument can be inferred, because there is only one implementation of `From`.
    let color: Color = Color::from(Default::default());
    assert_eq!(color, Color::Default);
}

#[test]
fn matches_are_exhaustive() {
    match Color::Default {
        Color::Default | Color::Idx(_) | Color::Rgb(_, _, _) => {}
    }
    match CursorStyle::Default {
        CursorStyle::Default
        | CursorStyle::BlinkBlock
        | CursorStyle::SteadyBlock
        | CursorStyle::BlinkUnderline
        | CursorStyle::SteadyUnderline
        | CursorStyle::BlinkVerticalBar
        | CursorStyle::SteadyVerticalBar => {}
    }
    match BasicFormattedCaptureRange::Visible {
        BasicFormattedCaptureRange::Full(_) | BasicFormattedCaptureRange::Visible => {}
    }
    assert_eq!(CursorStyle::SteadyVerticalBar as u8, 6);
    assert_eq!(MouseProtocolMode::AnyMotion as u8, 4);
    assert_eq!(MouseProtocolEncoding::Sgr as u8, 2);
}
