//! Tests of callbacks: their order, the screen that is passed to them, and how they may change it.

use std::num::NonZeroU16;
use std::panic::{catch_unwind, AssertUnwindSafe};
use vt100::capture::{
    basic_formatted_rows, basic_formatted_to_plain, BasicFormattedCaptureRange,
    BasicFormattedCaptureState, RowContents,
};
use vt100::{Callbacks, Parser, Screen};

fn size(number: u16) -> NonZeroU16 {
    NonZeroU16::new(number).unwrap()
}

/// Callbacks that note each call, a bell with the cursor position, and resize the screen as
/// requested.
#[derive(Default)]
struct Calls(Vec<String>);

impl Callbacks for Calls {
    fn audible_bell(&mut self, screen: &mut Screen) {
        self.0.push(format!("bell {:?}", screen.cursor_position()));
    }

    fn resize(&mut self, screen: &mut Screen, (rows, cols): (u16, u16)) {
        screen.set_size(size(rows), size(cols));
        self.0.push(format!("resize {rows} {cols}"));
    }

    fn set_window_title(&mut self, screen: &mut Screen, title: &[u8]) {
        let title = String::from_utf8_lossy(title);
        self.0
            .push(format!("title {title} {:?}", screen.contents()));
    }

    fn unhandled_csi(
        &mut self,
        _: &mut Screen,
        i1: Option<u8>,
        _: Option<u8>,
        params: &[&[u16]],
        c: char,
    ) {
        self.0.push(format!("csi {i1:?} {params:?} {c}"));
    }

    fn on_scroll(&mut self, row: RowContents<'_>, alternate: bool) {
        let mut text = String::new();
        let mut state = BasicFormattedCaptureState::default();
        row.write_formatted_basic(&mut text, &mut state).unwrap();
        self.0.push(format!("row {text:?} {alternate}"));
    }
}

#[test]
fn calls_come_in_order_with_the_screen_behind_their_byte() {
    let mut parser = Parser::new_with_callbacks(size(2), size(10), 0, Calls::default());
    parser.process(b"ab\x07c\x07\r\nx\r\ny\x1b]2;t\x07\x1b[8;3;5t12345678\x1b[?9999;1:2h");
    let calls = [
        "bell (0, 2)",
        "bell (0, 3)",
        "row \"abc\" false",
        "title t \"x\\ny\"",
        "resize 3 5",
        "row \"\" false",
        "csi Some(63) [[9999], [1, 2]] h",
        "csi Some(63) [[9999], [1, 2]] h",
    ];
    assert_eq!(parser.callbacks().0, calls);
    assert_eq!(parser.screen().contents(), "x\ny12345678");
    assert_eq!(parser.screen().size(), (size(3), size(5)));
}

/// Callbacks that hold a second screen, and swap it with the parser's screen at each bell.
struct Exchanging(Screen);

impl Callbacks for Exchanging {
    fn audible_bell(&mut self, screen: &mut Screen) {
        std::mem::swap(screen, &mut self.0);
    }
}

#[test]
fn a_callback_may_exchange_the_screen() {
    let mut other = Parser::new(size(3), size(20), 0);
    other.process(b"other");
    let other = other.screen().clone();
    let mut parser = Parser::new_with_callbacks(size(2), size(10), 0, Exchanging(other));
    parser.process(b"mine \x1b[\x071mone\xe5\xad");
    assert_eq!(parser.screen().contents(), "otherone");
    assert_eq!(parser.callbacks().0.contents(), "mine ");
    assert!(parser.screen().cell(0, 5).unwrap().bold());
    assert!(!parser.callbacks().0.bold());
    // An incomplete character or sequence continues in the parser, whatever screen the parser has.
    parser.process(b"\x97\x07two\x1b[");
    assert_eq!(parser.screen().contents(), "mine two");
    assert_eq!(parser.callbacks().0.contents(), "otherone\u{5b57}");
    let (screen, callbacks) = parser.screen_and_callbacks_mut();
    *screen = callbacks.0.clone();
    parser.process(b"4D!");
    assert_eq!(parser.screen().contents(), "othero!e\u{5b57}");
    assert_eq!(parser.screen().size(), (size(3), size(20)));
}

#[test]
fn two_parsers_may_exchange_screens() {
    let mut one = Parser::new(size(2), size(10), 5);
    let mut two = Parser::new(size(3), size(4), 0);
    one.process(b"1\r\n2\r\n3");
    two.process(b"\x1b[7mab");
    std::mem::swap(one.screen_mut(), two.screen_mut());
    assert_eq!(
        (one.screen().contents(), two.screen().contents()),
        ("ab".into(), "2\n3".into())
    );
    assert_eq!(
        (one.screen().scrollback_len(), two.screen().scrollback_len()),
        (0, 1)
    );
    one.process(b"c");
    two.process(b"4\r\n");
    assert!(one.screen().cell(0, 2).unwrap().inverse());
    assert_eq!(two.screen().scrollback_len(), 2);
}

/// Callbacks that panic at each bell, and count titles.
struct Panicking(usize);

impl Callbacks for Panicking {
    fn audible_bell(&mut self, _: &mut Screen) {
        panic!("a bell");
    }

    fn set_window_title(&mut self, _: &mut Screen, _: &[u8]) {
        self.0 += 1;
    }
}

#[test]
fn a_parser_goes_on_behind_a_panic() {
    let mut parser = Parser::new_with_callbacks(size(2), size(10), 0, Panicking(0));
    let told = catch_unwind(AssertUnwindSafe(|| parser.process(b"a\x07b")));
    assert!(told.is_err());
    assert_eq!(parser.screen().contents(), "a");
    parser.process(b"c\x1b]2;t\x07");
    assert_eq!(parser.screen().contents(), "ac");
    assert_eq!(parser.callbacks().0, 1);
}

/// Callbacks that panic at each row that scrolls off while `is_fragile`, and count bells.
struct Fragile {
    is_fragile: bool,
    bells: usize,
}

impl Callbacks for Fragile {
    fn audible_bell(&mut self, _: &mut Screen) {
        self.bells += 1;
    }

    fn on_scroll(&mut self, _: RowContents<'_>, _: bool) {
        assert!(!self.is_fragile, "a row");
    }
}

#[test]
fn a_row_has_scrolled_off_after_a_panic() {
    let callbacks = Fragile {
        is_fragile: true,
        bells: 0,
    };
    let mut parser = Parser::new_with_callbacks(size(2), size(10), 0, callbacks);
    let told = catch_unwind(AssertUnwindSafe(|| parser.process(b"a\r\nb\r\nc\x07d")));
    assert!(told.is_err());
    assert_eq!(parser.screen().contents().lines().next(), Some("b"));
    // Neither the pending bell nor the bytes after it come later.
    parser.callbacks_mut().is_fragile = false;
    parser.process(b"e");
    assert!(parser.screen().contents().ends_with('e'));
    assert!(!parser.screen().contents().contains('d'));
    assert_eq!(parser.callbacks().bells, 0);
}

/// A writer that fails.
struct Failing;

impl std::fmt::Write for Failing {
    fn write_str(&mut self, _: &str) -> std::fmt::Result {
        Err(std::fmt::Error)
    }
}

/// Callbacks that capture rows, of which the first one is written to a writer that may fail.
struct FirstLost {
    fails: bool,
    text: String,
    state: BasicFormattedCaptureState,
}

impl Callbacks for FirstLost {
    fn on_scroll(&mut self, row: RowContents<'_>, _: bool) {
        if std::mem::take(&mut self.fails) {
            let written = row.write_formatted_basic(&mut Failing, &mut self.state);
            assert!(written.is_err());
        } else {
            let written = row.write_formatted_basic(&mut self.text, &mut self.state);
            assert!(written.is_ok());
        }
    }
}

#[test]
fn a_row_counts_as_written_if_the_writer_fails() {
    let texts = [false, true].map(|fails| {
        let callbacks = FirstLost {
            fails,
            text: String::new(),
            state: BasicFormattedCaptureState::new(),
        };
        let mut parser = Parser::new_with_callbacks(size(1), size(10), 0, callbacks);
        parser.process(b"\x1b[1mone\r\ntwo\r\nthree\r\n");
        parser.callbacks().text.clone()
    });
    let (first, rest) = texts[0].split_at("\x1b[1mone".len());
    assert_eq!(first, "\x1b[1mone");
    assert_eq!(rest, texts[1]);
}

/// Callbacks that capture rows as they scroll off.
#[derive(Default)]
struct Capturing {
    text: String,
    state: BasicFormattedCaptureState,
}

impl Callbacks for Capturing {
    fn on_scroll(&mut self, row: RowContents<'_>, _: bool) {
        row.write_formatted_basic(&mut self.text, &mut self.state)
            .unwrap();
    }
}

#[test]
fn a_capture_is_one_text() {
    let bytes = b"one\r\n\x1b[31mtwo\r\nand a row that wraps\x1b[m\r\nfour\r\n\r\nsix";
    let mut whole = Parser::new(size(20), size(8), 0);
    whole.process(bytes);
    let wanted = whole.screen().contents_formatted_basic();
    for capacity in [0, 1, 2, 100] {
        let callbacks = Capturing::default();
        let mut parser = Parser::new_with_callbacks(size(2), size(8), capacity, callbacks);
        parser.process(bytes);
        let (screen, capture) = parser.screen_and_callbacks_mut();
        let range = BasicFormattedCaptureRange::Full(&mut capture.state);
        screen
            .write_contents_formatted_basic(&mut capture.text, range)
            .unwrap();
        assert_eq!(capture.text, wanted.trim_end_matches('\n'), "{capacity}");
    }
    let plain: String = basic_formatted_to_plain(&wanted).collect();
    assert_eq!(
        plain.lines().take(3).collect::<Vec<_>>(),
        ["one", "two", "and a row that wraps"]
    );
    let rows: Vec<String> = basic_formatted_rows(&wanted, 8)
        .map(|row| basic_formatted_to_plain(row).collect())
        .collect();
    assert_eq!(rows[..5], ["one", "two", "and a ro", "w that w", "raps"]);
}

#[test]
fn each_row_of_a_large_screen_is_reported() {
    // The rows take 4.8 MB in the log, 40 bytes for each cell.
    let mut parser = Parser::new_with_callbacks(size(400), size(300), 0, Capturing::default());
    let wanted: Vec<String> = (1..=400).map(|row| format!("{row:0300}")).collect();
    for (row, text) in wanted.iter().enumerate() {
        parser.process(format!("\x1b[{}H{text}", row + 1).as_bytes());
    }
    parser.process(b"\x1b[400S");
    assert_eq!(parser.callbacks().text, wanted.join("\n"));
}

#[test]
fn a_long_title_is_passed_on_whole() {
    let title = "title ".repeat(50_000);
    let mut parser = Parser::new_with_callbacks(size(1), size(5), 0, Calls::default());
    parser.process(format!("\x1b]2;{title}\x07\x07").as_bytes());
    let calls = [format!("title {title} \"\""), "bell (0, 0)".to_owned()];
    assert!(parser.callbacks().0 == calls);
}

#[test]
fn a_copied_capture_goes_on_by_itself() {
    let mut parser = Parser::new(size(1), size(8), 0);
    parser.process(b"\x1b[1mx");
    let mut one = BasicFormattedCaptureState::new();
    let mut text = String::new();
    let write = |text: &mut String, state: &mut _| {
        let range = BasicFormattedCaptureRange::Full(state);
        parser
            .screen()
            .write_contents_formatted_basic(text, range)
            .unwrap();
    };
    write(&mut text, &mut one);
    let mut two = one.clone();
    write(&mut text, &mut one);
    write(&mut text, &mut BasicFormattedCaptureState::new().clone());
    assert_eq!(text, "\x1b[1mx\nx\x1b[1mx");
    text.clear();
    write(&mut text, &mut two);
    assert_eq!(text, "\nx");
}

#[test]
fn long_captures_are_cut_as_short_ones() {
    let piece = "\x1b[38;2;1;2;3m\u{5b57}".to_owned() + &"e\u{301}".repeat(300) + "\x1b[m\n";
    let capture = piece.repeat(20) + &"\x1b[1;31m".repeat(200) + "end";
    let pieces: String = basic_formatted_to_plain(&capture).collect();
    let wanted = ("\u{5b57}".to_owned() + &"e\u{301}".repeat(300) + "\n").repeat(20) + "end";
    assert_eq!(pieces, wanted);
    let rows: Vec<&str> = basic_formatted_rows(&capture, 1000).collect();
    let mut lines: Vec<&str> = capture.split('\n').collect();
    assert_eq!(rows, lines);
    lines = basic_formatted_rows(&capture, 302).collect();
    assert_eq!(lines, rows);
    assert_eq!(basic_formatted_rows(&capture, 301).count(), 41);
    assert_eq!(basic_formatted_rows("", 5).collect::<Vec<_>>(), [""]);
    assert_eq!(basic_formatted_to_plain("").count(), 0);
}
