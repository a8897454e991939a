//! Tests of screens: references to them, copies of them, and their state after changes.

use std::io::Write;
use std::num::NonZeroU16;
use std::panic::{catch_unwind, AssertUnwindSafe, RefUnwindSafe, UnwindSafe};
use vt100::{
    Cell, Color, DiffOptions, MouseProtocolEncoding, MouseProtocolMode, Parser, RedrawOptions,
    Screen,
};

fn size(number: u16) -> NonZeroU16 {
    NonZeroU16::new(number).unwrap()
}

fn is_plain_data<T: Send + Sync + UnwindSafe + RefUnwindSafe>() {}

#[test]
fn types_may_go_to_other_threads() {
    is_plain_data::<Parser>();
    is_plain_data::<Parser<Nothing>>();
    is_plain_data::<Screen>();
    is_plain_data::<Cell>();
    is_plain_data::<vt100::capture::BasicFormattedCaptureState>();
}

struct Nothing;
impl vt100::Callbacks for Nothing {}

#[test]
fn cells_are_those_behind_the_last_change() {
    let mut parser = Parser::new(size(2), size(4), 3);
    let text = |screen: &Screen, row, col| screen.cell(row, col).map(|c| c.contents().to_owned());
    assert_eq!(text(parser.screen(), 0, 0).as_deref(), Some(""));
    parser.process(b"ab");
    assert_eq!(text(parser.screen(), 0, 1).as_deref(), Some("b"));
    assert_eq!(text(parser.screen(), 0, 4), None);
    assert_eq!(text(parser.screen(), 2, 0), None);
    parser.process("\r\n\u{5b57}c\r\nd".as_bytes());
    assert_eq!(text(parser.screen(), 0, 0).as_deref(), Some("\u{5b57}"));
    assert!(parser.screen().cell(0, 0).unwrap().is_wide());
    assert!(parser.screen().cell(0, 1).unwrap().is_wide_continuation());
    parser.screen_mut().set_scrollback(1);
    assert_eq!(text(parser.screen(), 0, 0).as_deref(), Some("a"));
    assert_eq!(parser.screen().scrollback(), 1);
    parser.screen_mut().clear_scrollback();
    assert_eq!(text(parser.screen(), 0, 0).as_deref(), Some("\u{5b57}"));
    parser.set_size(size(1), size(2));
    assert_eq!(text(parser.screen(), 0, 0).as_deref(), Some("d"));
    assert_eq!(text(parser.screen(), 0, 2), None);
    parser.screen_mut().set_size(size(3), size(5));
    assert_eq!(text(parser.screen(), 2, 4).as_deref(), Some(""));
    *parser.screen_mut() = Parser::default().screen().clone();
    assert_eq!(parser.screen().size(), (size(24), size(80)));
    assert_eq!(text(parser.screen(), 23, 79).as_deref(), Some(""));
}

/// Returns the text of the cell at a position on a screen of three rows that display these texts.
fn letter(rows: [&str; 3], (row, col): (u16, u16)) -> Option<String> {
    let text = rows.get(usize::from(row))?;
    text.chars().nth(col.into()).map(String::from)
}

#[test]
fn cells_are_equal_in_any_order_of_requests() {
    let mut parser = Parser::new(size(3), size(4), 1);
    parser.process(b"abcd\r\nefgh\r\nijkl\r\nmnop");
    let places: Vec<(u16, u16)> = (0..4)
        .flat_map(|row| (0..5).map(move |col| (row, col)))
        .collect();
    for (scrollback, rows) in [(0, ["efgh", "ijkl", "mnop"]), (1, ["abcd", "efgh", "ijkl"])] {
        for first in &places {
            for second in &places {
                parser.screen_mut().set_scrollback(scrollback);
                let requests = [first, second, &(1, 1), second, first, &(1, 2), &(0, 0)];
                for &place in requests {
                    let cell = parser.screen().cell(place.0, place.1);
                    let text = cell.map(|cell| cell.contents().to_owned());
                    assert_eq!(text, letter(rows, place), "{requests:?} {place:?}");
                }
            }
        }
    }
}

#[test]
fn a_cell_stays_where_it_is_until_the_screen_changes() {
    let mut parser = Parser::new(size(2), size(4), 0);
    parser.process(b"abcd\r\nefgh");
    let screen = parser.screen();
    let cells = [(1, 2), (1, 3), (0, 1), (0, 2), (0, 3)].map(|(row, col)| {
        let cell = screen.cell(row, col).unwrap();
        (row, col, cell)
    });
    for (row, col, cell) in cells {
        assert!(std::ptr::eq(cell, screen.cell(row, col).unwrap()));
    }
    let text: String = cells.iter().map(|(_, _, cell)| cell.contents()).collect();
    assert_eq!(text, "ghbcd");
}

#[test]
fn cells_are_compared_by_what_they_show() {
    let mut parser = Parser::new(size(1), size(9), 0);
    parser.process(b"aba\x1b[1ma\x1b[22;31ma\x1b[38;2;1;2;3ma\x1b[38;2;1;2;3ma");
    let cell = |col| parser.screen().cell(0, col).unwrap();
    assert_eq!(cell(0), cell(2));
    assert_eq!(cell(5), cell(6));
    for col in [1, 3, 4, 5, 7] {
        assert_ne!(cell(0), cell(col), "{col}");
    }
    assert_eq!(cell(4).fgcolor(), Color::Idx(1));
    assert_eq!(cell(5).fgcolor(), Color::Rgb(1, 2, 3));
    assert_eq!(cell(0).clone(), *cell(2));
    assert!(format!("{:?}", cell(1)).contains("\"b\""));
    assert!(format!("{:?}", parser.screen()).contains("abaaaaa"));
}

#[test]
fn a_copy_stays_as_it_was() {
    let mut parser = Parser::default();
    assert_eq!(
        parser.screen().size(),
        (Parser::DEFAULT_ROWS, Parser::DEFAULT_COLS)
    );
    parser.write_all(b"\x1b[?1000h\x1b[?1006hshown").unwrap();
    parser.flush().unwrap();
    let copy = parser.screen().clone();
    parser.process(b"\x1bc");
    assert_eq!(copy.contents(), "shown");
    assert_eq!(copy.mouse_protocol_mode(), MouseProtocolMode::PressRelease);
    assert_eq!(copy.mouse_protocol_encoding(), MouseProtocolEncoding::Sgr);
    assert_eq!(parser.screen().contents(), "");
    assert_eq!(
        parser.screen().mouse_protocol_mode(),
        MouseProtocolMode::None
    );
}

#[test]
fn everything_that_is_written_is_processed() {
    let mut parser = Parser::new(size(2), size(20), 0);
    let text = "line of text\r\n".repeat(100_000) + "the last one";
    assert_eq!(parser.write(text.as_bytes()).unwrap(), text.len());
    assert_eq!(parser.screen().contents(), "line of text\nthe last one");
}

#[test]
fn a_screen_does_not_differ_from_itself() {
    let mut parser = Parser::default();
    parser.process(b"\x1b[?1hsome\x1b[7m text");
    let screen = parser.screen();
    assert_eq!(screen.contents_diff(screen), "");
    assert_eq!(screen.state_diff(screen), "");
    assert_eq!(screen.input_mode_diff(screen), "");
    assert!(screen.rows_diff(screen, 0, 80).all(|row| row.is_empty()));
}

#[test]
fn from_another_size_a_difference_is_a_redraw() {
    let mut parser = Parser::new(size(3), size(5), 0);
    parser.process(b"\x1b[?1hone\r\n\x1b[2mt\x1b[22;1mwo");
    let prev = Parser::new(size(2), size(9), 0).screen().clone();
    let screen = parser.screen();
    assert_eq!(screen.contents_diff(&prev), screen.contents_formatted());
    let modes = screen.input_mode_diff(&prev);
    assert_eq!(modes, "\x1b[?1h");
    assert_eq!(
        screen.state_diff(&prev),
        screen.contents_formatted() + &modes
    );
    let portable = RedrawOptions { portable: true };
    let options = DiffOptions {
        portable: true,
        ..DiffOptions::default()
    };
    assert_ne!(
        screen.contents_formatted_with(portable),
        screen.contents_formatted()
    );
    assert_eq!(
        screen.contents_diff_with(&prev, options),
        screen.contents_formatted_with(portable)
    );
    assert_eq!(
        screen.state_diff_with(&prev, options),
        screen.contents_formatted_with(portable) + &modes
    );
    let rows: Vec<String> = screen.rows_diff(&prev, 0, 5).collect();
    assert_eq!(
        rows,
        screen.rows_formatted(0, 5).take(2).collect::<Vec<_>>()
    );
    let redraw = screen.state_formatted();
    assert_eq!(
        redraw,
        screen.contents_formatted() + &screen.input_mode_formatted()
    );
}

#[test]
fn columns_past_the_screen_have_no_text() {
    let mut parser = Parser::new(size(2), size(5), 0);
    parser.process(b"abcde\r\nf");
    let none = vec![String::new(); 2];
    assert_eq!(parser.screen().rows(5, 3).collect::<Vec<_>>(), none);
    assert_eq!(
        parser.screen().rows_formatted(5, 3).collect::<Vec<_>>(),
        none
    );
    let prev = Parser::new(size(2), size(5), 0).screen().clone();
    assert_eq!(
        parser.screen().rows_diff(&prev, 5, 3).collect::<Vec<_>>(),
        none
    );
    assert!(!parser.screen().row_wrapped(7));
}

#[test]
fn several_rows_from_a_column_past_the_screen_are_a_panic() {
    let mut parser = Parser::new(size(2), size(5), 0);
    parser.process(b"abcde\r\nf");
    let screen = parser.screen();
    assert_eq!(screen.contents_between(0, 5, 1, 1), "\nf");
    assert_eq!(screen.contents_between(0, 6, 0, 9), "");
    assert!(catch_unwind(AssertUnwindSafe(|| screen.contents_between(0, 6, 1, 1))).is_err());
    assert_eq!(screen.contents(), "abcde\nf");
}

#[test]
fn threads_may_read_one_screen() {
    let mut parser = Parser::default();
    for row in 0..40 {
        parser.process(format!("row {row}\r\n").as_bytes());
    }
    let (screen, prev) = (parser.screen(), Parser::default());
    let (text, prev) = (screen.contents(), prev.screen());
    let diff = screen.contents_diff(prev);
    std::thread::scope(|scope| {
        for turn in 0..4 {
            let (text, diff) = (&text, &diff);
            scope.spawn(move || {
                for _ in 0..50 {
                    assert_eq!(screen.contents(), *text);
                    assert_eq!(screen.cell(turn, 0).unwrap().contents(), "r");
                    assert_eq!(screen.contents_diff(prev), *diff);
                    assert_ne!(prev.contents_diff(screen), *diff);
                }
            });
        }
    });
}

/// U+231A, a wide character that U+FE0E and U+FE0F make narrow.
const NARROWED: &str = "\u{231a}\u{fe0e}\u{fe0f}";

#[test]
fn a_screen_with_a_narrowed_glyph_is_not_steady() {
    let mut parser = Parser::new(size(2), size(4), 0);
    assert!(parser.screen().is_steady());
    for (text, is_steady) in [
        ("\x1b[31mabcd\u{4e2d}\u{6587}", true),
        ("\x1b[H\x1b[Je\u{301}\u{302}", true),
        ("\x1b[H\x1b[Ja\u{2764}\u{fe0f}b", true), // a heart that becomes wide
        ("\x1b[H\x1b[J", true),
        (NARROWED, false),
        ("\x1b[?47h", true),
        ("\x1b[?47l", false),
        ("\x1b[1;1Hx", true),
    ] {
        parser.process(text.as_bytes());
        assert_eq!(parser.screen().is_steady(), is_steady, "{text:?}");
        assert_eq!(parser.screen().clone().is_steady(), is_steady, "{text:?}");
    }
}

#[test]
fn a_shown_copy_displays_the_same_and_nothing_else() {
    let mut parser = Parser::new(size(2), size(4), 5);
    parser.process(b"a\r\nb\r\nc\r\nd");
    let copy = parser.screen().shown_copy();
    assert_eq!(copy.size(), (size(2), size(4)));
    assert_eq!(copy.contents(), "c\nd");
    assert_eq!(copy.cursor_position(), (1, 1));
    assert_eq!(
        (parser.screen().scrollback_len(), copy.scrollback_len()),
        (2, 0)
    );
    parser.process(b"\x1b[?1049h\x1b[2;2H\x1b[7mx");
    let other = parser.screen().shown_copy();
    assert_eq!(other.contents_diff(parser.screen()), "");
    assert_eq!(other.contents(), "\n x");
    assert_eq!(copy.contents(), "c\nd");
    parser.process(b"\x1b[?1049l");
    assert_eq!(parser.screen().contents_diff(&copy), "");
    parser.screen_mut().set_scrollback(1);
    let scrolled = parser.screen().shown_copy();
    assert_eq!(scrolled.contents(), "b\nc");
    assert_eq!(scrolled.scrollback_len(), 2);
}

#[test]
fn the_bytes_of_an_unfinished_command_are_counted() {
    let mut parser = Parser::new_with_callbacks(size(2), size(4), 0, Nothing);
    assert_eq!(parser.pending_len(), 0);
    for (bytes, len) in [
        (&b"ab\x1b]"[..], 0),
        (b"2;ti", 4),
        (b"\r\n", 4),
        (b"\xc3\xa4", 6),
        (b"\x18", 0),
        (b"\x1b]0;title", 7),
    ] {
        parser.process(bytes);
        assert_eq!(parser.pending_len(), len, "{bytes:?}");
    }
    // The bytes are held by the parser, not by the screen.
    *parser.screen_mut() = Parser::default().screen().clone();
    assert_eq!(parser.pending_len(), 7);
    parser.process(b"\x07");
    assert_eq!(parser.pending_len(), 0);
}

#[test]
fn a_terminal_is_set_up_and_left() {
    let mut parser = Parser::new(size(3), size(10), 0);
    parser.process(b"ab\x1b[2;3r\x1b[?6h\x1b]2;title");
    parser.process(vt100::TERMINAL_SETUP.as_bytes());
    // The region is the whole page again: the first row scrolls off.
    parser.process(b"cd\x1b[3;1H\n");
    assert_eq!(parser.screen().contents(), "");
    let count = |text| vt100::TERMINAL_SETUP.matches(text).count();
    assert_eq!((count("\x1b[8C\x1bH"), count("\x1bH")), (40, 40));
    // Synchronized updates, national characters, and bidirectional text in the program's order.
    for end in ["\x1b[?2026l", "\x1b[?42l", "\x1b[8h", "\x1b[0 k"] {
        assert_eq!(count(end), 1);
    }
    let fresh = parser.screen().clone();
    for number in [9, 1000, 1002, 1003, 1005, 1006] {
        parser.process(b"\x1b[1;31m\x1b[?25l\x1b=\x1b[?1;2004h\x1b[5 q");
        parser.process(format!("\x1b[?{number}h").as_bytes());
        parser.process(vt100::TERMINAL_RESTORE.as_bytes());
        assert_eq!(parser.screen().state_diff(&fresh), "", "{number}");
    }
}
