//! Whether anything is half read, and the rows that a screen keeps, displayed or not.

use std::num::NonZeroU16;
use vt100::mirror::Mirror;
use vt100::{Color, Parser, Screen};

fn size(count: u16) -> NonZeroU16 {
    NonZeroU16::new(count).expect("the test passes no 0")
}

/// What is read, in order, and whether nothing is half read then.
const READ: &[(&[u8], bool)] = &[
    (b"ab", true),
    (b"\x1b", false),
    (b"[", false),
    (b"3\n", false),
    (b"m", true),
    (b"\x1b(", false),
    (b"B", true),
    (b"\x1b[?25", false),
    (b"\x18", true),
    (b"\x1b]0;title", false),
    (b"\x1b", false),
    (b"\\", true),
    (b"\x1bPdata", false),
    (b"\x07", false),
    (b"\x1a", true),
    (b"\xe2\x8c", false),
    (b"x", true),
    (b"\xf0\x9f", false),
    (b"\x1b", false),
    (b"c", true),
    (b"\xff", true),
];

#[test]
fn tells_whether_anything_is_half_read() {
    let mut parser = Parser::new(size(2), size(8), 0);
    let mut mirror = Mirror::new(size(2), size(8), 0);
    assert!(parser.is_ground() && mirror.is_ground());
    for (bytes, is_ground) in READ {
        parser.process(bytes);
        mirror.process(bytes);
        assert_eq!(parser.is_ground(), *is_ground, "{bytes:?}");
        assert_eq!(mirror.is_ground(), *is_ground, "{bytes:?}");
    }
}

/// What is read, in order, and how often scrollback was erased then.
const ERASURES: &[(&[u8], u64)] = &[
    (b"a\r\nb\r\n", 0),
    (b"\x1b[3", 0),
    (b"J", 1),
    (b"\x1b[?3J\x1b[03;9J", 3),
    (b"\x1bc", 4),
    (b"\x1b[2J\x1b[33J\x1b[;3J\x1b[3K\x1b[>3J\x1b(c", 4),
    (b"\x1b[?1049h\x1b[3J", 5),
];

#[test]
fn counts_erasures_of_scrollback() {
    let mut parser = Parser::new(size(2), size(8), 9);
    for (bytes, count) in ERASURES {
        parser.process(bytes);
        assert_eq!(parser.scrollback_erasures(), *count, "{bytes:?}");
    }
    parser.screen_mut().set_size(size(3), size(9));
    *parser.screen_mut() = Parser::new(size(2), size(8), 0).screen().clone();
    assert_eq!(parser.scrollback_erasures(), 5);
    parser.process(b"\x1b[3J");
    assert_eq!(parser.scrollback_erasures(), 6);
}

#[test]
fn a_parser_whose_screen_is_replaced_goes_on_with_its_sequence() {
    let mut parser = Parser::new(size(2), size(8), 0);
    parser.process(b"\x1b[3");
    *parser.screen_mut() = Parser::new(size(2), size(8), 0).screen().clone();
    assert!(!parser.is_ground());
    parser.process(b"1mx");
    assert!(parser.is_ground());
    assert_eq!(parser.screen().cell(0, 0).unwrap().fgcolor(), Color::Idx(1));
}

/// Returns the text of the cells of each kept row, and "+" if the row is wrapped, and checks the
/// plain text.
fn kept_rows(screen: &Screen) -> Vec<String> {
    let mut found = Vec::new();
    while let Some(row) = screen.kept_row(found.len()) {
        let cells = row
            .cells()
            .iter()
            .filter(|cell| !cell.is_wide_continuation());
        let texts = cells.map(|cell| {
            if cell.has_contents() {
                cell.contents()
            } else {
                " "
            }
        });
        let text: String = texts.collect();
        let plain = screen.kept_row_contents(found.len());
        assert_eq!(plain.as_deref(), Some(text.trim_end()));
        found.push(text + if row.wrapped() { "+" } else { "" });
    }
    assert_eq!(screen.kept_row_contents(found.len()), None);
    assert_eq!(screen.kept_row(usize::MAX), None);
    found
}

#[test]
fn rows_of_scrollback_and_of_the_page() {
    let mut parser = Parser::new(size(2), size(4), 9);
    parser.process("ab\r\nwxyz\u{4e2d}!\r\n\r\ncd\r\n\x1b[31me".as_bytes());
    let kept = ["ab", "wxyz+", "\u{4e2d}!", "", "cd  ", "e   "];
    assert_eq!(kept_rows(parser.screen()), kept);
    let last = parser.screen().kept_row(5).unwrap();
    assert_eq!(last.cells()[0].fgcolor(), Color::Idx(1));
    let saved = parser.screen().clone();
    parser.screen_mut().set_scrollback(2);
    let shown = ["ab", "wxyz+", "\u{4e2d}! ", "    ", "cd  ", "e   "];
    assert_eq!(kept_rows(parser.screen()), shown);
    assert_eq!(parser.screen().contents(), "\u{4e2d}!");
    assert_eq!(kept_rows(&saved), kept);
    parser.process(b"\x1b[?1049hpage");
    assert_eq!(kept_rows(parser.screen()), ["page", "    "]);
}
