//! Tests of the cells of a screen that was read before it changed: those of rows that have changed,
//! and those of rows that have not.

use std::num::NonZeroU16;
use vt100::{Callbacks, Parser, Screen};

fn size(number: u16) -> NonZeroU16 {
    NonZeroU16::new(number).unwrap()
}

/// Checks that the cells are those of a clone, from which no cell was requested before. Positions
/// next to the screen are included.
fn check_cells(screen: &Screen, change: &str) {
    let clone = screen.clone();
    let (rows, cols) = screen.size();
    for row in 0..=rows.get() {
        for col in 0..cols.get() + 9 {
            let cells = (screen.cell(row, col), clone.cell(row, col));
            assert_eq!(cells.0, cells.1, "{change}: {row} {col}");
        }
    }
}

/// Returns the texts of the cells of each row, joined by `|`.
fn texts<CB: Callbacks>(parser: &Parser<CB>) -> Vec<String> {
    let (rows, cols) = parser.screen().size();
    let row_text = |row| {
        let cells = (0..cols.get()).map(|col| parser.screen().cell(row, col).unwrap().contents());
        cells.collect::<Vec<_>>().join("|")
    };
    (0..rows.get()).map(row_text).collect()
}

/// Returns a parser whose cells have been read after each of several changes, so that rows are kept.
fn well_read<CB: Callbacks>(callbacks: CB) -> Parser<CB> {
    let mut parser = Parser::new_with_callbacks(size(4), size(3), 10, callbacks);
    parser.process(b"l\r\nm\r\nab\r\ncde\r\n\x1b[1mf\r\n\x1b[m");
    for _ in 0..4 {
        check_cells(parser.screen(), "before");
        parser.process(b"g\x08");
    }
    assert_eq!(texts(&parser), ["a|b|", "c|d|e", "f||", "g||"]);
    parser
}

/// Changes by output, and the texts of the cells after them.
const OUTPUT: &[(&str, [&str; 4])] = &[
    ("", ["a|b|", "c|d|e", "f||", "g||"]),
    ("\x1b[7m", ["a|b|", "c|d|e", "f||", "g||"]),
    ("x", ["a|b|", "c|d|e", "f||", "x||"]),
    ("\x1b[1;3Hx", ["a|b|x", "c|d|e", "f||", "g||"]),
    ("\x1b[1Ha", ["a|b|", "c|d|e", "f||", "g||"]),
    ("\x1b[1H\x1b[31ma", ["a|b|", "c|d|e", "f||", "g||"]),
    ("\x1b[3Hf", ["a|b|", "c|d|e", "f||", "g||"]),
    ("\x1b[44m\x1b[2;2H\x1b[K", ["a|b|", "c||", "f||", "g||"]),
    ("\x1b[1;2H\u{301}", ["a\u{301}|b|", "c|d|e", "f||", "g||"]),
    ("\x1b[2H\u{5b57}", ["a|b|", "\u{5b57}||e", "f||", "g||"]),
    ("\x1b[2H\u{5b57}\x1b[2;2Hx", ["a|b|", "|x|e", "f||", "g||"]),
    (
        "\u{2764}\u{fe0f}",
        ["a|b|", "c|d|e", "f||", "\u{2764}\u{fe0f}||"],
    ),
    ("\r\nh", ["c|d|e", "f||", "g||", "h||"]),
    ("\x1b[H\x1bM", ["||", "a|b|", "c|d|e", "f||"]),
    ("\x1b[2H\x1b[L", ["a|b|", "||", "c|d|e", "f||"]),
    ("\x1b[2H\x1b[M", ["a|b|", "f||", "g||", "||"]),
    ("\x1b[2;3r\x1b[3H\n", ["a|b|", "f||", "||", "g||"]),
    ("\x1b[2S", ["f||", "g||", "||", "||"]),
    ("\x1b[T", ["||", "a|b|", "c|d|e", "f||"]),
    ("\x1b[2H\x1b[P", ["a|b|", "d|e|", "f||", "g||"]),
    ("\x1b[2H\x1b[@", ["a|b|", "|c|d", "f||", "g||"]),
    ("\x1b[2J", ["||", "||", "||", "||"]),
    ("\x1b[2Hcdefgh", ["a|b|", "c|d|e", "f|g|h", "g||"]),
    ("\x1b[3J", ["a|b|", "c|d|e", "f||", "g||"]),
    ("\x1bc", ["||", "||", "||", "||"]),
    ("\x1b[?47h", ["||", "||", "||", "||"]),
    ("\x1b[?1049hx", ["x||", "||", "||", "||"]),
    ("\x1b[?1049hx\x1b[?1049l", ["a|b|", "c|d|e", "f||", "g||"]),
    ("\x1b[?47hx\x1b[?47l", ["a|b|", "c|d|e", "f||", "g||"]),
];

#[test]
fn cells_are_right_after_output() {
    for (bytes, rows) in OUTPUT {
        let mut parser = well_read(());
        parser.process(bytes.as_bytes());
        assert_eq!(texts(&parser), *rows, "{bytes:?}");
        check_cells(parser.screen(), bytes);
        parser.process(b"\x07");
        check_cells(parser.screen(), bytes);
    }
}

#[test]
fn cells_are_right_after_each_of_many_changes() {
    let mut parser = well_read(());
    for (bytes, _) in OUTPUT.iter().chain(OUTPUT.iter().rev()) {
        parser.process(bytes.as_bytes());
        check_cells(parser.screen(), bytes);
    }
}

#[test]
fn colors_and_attributes_of_kept_rows_are_right() {
    let mut parser = well_read(());
    parser.process(b"\x1b[Ha\x1b[2H\x1b[31mc\x1b[m\x1b[3;2H\x1b[7mx");
    let cell = |row, col| parser.screen().cell(row, col).unwrap();
    assert_eq!(cell(0, 0).fgcolor(), vt100::Color::Default);
    assert_eq!(cell(1, 0).fgcolor(), vt100::Color::Idx(1));
    assert_eq!(cell(1, 1).fgcolor(), vt100::Color::Default);
    assert!(cell(2, 0).bold() && !cell(2, 0).inverse());
    assert!(cell(2, 1).inverse() && !cell(2, 1).bold());
    check_cells(parser.screen(), "attributes");
}

/// A change through the methods of a parser and of its screen, and the texts of the cells after it.
type Change = (&'static str, fn(&mut Parser), &'static [&'static str]);

const CALLS: &[Change] = &[
    (
        "narrower",
        |p| p.set_size(size(4), size(2)),
        &["a|b", "c|d", "f|", "g|"],
    ),
    (
        "wider",
        |p| p.set_size(size(4), size(4)),
        &["a|b||", "c|d|e|", "f|||", "g|||"],
    ),
    ("lower", |p| p.set_size(size(2), size(3)), &["f||", "g||"]),
    (
        "higher",
        |p| p.set_size(size(5), size(3)),
        &["m||", "a|b|", "c|d|e", "f||", "g||"],
    ),
    (
        "screen",
        |p| p.screen_mut().set_size(size(2), size(1)),
        &["f", "g"],
    ),
    (
        "lines",
        |p| p.screen_mut().set_scrollback(1),
        &["m||", "a|b|", "c|d|e", "f||"],
    ),
    (
        "all lines",
        |p| p.screen_mut().set_scrollback(9),
        &["l||", "m||", "a|b|", "c|d|e"],
    ),
    (
        "no lines",
        |p| p.screen_mut().set_scrollback(0),
        &["a|b|", "c|d|e", "f||", "g||"],
    ),
    (
        "cleared",
        |p| p.screen_mut().clear_scrollback(),
        &["a|b|", "c|d|e", "f||", "g||"],
    ),
    (
        "itself",
        |p| *p.screen_mut() = p.screen().clone(),
        &["a|b|", "c|d|e", "f||", "g||"],
    ),
    (
        "other",
        |p| *p.screen_mut() = other_screen(),
        &["c||", "o|t|h", "e|r|", "||"],
    ),
];

/// Returns a screen of the same size with other rows.
fn other_screen() -> Screen {
    let mut parser = Parser::new(size(4), size(3), 0);
    parser.process(b"c\x1b[2Hother");
    parser.screen().clone()
}

#[test]
fn cells_are_right_after_calls() {
    for (name, change, rows) in CALLS {
        let mut parser = well_read(());
        change(&mut parser);
        assert_eq!(texts(&parser), *rows, "{name}");
        check_cells(parser.screen(), name);
        parser.process(b"\x07");
        check_cells(parser.screen(), name);
    }
}

#[test]
fn cells_past_the_last_column_are_right() {
    let mut parser = Parser::new(size(2), size(4), 10);
    parser.process(b"abcx\r\nabcy\r\nabcz\r\nabc\r\nabc");
    parser.set_size(size(2), size(3));
    // The rows of scrollback keep their columns, and differ only in the last one.
    for (scrollback, past) in [(0, None), (1, Some("z")), (2, Some("y")), (3, Some("x"))] {
        parser.screen_mut().set_scrollback(scrollback);
        for _ in 0..4 {
            check_cells(parser.screen(), "scrollback");
            let cell = parser.screen().cell(0, 3);
            assert_eq!(cell.map(|cell| cell.contents()), past, "{scrollback}");
            parser.process(b"\x07");
        }
    }
}

/// Callbacks that read all cells of the screen before and after they change it. They hold a second
/// screen.
struct Changing(Screen);

impl Changing {
    fn change(&mut self, screen: &mut Screen, change: fn(&mut Screen, &mut Screen)) {
        check_cells(screen, "before a callback");
        change(screen, &mut self.0);
        check_cells(screen, "after a callback");
        check_cells(&self.0, "the other screen");
    }
}

impl Callbacks for Changing {
    fn audible_bell(&mut self, screen: &mut Screen) {
        self.change(screen, std::mem::swap);
    }

    fn visual_bell(&mut self, screen: &mut Screen) {
        self.change(screen, |screen, _| screen.set_scrollback(1));
    }

    fn resize(&mut self, screen: &mut Screen, _: (u16, u16)) {
        self.change(screen, |screen, _| screen.set_size(size(3), size(2)));
    }

    fn set_window_title(&mut self, screen: &mut Screen, _: &[u8]) {
        self.change(screen, |screen, other| *screen = other.clone());
    }
}

#[test]
fn cells_are_right_after_callbacks() {
    for (bytes, rows) in [
        ("\x07", ["c||", "o|t|h", "e|r|", "||"]),
        ("\x07\x07", ["a|b|", "c|d|e", "f||", "g||"]),
        ("\x1b[Hx\x07\x1b[Hy\x07", ["x|b|", "c|d|e", "f||", "g||"]),
        ("\x1bg", ["m||", "a|b|", "c|d|e", "f||"]),
        ("\x1b]2;t\x07\x1b[3Hn", ["c||", "o|t|h", "n|r|", "||"]),
    ] {
        let mut parser = well_read(Changing(other_screen()));
        parser.process(bytes.as_bytes());
        assert_eq!(texts(&parser), rows, "{bytes:?}");
        check_cells(parser.screen(), bytes);
    }
    let mut parser = well_read(Changing(other_screen()));
    parser.process(b"\x1b[8;1;1tz");
    assert_eq!(texts(&parser), ["c|d", "f|", "z|"]);
    check_cells(parser.screen(), "resize");
}

/// A generator of pseudorandom numbers (xorshift).
struct Random(u64);

impl Random {
    /// Returns a number below `bound`.
    fn below(&mut self, bound: usize) -> usize {
        self.0 ^= self.0 << 13;
        self.0 ^= self.0 >> 7;
        self.0 ^= self.0 << 17;
        usize::try_from(self.0 >> 33).unwrap() % bound
    }

    /// Changes the screen, or leaves it as it is.
    fn change(&mut self, parser: &mut Parser) -> &'static str {
        if self.below(4) > 0 {
            let (bytes, _) = OUTPUT[self.below(OUTPUT.len())];
            parser.process(bytes.as_bytes());
            return bytes;
        }
        let (name, change, _) = CALLS[self.below(CALLS.len())];
        change(parser);
        name
    }

    /// Reads some cells, in any order.
    fn read(&mut self, screen: &Screen) {
        for _ in 0..self.below(9) {
            let row = u16::try_from(self.below(6)).unwrap();
            let col = u16::try_from(self.below(5)).unwrap();
            let cell = screen.cell(row, col);
            assert_eq!(cell, screen.clone().cell(row, col), "{row} {col}");
        }
    }
}

#[test]
fn cells_are_right_after_random_changes() {
    let mut random = Random(0x1234_5678_9abc_def1);
    let mut parser = well_read(());
    for _ in 0..5000 {
        let change = random.change(&mut parser);
        match random.below(5) {
            0 => {}
            1 => random.read(parser.screen()),
            _ => check_cells(parser.screen(), change),
        }
    }
}

#[test]
fn threads_may_read_kept_rows() {
    let mut parser = Parser::new(size(24), size(80), 0);
    for row in 0..200 {
        // Most rows are kept by one change, and none by another.
        let place = if row % 50 < 30 { row % 24 } else { 24 };
        parser.process(format!("\x1b[{place}H{row}\n").as_bytes());
        let screen = parser.screen();
        std::thread::scope(|scope| {
            for turn in 0..3 {
                scope.spawn(move || {
                    let (clone, at) = (screen.clone(), |k| u16::try_from(k).unwrap());
                    for k in (0..24 * 80).map(|k| (k * 7 + turn * 641) % (24 * 80)) {
                        let (row, col) = (at(k / 80), at(k % 80));
                        assert_eq!(screen.cell(row, col), clone.cell(row, col));
                    }
                });
            }
        });
    }
}
