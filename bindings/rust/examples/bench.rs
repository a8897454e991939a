//! `bench PIECE WHAT ROWS COLS CAPACITY TIMES FILE`: processes FILE TIMES times with one parser, in
//! chunks of PIECE bytes (`tool_bench process` uses chunks of 4096). WHAT is one of `process` for
//! no additional work, `callbacks` for callbacks that do nothing, `rows` for an `on_scroll` that
//! writes the row, `cell` for reading a cell of the first row after each chunk, `cells` for reading
//! all cells after each chunk, and `clone` for cloning the screen TIMES times after FILE was
//! processed once. The program can also be built with the crate `vt100`.

use std::hint::black_box;
use std::num::NonZeroU16;
use vt100::capture::{BasicFormattedCaptureState, RowContents};
use vt100::{Callbacks, Parser, Screen};

/// Callbacks that do nothing.
struct Empty;

impl Callbacks for Empty {}

/// Callbacks that write each row that scrolls off the top.
#[derive(Default)]
struct Rows(BasicFormattedCaptureState);

impl Callbacks for Rows {
    fn on_scroll(&mut self, row: RowContents<'_>, _: bool) {
        let mut text = String::new();
        row.write_formatted_basic(&mut text, &mut self.0).unwrap();
        black_box(text);
    }
}

/// The command-line arguments.
struct Work {
    piece: usize,
    rows: NonZeroU16,
    cols: NonZeroU16,
    capacity: usize,
    times: usize,
    bytes: Vec<u8>,
}

impl Work {
    fn of(words: &[String]) -> Self {
        let number = |word: &str| word.parse::<usize>().unwrap();
        let size = |word: &str| word.parse::<NonZeroU16>().unwrap();
        Self {
            piece: number(&words[1]),
            rows: size(&words[3]),
            cols: size(&words[4]),
            capacity: number(&words[5]),
            times: number(&words[6]),
            bytes: std::fs::read(&words[7]).unwrap(),
        }
    }

    /// Processes all bytes, and calls `look` with the screen after each chunk.
    fn run<CB: Callbacks>(&self, callbacks: CB, look: impl Fn(&Screen)) {
        let (rows, cols, capacity) = (self.rows, self.cols, self.capacity);
        let parser = Parser::new_with_callbacks(rows, cols, capacity, callbacks);
        self.process(parser, look);
    }

    /// Processes all bytes once, and then clones the screen.
    fn clone_screen(&self) {
        let mut parser = Parser::new(self.rows, self.cols, self.capacity);
        parser.process(&self.bytes);
        for _ in 0..self.times {
            black_box(parser.screen().clone());
        }
    }

    fn process<CB: Callbacks>(&self, mut parser: Parser<CB>, look: impl Fn(&Screen)) {
        for _ in 0..self.times {
            for piece in self.bytes.chunks(self.piece) {
                parser.process(piece);
                look(parser.screen());
            }
        }
    }
}

/// Reads the text, the colors and the attributes of each cell.
fn read_cells(screen: &Screen) {
    let (rows, cols) = screen.size();
    for row in 0..rows.get() {
        for col in 0..cols.get() {
            let cell = screen.cell(row, col).unwrap();
            black_box((cell.contents(), cell.fgcolor(), cell.bgcolor()));
            black_box((cell.bold(), cell.italic(), cell.underline(), cell.inverse()));
        }
    }
}

fn main() {
    let words: Vec<String> = std::env::args().collect();
    let work = Work::of(&words);
    let quiet = || Parser::new(work.rows, work.cols, work.capacity);
    let look_at_cell = |screen: &Screen| {
        black_box(screen.cell(0, 3));
    };
    match words[2].as_str() {
        "process" => work.process(quiet(), |_| {}),
        "cell" => work.process(quiet(), look_at_cell),
        "cells" => work.process(quiet(), read_cells),
        "clone" => work.clone_screen(),
        "callbacks" => work.run(Empty, |_| {}),
        "rows" => work.run(Rows::default(), |_| {}),
        what => panic!("no such work: {what}"),
    }
}
