//! `alacritty_peer process ROWS COLS CAPACITY TIMES FILE`: parses FILE TIMES times with the crate
//! `alacritty_terminal`, in chunks of 4096 bytes. See bench/time.
//!
//! Debian's package librust-alacritty-terminal-dev has the crate and all that it depends on; in
//! .cargo/config.toml, replace the source `crates-io` with the directory /usr/share/cargo/registry.

use alacritty_terminal::ansi::Processor;
use alacritty_terminal::config::Config;
use alacritty_terminal::event::{Event, EventListener};
use alacritty_terminal::grid::Dimensions;
use alacritty_terminal::Term;
use std::error::Error;

/// The number of bytes that the parser is given at a time.
const CHUNK: usize = 4096;

/// Ignores all events.
struct Ignored;

impl EventListener for Ignored {
    fn send_event(&self, _event: Event) {}
}

/// The size of the screen.
struct Size {
    rows: usize,
    cols: usize,
}

impl Dimensions for Size {
    fn total_lines(&self) -> usize {
        self.rows
    }

    fn screen_lines(&self) -> usize {
        self.rows
    }

    fn columns(&self) -> usize {
        self.cols
    }
}

fn main() -> Result<(), Box<dyn Error>> {
    let words: Vec<String> = std::env::args().skip(1).collect();
    let [what, rows, cols, capacity, times, file] = words.as_slice() else {
        return Err("usage: alacritty_peer process ROWS COLS CAPACITY TIMES FILE".into());
    };
    if what != "process" {
        return Err("unknown word".into());
    }
    let size = Size { rows: rows.parse()?, cols: cols.parse()? };
    let bytes = std::fs::read(file)?;
    let mut config = Config::default();
    config.scrolling.set_history(capacity.parse()?);
    let mut term = Term::new(&config, &size, Ignored);
    let mut parser = Processor::new();
    for _ in 0..times.parse::<u64>()? {
        for chunk in bytes.chunks(CHUNK) {
            chunk.iter().for_each(|byte| parser.advance(&mut term, *byte));
        }
    }
    Ok(())
}
