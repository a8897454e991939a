//! `vt100_peer process ROWS COLS CAPACITY TIMES FILE`: parses FILE TIMES times with the crate `vt100`,
//! in chunks of 4096 bytes. With `add-row` or `add-column` in place of `process`, parses FILE once, and
//! then adds a row or a column and removes it again, TIMES times. See bench/time.

use std::error::Error;
use std::num::NonZeroU16;

/// The number of bytes that the parser is given at a time.
const CHUNK: usize = 4096;

fn main() -> Result<(), Box<dyn Error>> {
    let words: Vec<String> = std::env::args().skip(1).collect();
    let [what, rows, cols, capacity, times, file] = words.as_slice() else {
        return Err("usage: vt100_peer process|add-row|add-column ROWS COLS CAPACITY TIMES FILE".into());
    };
    let (rows, cols): (NonZeroU16, NonZeroU16) = (rows.parse()?, cols.parse()?);
    let bytes = std::fs::read(file)?;
    let mut parser = vt100::Parser::new(rows, cols, capacity.parse()?);
    let times: u64 = times.parse()?;
    let (more_rows, more_cols) = match what.as_str() {
        "process" => {
            (0..times).for_each(|_| process(&mut parser, &bytes));
            return Ok(());
        }
        "add-row" => (rows.saturating_add(1), cols),
        "add-column" => (rows, cols.saturating_add(1)),
        _ => return Err("unknown word".into()),
    };
    process(&mut parser, &bytes);
    for _ in 0..times {
        parser.screen_mut().set_size(more_rows, more_cols);
        parser.screen_mut().set_size(rows, cols);
    }
    Ok(())
}

/// Parses bytes in chunks.
fn process(parser: &mut vt100::Parser, bytes: &[u8]) {
    bytes.chunks(CHUNK).for_each(|chunk| parser.process(chunk));
}
