//! `fuzz COUNT [FIRST]`: makes the calls of COUNT random scripts on this crate and on another build
//! of it, and checks that both have the same display and invoke the same callbacks.
//!
//! This program runs random scripts of calls on the Rust bindings and on another build of `vt100`
//! 0.18.1. After each step, both builds must have the same contents, cells, cursor, wrapped flags,
//! modes, sizes and scrollback, and must have invoked the same callbacks with the same arguments.
//! For each row that scrolls off, its text with SGR sequences is compared, too. The bytes of
//! redraws and diffs differ by design, so they are not compared; instead, a terminal of the other
//! build that reads a redraw or a diff must display the screen. After each step, terminals of the
//! other build read the redraw and the diff from the previous screen. After some steps, they also
//! read the output with input modes, for cursor and attributes, or for whole rows.
//!
//! The other build is not part of this repository. In this directory, create a symlink `other` to
//! a directory with the other build's sources and a `Cargo.toml` that names the package
//! vt100-other (cargo requires different names for two packages of the same version). Then set
//! VT100_LIB_DIR to the library's directory, and run
//!
//! ```text
//! cargo run --release -- 1000000
//! ```
//!
//! The first argument is the number of scripts to run; an optional second argument is the number
//! of the first script. The program prints the first five scripts for which the builds differ, and
//! then the total numbers of scripts, steps, callbacks, redraws, diffs, and scripts for which they
//! differ. The exit status is 1 if the builds differ for any script.
//!
//! The scripts avoid the intended differences (docs/DIFFERENCES.md): ill-formed UTF-8, 8-bit
//! controls, sequences with more than 32 numbers, cells whose text is near the size limit, U+FE0F,
//! wide characters on one-column screens, and the state of the screen that callbacks see while a
//! byte takes effect. A build with an older `vte` or `unicode-width` is sufficient, since scripts
//! write only characters whose width has never changed.
//!
//! The last runs covered 1,000,000 scripts (500,000 from 14000001 and 500,000 from 14500001), with
//! 4,499,492 steps and 159,018,257 callbacks; 4,396,120 redraws and 2,841,411 diffs were read
//! back, and no script differed. The other build was made from the sources of 0.18.1 with `vte`
//! 0.10.1 and `unicode-width` 0.1.10.

mod script;

use script::{Random, Step};
use std::num::NonZeroU16;

/// Defines, for one of the two crates, callbacks that write a line for each call, and functions
/// that return the state of a screen as text.
macro_rules! side {
    ($side:ident) => {
        mod $side {
            use crate::script::Step;
            use crate::size;
            use ::$side::capture::{BasicFormattedCaptureState, RowContents};
            use ::$side::{Callbacks, Parser, Screen};
            use std::fmt::Write;

            pub struct Calls {
                pub lines: Vec<String>,

                /// Whether the screen is resized when the program requests a size.
                pub resizes: bool,

                /// The capture of the rows that scrolled off, in order.
                pub capture: String,
                state: BasicFormattedCaptureState,
            }

            impl Callbacks for Calls {
                fn audible_bell(&mut self, screen: &mut Screen) {
                    let place = screen.cursor_position();
                    self.lines.push(format!("bell {place:?}"));
                }
                fn visual_bell(&mut self, screen: &mut Screen) {
                    let place = screen.cursor_position();
                    self.lines.push(format!("flash {place:?}"));
                }
                fn resize(&mut self, screen: &mut Screen, (rows, cols): (u16, u16)) {
                    self.lines.push(format!("resize {rows} {cols}"));
                    if self.resizes && rows > 0 && cols > 1 {
                        screen.set_size(size(rows), size(cols));
                    }
                }
                fn set_window_icon_name(&mut self, _: &mut Screen, name: &[u8]) {
                    self.lines.push(format!("icon {name:?}"));
                }
                fn set_window_title(&mut self, _: &mut Screen, title: &[u8]) {
                    self.lines.push(format!("title {title:?}"));
                }
                fn copy_to_clipboard(&mut self, _: &mut Screen, kind: &[u8], data: &[u8]) {
                    self.lines.push(format!("copy {kind:?} {data:?}"));
                }
                fn paste_from_clipboard(&mut self, _: &mut Screen, kind: &[u8]) {
                    self.lines.push(format!("paste {kind:?}"));
                }
                fn unhandled_char(&mut self, _: &mut Screen, c: char) {
                    self.lines.push(format!("char {c:?}"));
                }
                fn unhandled_control(&mut self, _: &mut Screen, b: u8) {
                    self.lines.push(format!("control {b}"));
                }
                fn unhandled_escape(
                    &mut self,
                    _: &mut Screen,
                    i1: Option<u8>,
                    i2: Option<u8>,
                    b: u8,
                ) {
                    self.lines.push(format!("escape {i1:?} {i2:?} {b}"));
                }
                fn unhandled_csi(
                    &mut self,
                    _: &mut Screen,
                    i1: Option<u8>,
                    i2: Option<u8>,
                    params: &[&[u16]],
                    c: char,
                ) {
                    self.lines.push(format!("csi {i1:?} {i2:?} {params:?} {c}"));
                }
                fn unhandled_osc(&mut self, _: &mut Screen, params: &[&[u8]]) {
                    self.lines.push(format!("osc {params:?}"));
                }
                fn on_scroll(&mut self, row: RowContents<'_>, alternate: bool) {
                    let (mut text, mut state) = (String::new(), BasicFormattedCaptureState::new());
                    row.write_formatted_basic(&mut text, &mut state).unwrap();
                    self.lines.push(format!("row {alternate} {text:?}"));
                    row.write_formatted_basic(&mut self.capture, &mut self.state)
                        .unwrap();
                }
            }

            pub fn parser(rows: u16, cols: u16, capacity: usize, resizes: bool) -> Parser<Calls> {
                let calls = Calls {
                    lines: Vec::new(),
                    resizes,
                    capture: String::new(),
                    state: BasicFormattedCaptureState::new(),
                };
                Parser::new_with_callbacks(size(rows), size(cols), capacity, calls)
            }

            /// Performs a step of a script; `kept` is the screen that [`Step::Exchange`] swaps with
            /// the parser's screen.
            pub fn take(parser: &mut Parser<Calls>, kept: &mut Screen, step: &Step) {
                match step {
                    Step::Process(bytes) => parser.process(bytes),
                    Step::SetSize(rows, cols) => parser.set_size(size(*rows), size(*cols)),
                    Step::ScreenSetSize(rows, cols) => {
                        parser.screen_mut().set_size(size(*rows), size(*cols));
                    }
                    Step::SetScrollback(rows) => parser.screen_mut().set_scrollback(*rows),
                    Step::ClearScrollback => parser.screen_mut().clear_scrollback(),
                    Step::Exchange => std::mem::swap(parser.screen_mut(), kept),
                }
            }

            /// Returns the state of a screen, including its plain and basic text. The four numbers
            /// give the range of the text between two positions; the second and the fourth one also
            /// give the first column and the width of the text of rows.
            pub fn shown(screen: &Screen, [row, col, end_row, end_col]: [u16; 4]) -> String {
                let mut text = format!(
                    "{:?} {:?} {} {} {}\n",
                    screen.size(),
                    screen.cursor_position(),
                    screen.scrollback(),
                    screen.scrollback_len(),
                    screen.scrollback_capacity()
                );
                let (alternate, hidden) = (screen.alternate_screen(), screen.hide_cursor());
                writeln!(text, "{alternate} {hidden} {}", modes(screen)).unwrap();
                writeln!(text, "{}", attributes(screen)).unwrap();
                writeln!(text, "{:?}", screen.contents()).unwrap();
                writeln!(text, "{:?}", screen.contents_formatted_basic()).unwrap();
                let rows: Vec<String> = screen.rows(col, end_col).collect();
                writeln!(text, "{rows:?}").unwrap();
                let col = col.min(screen.size().1.get());
                let range = screen.contents_between(row, col, end_row, end_col);
                writeln!(text, "{range:?}").unwrap();
                text + &cells(screen)
            }

            /// Returns the input modes and the cursor style of a screen.
            pub fn modes(screen: &Screen) -> String {
                format!(
                    "{} {} {} {:?} {:?} {:?}",
                    screen.application_keypad(),
                    screen.application_cursor(),
                    screen.bracketed_paste(),
                    screen.mouse_protocol_mode(),
                    screen.mouse_protocol_encoding(),
                    screen.cursor_style()
                )
            }

            /// Returns the attributes of the next character.
            pub fn attributes(screen: &Screen) -> String {
                let (fg, bg) = (screen.fgcolor(), screen.bgcolor());
                let attrs = [
                    screen.bold(),
                    screen.dim(),
                    screen.italic(),
                    screen.underline(),
                    screen.inverse(),
                ];
                format!("{fg:?} {bg:?} {attrs:?}")
            }

            /// Returns the cells and the wrapped flags of the displayed rows.
            pub fn cells(screen: &Screen) -> String {
                let mut text = String::new();
                let (rows, cols) = screen.size();
                for row in 0..rows.get() {
                    write!(text, "{} ", screen.row_wrapped(row)).unwrap();
                    for col in 0..cols.get() {
                        let cell = screen.cell(row, col).unwrap();
                        let flags = [
                            cell.is_wide(),
                            cell.is_wide_continuation(),
                            cell.bold(),
                            cell.dim(),
                            cell.italic(),
                            cell.underline(),
                            cell.inverse(),
                        ];
                        let flags = flags.iter().fold(0, |sum, flag| 2 * sum + u8::from(*flag));
                        let (fg, bg) = (cell.fgcolor(), cell.bgcolor());
                        write!(text, "{}{flags:x}{fg:?}{bg:?},", cell.contents()).unwrap();
                    }
                    text.push('\n');
                }
                text
            }
        }
    };
}

side!(mine);
side!(other);

fn size(number: u16) -> NonZeroU16 {
    NonZeroU16::new(number).unwrap()
}

/// The counts of what was compared.
#[derive(Default)]
struct Counts {
    steps: usize,
    calls: usize,
    redraws: usize,
    differences: usize,
}

/// Returns a terminal of the other build that has parsed these texts.
fn reader(screen: &::mine::Screen, texts: &[&str]) -> ::other::Parser {
    let (rows, cols) = screen.size();
    let mut reader = ::other::Parser::new(rows, cols, 0);
    for text in texts {
        reader.process(text.as_bytes());
    }
    reader
}

/// Returns whether a terminal of the other build that parses these texts has a different display
/// than `screen`.
fn draws_another(screen: &::mine::Screen, texts: &[&str]) -> bool {
    let reader = reader(screen, texts);
    let again = reader.screen();
    has_another_cursor(screen, again)
        || other::cells(again) != mine::cells(screen)
        || other::attributes(again) != mine::attributes(screen)
}

fn has_another_cursor(screen: &::mine::Screen, again: &::other::Screen) -> bool {
    again.cursor_position() != screen.cursor_position()
        || again.hide_cursor() != screen.hide_cursor()
}

/// Returns whether a terminal of the other build that parses these texts has a different display or
/// different input modes than `screen`.
fn states_another(screen: &::mine::Screen, texts: &[&str]) -> bool {
    draws_another(screen, texts)
        || other::modes(reader(screen, texts).screen()) != mine::modes(screen)
}

/// Returns whether the output for the cursor or for the attributes sets a different cursor or
/// different attributes than those of `screen`.
fn sets_another(screen: &::mine::Screen, redraw: &str) -> bool {
    let cursor = reader(
        screen,
        &[redraw, "\x1b[m\x1b[H", &screen.cursor_state_formatted()],
    );
    let attributes = reader(screen, &[&screen.attributes_formatted()]);
    has_another_cursor(screen, cursor.screen())
        || other::cells(cursor.screen()) != mine::cells(screen)
        || other::attributes(attributes.screen()) != mine::attributes(screen)
}

/// Returns whether the output for whole rows, parsed after `begun`, produces different cells than
/// those of `screen`. Wrapped flags are not compared, because the output for the row below sets
/// them.
fn rows_are_others(
    screen: &::mine::Screen,
    begun: &str,
    rows: impl Iterator<Item = String>,
) -> bool {
    let mut text = begun.to_owned();
    for (row, cells) in (1..).zip(rows) {
        text += &format!("\x1b[{row};1H\x1b[m{cells}");
    }
    let cells = |text: &str| -> Vec<String> {
        text.lines()
            .map(|line| line.split_once(' ').unwrap().1.to_owned())
            .collect()
    };
    let again = reader(screen, &[&text]);
    cells(&other::cells(again.screen())) != cells(&mine::cells(screen))
}

/// Returns the name of the first output that does not reproduce the screen, if any. The redraw is
/// tested in each turn, and each of the other kinds of output in some turns.
fn wrong_redraw(screen: &::mine::Screen, turn: usize) -> Option<&'static str> {
    let redraw = screen.contents_formatted();
    let is_wrong = match turn % 4 {
        0 => states_another(screen, &[&screen.state_formatted()]),
        1 => sets_another(screen, &redraw),
        2 => rows_are_others(screen, "", screen.rows_formatted(0, u16::MAX)),
        _ => false,
    };
    if draws_another(screen, &[&redraw]) {
        return Some("redraw");
    }
    is_wrong.then(|| ["state", "cursor and attributes", "rows"][turn % 4])
}

/// Returns the name of the first difference from `prev` that does not produce the screen, if any.
/// The difference of the contents is tested in each turn, and each of the other kinds in some
/// turns.
fn wrong_difference(
    screen: &::mine::Screen,
    prev: &::mine::Screen,
    turn: usize,
) -> Option<&'static str> {
    let begun = prev.contents_formatted();
    let is_wrong = match turn % 4 {
        0 => rows_are_others(screen, &begun, screen.rows_diff(prev, 0, u16::MAX)),
        1 => states_another(screen, &[&prev.state_formatted(), &screen.state_diff(prev)]),
        _ => false,
    };
    if draws_another(screen, &[&begun, &screen.contents_diff(prev)]) {
        return Some("difference");
    }
    is_wrong.then(|| ["difference of rows", "difference of states"][turn % 4])
}

/// Runs the script with the given seed. Returns the first difference between the two crates, and
/// the steps up to that difference, as the error.
fn run(seed: u64, counts: &mut Counts) -> Result<(), String> {
    let mut random = Random::new(seed);
    let (rows, cols) = (random.size(8), 1 + random.size(20));
    let (capacity, resizes) = (random.below(5) as usize, random.below(2) == 0);
    let mut mine = mine::parser(rows, cols, capacity, resizes);
    let mut other = other::parser(rows, cols, capacity, resizes);
    let (mut kept, mut other_kept) = (mine.screen().clone(), other.screen().clone());
    let mut steps = Vec::new();
    for turn in 0..2 + random.below(6) as usize {
        steps.push(Step::random(&mut random));
        let step = steps.last().unwrap();
        let prev = mine.screen().clone();
        if random.below(6) == 0 {
            (kept, other_kept) = (prev.clone(), other.screen().clone());
        }
        mine::take(&mut mine, &mut kept, step);
        other::take(&mut other, &mut other_kept, step);
        counts.steps += 1;
        let told = |what: &str, one: &str, two: &str| {
            Err(format!(
                "{what}: {rows} {cols} {capacity} {steps:?}\n{one}\nand not\n{two}"
            ))
        };
        let place = [7, 19, 7, 19].map(|bound| random.below(bound) as u16);
        let one = mine::shown(mine.screen(), place);
        let two = other::shown(other.screen(), place);
        if one != two {
            return told("shown", &one, &two);
        }
        let (one, two) = (mine.callbacks(), other.callbacks());
        if one.lines != two.lines || one.capture != two.capture {
            let (one, two) = (format!("{:#?}", one.lines), format!("{:#?}", two.lines));
            return told("called", &one, &two);
        }
        let screen = mine.screen();
        if screen.scrollback() == 0 {
            counts.redraws += 1;
            if let Some(what) = wrong_redraw(screen, turn) {
                return told(what, &format!("{screen:?}"), &screen.contents_formatted());
            }
        }
        if screen.size() == prev.size() && prev.scrollback() + screen.scrollback() == 0 {
            counts.differences += 1;
            if let Some(what) = wrong_difference(screen, &prev, turn) {
                return told(
                    what,
                    &prev.contents_formatted(),
                    &screen.contents_formatted(),
                );
            }
        }
    }
    counts.calls += mine.callbacks().lines.len();
    Ok(())
}

fn main() {
    let words: Vec<u64> = std::env::args()
        .skip(1)
        .map(|word| word.parse().unwrap())
        .collect();
    let (count, first) = (words[0], words.get(1).copied().unwrap_or(1));
    let (mut counts, mut differing) = (Counts::default(), 0);
    for seed in first..first + count {
        if let Err(told) = run(seed, &mut counts) {
            differing += 1;
            if differing <= 5 {
                println!("script {seed}: {told}");
            }
        }
    }
    println!(
        "{count} scripts, {} steps, {} calls, {} redraws and {} differences read back, \
         {differing} differ",
        counts.steps, counts.calls, counts.redraws, counts.differences
    );
    std::process::exit(i32::from(differing > 0));
}
