//! Replies to the queries that programs send to their terminal: device attributes (DA1, DA2),
//! status (DSR 5), the cursor position (DSR 6), and the default colors (OSC 10 and 11).
//!
//! `replies COMMAND` runs a shell command, such as `replies vim`, in a terminal of its own, and shows
//! that terminal in the one in which `replies` runs: keys are passed to the command, and its screen
//! is drawn by means of diffs. Both terminals keep the size that the outer one has at the start. The
//! command is sent the replies to its queries, and at the end its final screen is printed. If
//! standard input or output is not a terminal, the command gets the input as keys and has 24 rows
//! and 80 columns, and only its final screen is printed.
//!
//! The program `script` of util-linux provides the pseudoterminal, and `stty` the settings of the
//! outer terminal. Without a command, `replies` sends the queries itself and tests the replies.

use std::env;
use std::io::{self, IsTerminal, Read, Write};
use std::num::NonZeroU16;
use std::process::{ChildStdin, Command, Stdio};
use std::sync::{Arc, Mutex, PoisonError};
use std::thread;
use vt100::{Callbacks, Parser, Screen};

/// The size of a terminal that is not shown.
const SIZE: (u16, u16) = (24, 80);

/// The default colors: light gray on black, for programs that choose colors by the background.
const FOREGROUND: &str = "rgb:d0d0/d0d0/d0d0";
const BACKGROUND: &str = "rgb:0000/0000/0000";

/// The replies that are due, to be written to the program as if they were typed.
#[derive(Default)]
struct Replies(Vec<u8>);

impl Replies {
    fn reply(&mut self, text: &str) {
        self.0.extend_from_slice(text.as_bytes());
    }
}

impl Callbacks for Replies {
    fn unhandled_csi(
        &mut self,
        screen: &mut Screen,
        i1: Option<u8>,
        i2: Option<u8>,
        params: &[&[u16]],
        c: char,
    ) {
        let number = match params {
            [] => 0,
            [[number]] => *number,
            _ => return,
        };
        match (i1, i2, c, number) {
            // DA1: a VT100 with the advanced video option, which claims no more than is supported.
            (None, None, 'c', 0) => self.reply("\x1b[?1;2c"),
            // DA2: a VT100 without a version, so that no program mistakes it for a known terminal.
            (Some(b'>'), None, 'c', 0) => self.reply("\x1b[>0;0;0c"),
            (None, None, 'n', 5) => self.reply("\x1b[0n"),
            (None, None, 'n', 6) => self.reply(&cursor_report(screen)),
            _ => {}
        }
    }

    fn unhandled_osc(&mut self, _: &mut Screen, params: &[&[u8]]) {
        match params {
            [b"10", b"?"] => self.reply(&format!("\x1b]10;{FOREGROUND}\x1b\\")),
            [b"11", b"?"] => self.reply(&format!("\x1b]11;{BACKGROUND}\x1b\\")),
            _ => {}
        }
    }
}

/// Returns the reply to DSR 6, with rows and columns counted from 1. If a wrap is pending, the last
/// column is reported.
fn cursor_report(screen: &Screen) -> String {
    let (row, col) = screen.cursor_position();
    let (_, cols) = screen.size();
    format!("\x1b[{};{}R", row + 1, (col + 1).min(cols.get()))
}

fn terminal((rows, cols): (u16, u16)) -> Parser<Replies> {
    let rows = NonZeroU16::new(rows).expect("not 0");
    let cols = NonZeroU16::new(cols).expect("not 0");
    Parser::new_with_callbacks(rows, cols, 0, Replies::default())
}

/// Parses `bytes`, and returns the replies that are due.
fn replies(parser: &mut Parser<Replies>, bytes: &[u8]) -> Vec<u8> {
    parser.process(bytes);
    std::mem::take(&mut parser.callbacks_mut().0)
}

/// Runs `stty`, and returns what it prints.
fn stty(arguments: &[&str]) -> io::Result<String> {
    let output = Command::new("stty")
        .args(arguments)
        .stdin(Stdio::inherit())
        .output()?;
    Ok(String::from_utf8_lossy(&output.stdout).trim().to_owned())
}

/// The terminal in which this program runs. It passes each key on at once, without an echo, and has
/// its former settings again when this value is dropped.
struct Outer {
    settings: String,
    size: (u16, u16),
    shown: Screen,
}

impl Outer {
    /// Returns the terminal, or `None` if standard input or output is none.
    fn new() -> io::Result<Option<Self>> {
        if !io::stdin().is_terminal() || !io::stdout().is_terminal() {
            return Ok(None);
        }
        let settings = stty(&["-g"])?;
        let text = stty(&["size"])?;
        let size = match text.split_once(' ').map(|(r, c)| (r.parse(), c.parse())) {
            Some((Ok(rows), Ok(cols))) if rows > 0 && cols > 0 => (rows, cols),
            _ => SIZE,
        };
        stty(&["raw", "-echo"])?;
        let blank = terminal(size);
        print!("\x1b[m{}", blank.screen().state_formatted());
        let shown = blank.screen().clone();
        Ok(Some(Self {
            settings,
            size,
            shown,
        }))
    }

    /// Draws a screen, and sets the modes that decide what keys send.
    fn show(&mut self, screen: &Screen) -> io::Result<()> {
        let mut out = io::stdout().lock();
        out.write_all(screen.state_diff(&self.shown).as_bytes())?;
        out.flush()?;
        self.shown = screen.clone();
        Ok(())
    }
}

impl Drop for Outer {
    fn drop(&mut self) {
        // There is nobody to tell if the terminal is gone.
        let _ = self.show(terminal(self.size).screen());
        let _ = stty(&[&self.settings]);
    }
}

/// Writes bytes to the program. It may have ended before it reads them, which is no error.
fn send(input: &Mutex<Option<ChildStdin>>, bytes: &[u8]) {
    let mut input = input.lock().unwrap_or_else(PoisonError::into_inner);
    if let Some(input) = input.as_mut() {
        let _ = input.write_all(bytes).and_then(|()| input.flush());
    }
}

/// Passes keys to the program until there are no more, which ends its input.
fn pass_keys(input: &Mutex<Option<ChildStdin>>) {
    let mut buffer = [0; 256];
    while let Ok(count) = io::stdin().read(&mut buffer) {
        if count == 0 {
            break;
        }
        send(input, &buffer[..count]);
    }
}

/// Runs a shell command, and returns the terminal after all of the command's output.
fn run(command: &str) -> io::Result<Parser<Replies>> {
    let mut outer = Outer::new()?;
    let size = outer.as_ref().map_or(SIZE, |outer| outer.size);
    let mut child = Command::new("script")
        .args([
            "-qfec",
            &format!("stty rows {} cols {}; {command}", size.0, size.1),
        ])
        .arg("/dev/null")
        .env("TERM", "caldrosk")
        .stdin(Stdio::piped())
        .stdout(Stdio::piped())
        .spawn()?;
    let input = Arc::new(Mutex::new(child.stdin.take()));
    let mut output = child.stdout.take().expect("piped");
    let keys = Arc::clone(&input);
    thread::spawn(move || pass_keys(&keys));
    let mut parser = terminal(size);
    let mut buffer = [0; 4096];
    loop {
        let count = output.read(&mut buffer)?;
        if count == 0 {
            break;
        }
        let due = replies(&mut parser, &buffer[..count]);
        send(&input, &due);
        if let Some(outer) = &mut outer {
            outer.show(parser.screen())?;
        }
    }
    child.wait()?;
    Ok(parser)
}

/// Sends each query to a new terminal, and tests the reply.
fn ask() {
    let asked: [(&[u8], &str); 10] = [
        (b"\x1b[c", "\x1b[?1;2c"),
        (b"\x1b[0c", "\x1b[?1;2c"),
        (b"\x1b[>c", "\x1b[>0;0;0c"),
        (b"\x1b[5n", "\x1b[0n"),
        (b"\x1b[6n", "\x1b[1;1R"),
        (b"\x1b[3;7H\x1b[6n", "\x1b[3;7R"),
        (b"\x1b[1;80Hx\x1b[6n", "\x1b[1;80R"),
        (b"\x1b]11;?\x07", "\x1b]11;rgb:0000/0000/0000\x1b\\"),
        (b"\x1b[6n\x1b[c", "\x1b[1;1R\x1b[?1;2c"),
        (b"\x1b[?6n\x1b[1;2c", ""),
    ];
    for (bytes, reply) in asked {
        let due = replies(&mut terminal(SIZE), bytes);
        assert_eq!(String::from_utf8_lossy(&due), reply);
    }
    println!("{} replies", asked.len());
}

fn main() -> io::Result<()> {
    let command: Vec<String> = env::args().skip(1).collect();
    if command.is_empty() {
        ask();
        return Ok(());
    }
    println!("{}", run(&command.join(" "))?.screen().contents());
    Ok(())
}
