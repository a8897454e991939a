use crate::callbacks::Callbacks;
use crate::capture::RowContents;
use crate::event::{records, Event};
use crate::library::{Handle, ALL_EVENTS, NO_EVENTS};
use crate::Screen;
use std::num::NonZeroU16;
use std::sync::{Mutex, MutexGuard, PoisonError};

/// The size in bytes of the largest memory for records that is kept.
const MOST_MEMORY: usize = 65_536;

/// A terminal that processes what a program writes and maintains the screen.
pub struct Parser<CB: Callbacks = ()> {
    /// The handle of the library's parser, which contains the screen. When the screen is borrowed
    /// as `&mut`, it is separated from the parser, because it may then be swapped with a different
    /// screen. While they are separate, this handle holds the screen alone.
    screen: Screen,

    /// The handle of a screen of one cell, or an empty handle if the screen and the parser were
    /// never separated. While they are separate, this handle holds the library's parser, which
    /// then contains a screen of one cell.
    rest: Mutex<Handle>,

    is_together: bool,
    has_events: bool,

    /// Whether the library's log may hold events, which is the case after a call that panicked.
    is_log_left: bool,

    /// Memory for the records of events.
    records: Vec<u8>,
    callbacks: CB,
}

impl Parser {
    /// The number of rows of [`Parser::default`]: 24.
    pub const DEFAULT_ROWS: NonZeroU16 = match NonZeroU16::new(24) {
        Some(rows) => rows,
        None => unreachable!(),
    };

    /// The number of columns of [`Parser::default`]: 80.
    pub const DEFAULT_COLS: NonZeroU16 = match NonZeroU16::new(80) {
        Some(cols) => cols,
        None => unreachable!(),
    };

    /// Creates a parser whose screen is blank and keeps at most `scrollback_capacity` scrollback
    /// rows.
    #[must_use]
    pub fn new(rows: NonZeroU16, cols: NonZeroU16, scrollback_capacity: usize) -> Self {
        Self::with_events(rows, cols, scrollback_capacity, (), false)
    }
}

impl<CB: Callbacks> Parser<CB> {
    /// Creates a parser with the given callbacks, whose screen is blank and keeps at most
    /// `scrollback_capacity` scrollback rows.
    pub fn new_with_callbacks(
        rows: NonZeroU16,
        cols: NonZeroU16,
        scrollback_capacity: usize,
        callbacks: CB,
    ) -> Self {
        Self::with_events(rows, cols, scrollback_capacity, callbacks, true)
    }

    fn with_events(
        rows: NonZeroU16,
        cols: NonZeroU16,
        scrollback_capacity: usize,
        callbacks: CB,
        has_events: bool,
    ) -> Self {
        let wanted = if has_events { ALL_EVENTS } else { NO_EVENTS };
        let handle = Handle::parser(rows.get(), cols.get(), scrollback_capacity, wanted);
        Self {
            screen: Screen::new(handle),
            rest: Mutex::default(),
            is_together: true,
            has_events,
            is_log_left: false,
            records: Vec::new(),
            callbacks,
        }
    }

    /// Parses bytes and applies them to the screen, invoking callbacks as sequences complete. Input
    /// may be split anywhere: an incomplete character or sequence continues with the next call.
    ///
    /// Callbacks are invoked in order. Each callback is invoked after the byte that causes it and
    /// before the next byte is parsed, except that [`on_scroll`](Callbacks::on_scroll) may be
    /// invoked later.
    pub fn process(&mut self, bytes: &[u8]) {
        self.join();
        if !self.has_events {
            self.screen.changed().process(bytes);
            return;
        }
        self.begin_log();
        let mut bytes = bytes;
        while !bytes.is_empty() {
            self.join();
            let used = self.screen.changed().process_until(bytes);
            assert!(used > 0, "vt100: nothing was read");
            bytes = &bytes[used..];
            self.tell();
        }
        self.is_log_left = false;
    }

    /// Returns the number of bytes that the parser keeps for an unfinished operating system command
    /// (OSC): the bytes read after `\x1b]`, not counting control characters. Returns 0 if no
    /// command is unfinished. Not in the crate `vt100`.
    ///
    /// Only memory limits the length of a command. To enforce a limit of your own, process CAN
    /// (`\x18`): the part of the command that was read is dispatched, and then
    /// [`unhandled_control`](Callbacks::unhandled_control) is called for CAN.
    ///
    /// ```
    /// let mut parser = vt100::Parser::default();
    /// parser.process(b"\x1b]2;a title that does not end");
    /// assert_eq!(parser.pending_len(), 27);
    /// parser.process(b"\x18");
    /// assert_eq!(parser.pending_len(), 0);
    /// ```
    #[must_use]
    pub fn pending_len(&self) -> usize {
        self.reader().pending_len()
    }

    /// Returns whether the parser is in ground state: no escape sequence, control string or
    /// character is half read. Not in the crate `vt100`.
    ///
    /// ```
    /// let mut parser = vt100::Parser::default();
    /// parser.process(b"text \x1b[31");
    /// assert!(!parser.is_ground());
    /// parser.process(b"m");
    /// assert!(parser.is_ground());
    /// ```
    #[must_use]
    pub fn is_ground(&self) -> bool {
        self.reader().is_ground()
    }

    /// Returns how often the input has asked to erase scrollback: the number of RIS (`\x1bc`) and
    /// ED 3 (`\x1b[3J` or `\x1b[?3J`) sequences that the parser has read, even if there was nothing
    /// to erase. Not in the crate `vt100`.
    ///
    /// If the number has changed since an earlier call, copies of scrollback rows that were made
    /// before are outdated.
    ///
    /// ```
    /// let mut parser = vt100::Parser::default();
    /// parser.process(b"text\x1b[2J");
    /// assert_eq!(parser.scrollback_erasures(), 0);
    /// parser.process(b"\x1b[3J\x1bc");
    /// assert_eq!(parser.scrollback_erasures(), 2);
    /// ```
    #[must_use]
    pub fn scrollback_erasures(&self) -> u64 {
        self.reader().scrollback_erasures()
    }

    /// Returns the handle that holds the unfinished sequence.
    fn reader(&self) -> MutexGuard<'_, Handle> {
        let parser = if self.is_together {
            self.screen.handle()
        } else {
            &self.rest
        };
        parser.lock().unwrap_or_else(PoisonError::into_inner)
    }

    /// Resizes the terminal.
    ///
    /// If the height shrinks, rows below the cursor are removed first. Then rows at the top move
    /// into scrollback, and [`on_scroll`](Callbacks::on_scroll) is called for those that are not
    /// kept. If the height grows, rows come back from scrollback, with blank rows for those that
    /// are no longer kept, and any rows still missing are added as blank rows at the bottom. Rows
    /// are cut off or extended to the new width; their text is not rewrapped.
    pub fn set_size(&mut self, rows: NonZeroU16, cols: NonZeroU16) {
        self.join();
        if self.has_events {
            self.begin_log();
        }
        self.screen.changed().set_size(rows.get(), cols.get());
        if self.has_events {
            self.tell();
            self.is_log_left = false;
        }
    }

    /// Returns the screen.
    #[must_use]
    pub fn screen(&self) -> &Screen {
        &self.screen
    }

    /// Returns a mutable reference to the screen, which may be changed or replaced.
    #[must_use]
    pub fn screen_mut(&mut self) -> &mut Screen {
        self.part();
        &mut self.screen
    }

    /// Returns a reference to the callbacks.
    pub fn callbacks(&self) -> &CB {
        &self.callbacks
    }

    /// Returns a mutable reference to the callbacks.
    pub fn callbacks_mut(&mut self) -> &mut CB {
        &mut self.callbacks
    }

    /// Returns mutable references to the screen and the callbacks.
    pub fn screen_and_callbacks_mut(&mut self) -> (&mut Screen, &mut CB) {
        self.part();
        (&mut self.screen, &mut self.callbacks)
    }

    /// Clears what an earlier call has left in the log.
    fn begin_log(&mut self) {
        if self.is_log_left {
            self.screen.unchanged().clear_events();
        }
        self.is_log_left = true;
    }

    /// Invokes the callbacks for the logged events, and clears the log.
    fn tell(&mut self) {
        let mut log = std::mem::take(&mut self.records);
        self.screen.unchanged().read_events(&mut log);
        if !log.is_empty() {
            self.tell_all(&log);
        }
        if log.capacity() <= MOST_MEMORY {
            self.records = log;
        }
    }

    /// Invokes the callbacks for the events in `log`, which is not empty, and clears the library's
    /// log.
    fn tell_all(&mut self, log: &[u8]) {
        let mut row = 0;
        for event in records(log) {
            if let Event::OnScroll(alternate) = event {
                let parser = if self.is_together {
                    self.screen.handle()
                } else {
                    &self.rest
                };
                let contents = RowContents::new(parser, row);
                self.callbacks.on_scroll(contents, alternate);
                row += 1;
            } else {
                self.part();
                event.tell(&mut self.callbacks, &mut self.screen);
            }
        }
        self.join();
        self.screen.unchanged().clear_events();
    }

    /// Takes the screen out of the library's parser.
    fn part(&mut self) {
        if self.is_together {
            self.exchange();
        }
    }

    /// Puts the screen into the library's parser.
    fn join(&mut self) {
        if !self.is_together {
            self.exchange();
        }
    }

    /// Swaps the screens of the two handles, and then the handles. The screen thus remains in
    /// `self.screen`, and the library's parser moves between `self.screen` and `self.rest`.
    fn exchange(&mut self) {
        let handle = self.screen.unchanged();
        let rest = self.rest.get_mut().unwrap_or_else(PoisonError::into_inner);
        if rest.is_empty() {
            *rest = Handle::one_cell();
        }
        handle.swap(rest);
        std::mem::swap(handle, rest);
        self.is_together = !self.is_together;
    }
}

impl Default for Parser {
    /// Creates a parser with 24 rows and 80 columns that keeps no scrollback.
    fn default() -> Self {
        Self::new(Self::DEFAULT_ROWS, Self::DEFAULT_COLS, 0)
    }
}

impl std::io::Write for Parser {
    fn write(&mut self, buf: &[u8]) -> std::io::Result<usize> {
        self.process(buf);
        Ok(buf.len())
    }

    fn flush(&mut self) -> std::io::Result<()> {
        Ok(())
    }
}
