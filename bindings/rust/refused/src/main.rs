//! Makes each allocation of the library fail in turn, and checks what the crate documents: the call
//! panics and has changed nothing, except that `process` has applied a part of its input and then
//! panics each time. At the end, everything must have been freed.
//!
//! `VT100_LIB_DIR` must name a folder with an archive that contains
//! `../c/tests/heap_refusing.c` instead of `../c/heap.c`.

use std::any::Any;
use std::num::NonZeroU16;
use std::os::raw::{c_int, c_long};
use std::panic::{catch_unwind, set_hook, take_hook, AssertUnwindSafe};
use vt100::capture::{BasicFormattedCaptureRange, BasicFormattedCaptureState, RowContents};
use vt100::mirror::Mirror;
use vt100::{Callbacks, DiffOptions, Parser, RedrawOptions, Repeat, Screen};

/// The message of a call in which an allocation failed.
const OUT_OF_MEMORY: &str = "vt100: out of memory";

/// The message of a call to `process` after one in which an allocation failed.
const FAILED: &str = "vt100: the parser ran out of memory in an earlier call";

const FIRST_INPUT: &[u8] =
    b"\x1b]2;a title\x07\x1b[1;31mbold\x1b[m \xe5\xad\x97\r\n1\r\n22\r\n333\r\n4444";
const SECOND_INPUT: &[u8] =
    b"\x07\r\n5\r\n\x1b]52;c;YWI=\x07\x1b[7;8z6\r\n\x1b[?1049h\x1b[2Jx\x1b[?1049ly\
    \x1b]777;a;b\x1b\\\x1b[2;3Hlonger than a row\r\n\n\n\n";

mod heap {
    //! The variables of heap_refusing.c.

    use super::{c_int, c_long};

    extern "C" {
        static mut heap_allocations: c_long;
        static mut heap_live: c_long;
        static mut heap_refused: c_long;
        static mut heap_refuses_all_behind: c_int;
    }

    /// Returns the number of allocations so far.
    pub fn allocations() -> c_long {
        // SAFETY: the program has a single thread.
        unsafe { heap_allocations }
    }

    /// Returns the number of blocks that are not freed.
    pub fn live() -> c_long {
        // SAFETY: the program has a single thread.
        unsafe { heap_live }
    }

    /// Makes the allocation fail that follows `count` more allocations and, if `all` is set, also
    /// those after it.
    pub fn refuse(count: c_long, all: bool) {
        // SAFETY: the program has a single thread.
        unsafe {
            heap_refused = heap_allocations + count;
            heap_refuses_all_behind = c_int::from(all);
        }
    }

    /// Lets all allocations succeed.
    pub fn grant() {
        // SAFETY: the program has a single thread.
        unsafe { heap_refused = -1 }
    }
}

fn size(number: u16) -> NonZeroU16 {
    NonZeroU16::new(number).unwrap()
}

/// Callbacks that note each call.
#[derive(Default)]
struct Calls {
    log: String,
    capture: BasicFormattedCaptureState,
}

impl Callbacks for Calls {
    fn audible_bell(&mut self, _: &mut Screen) {
        self.log += "bell ";
    }

    fn set_window_title(&mut self, _: &mut Screen, title: &[u8]) {
        self.log += &String::from_utf8_lossy(title);
    }

    fn copy_to_clipboard(&mut self, _: &mut Screen, _: &[u8], data: &[u8]) {
        self.log += &String::from_utf8_lossy(data);
    }

    fn unhandled_csi(
        &mut self,
        _: &mut Screen,
        _: Option<u8>,
        _: Option<u8>,
        params: &[&[u16]],
        c: char,
    ) {
        self.log += &format!("{params:?}{c} ");
    }

    fn unhandled_osc(&mut self, _: &mut Screen, params: &[&[u8]]) {
        self.log += &format!("{params:?} ");
    }

    fn on_scroll(&mut self, row: RowContents<'_>, _: bool) {
        row.write_formatted_basic(&mut self.log, &mut self.capture)
            .unwrap();
    }
}

/// The objects with which a step begins.
struct World {
    parser: Parser,
    reporting: Parser<Calls>,
    prev: Screen,
    mirror: Mirror,
    viewer: u64,
    capture: BasicFormattedCaptureState,
}

impl World {
    fn new() -> Self {
        let mut parser = Parser::new(size(4), size(9), 2);
        let mut reporting = Parser::new_with_callbacks(size(4), size(9), 1, Calls::default());
        let mut mirror = Mirror::new(size(4), size(9), 2);
        let prev = parser.screen().clone();
        let viewer = mirror.join();
        mirror.update(viewer).unwrap();
        parser.process(FIRST_INPUT);
        reporting.process(FIRST_INPUT);
        mirror.process(FIRST_INPUT);
        for input in [b"\x1b[Hx", b"\x1b[Hy"] {
            cells(&parser);
            parser.process(input);
        }
        Self {
            parser,
            reporting,
            prev,
            mirror,
            viewer,
            capture: BasicFormattedCaptureState::default(),
        }
    }

    /// Returns what can be observed without changing an object.
    fn observed(&self) -> String {
        let screens = [self.parser.screen(), self.reporting.screen(), &self.prev];
        let shown = screens.map(|screen| {
            let (size, kept) = (screen.size(), screen.scrollback_len());
            format!(
                "{size:?} {kept} {} {}",
                screen.scrollback(),
                screen.state_formatted()
            )
        });
        let is_current = self.mirror.is_current(self.viewer);
        format!("{shown:?} {is_current} {}", self.reporting.callbacks().log)
    }
}

/// How a step may fail.
#[derive(Clone, Copy, PartialEq)]
enum Kind {
    /// The step changes nothing if it panics.
    Atomic,

    /// The step calls `process`.
    Process,

    /// The step also succeeds without memory.
    Optional,
}

use Kind::{Atomic, Optional, Process};

/// A name, how the step may fail, and the step, which returns its output.
type Step = (&'static str, Kind, fn(&mut World) -> String);

const ALL_OPTIONS: DiffOptions = DiffOptions {
    scroll: true,
    repeat: Repeat::Any,
    portable: true,
};

fn rows(texts: impl Iterator<Item = String>) -> String {
    texts.collect::<Vec<_>>().join("|")
}

/// Reads all cells, and returns their text.
fn cells(parser: &Parser) -> String {
    let screen = parser.screen();
    let places = (0..4).flat_map(|row| (0..9).map(move |col| (row, col)));
    let texts = places.map(|(row, col)| screen.cell(row, col).unwrap().contents());
    texts.collect()
}

fn captured(world: &mut World, is_full: bool) -> String {
    let range = if is_full {
        BasicFormattedCaptureRange::Full(&mut world.capture)
    } else {
        BasicFormattedCaptureRange::Visible
    };
    let mut text = String::new();
    let screen = world.parser.screen();
    screen
        .write_contents_formatted_basic(&mut text, range)
        .unwrap();
    text
}

fn update(world: &mut World, options: Option<DiffOptions>) -> String {
    let update = match options {
        Some(options) => world.mirror.update_with(world.viewer, options),
        None => world.mirror.update(world.viewer),
    };
    format!("{update:?}")
}

/// The steps that make objects, change them or process input.
const CHANGES: [Step; 12] = [
    ("Parser::new", Atomic, |_| {
        Parser::new(size(2), size(3), 4).screen().contents()
    }),
    ("Parser::new_with_callbacks", Atomic, |_| {
        let parser = Parser::new_with_callbacks(size(2), size(3), 4, Calls::default());
        parser.screen().contents()
    }),
    ("Mirror::new", Atomic, |_| {
        format!("{:?}", Mirror::new(size(2), size(3), 4))
    }),
    ("Mirror::join", Atomic, |_| {
        Mirror::new(size(2), size(3), 4).join().to_string()
    }),
    ("Mirror::process", Process, |world| {
        world.mirror.process(SECOND_INPUT);
        String::new()
    }),
    ("Mirror::set_size", Atomic, |world| {
        world.mirror.set_size(size(6), size(20));
        String::new()
    }),
    ("Parser::process", Process, |world| {
        world.parser.process(SECOND_INPUT);
        String::new()
    }),
    ("Parser::process with callbacks", Process, |world| {
        world.reporting.process(SECOND_INPUT);
        world.reporting.callbacks().log.clone()
    }),
    ("Parser::set_size", Atomic, |world| {
        world.parser.set_size(size(6), size(20));
        String::new()
    }),
    ("Screen::set_size", Atomic, |world| {
        world.prev.set_size(size(6), size(20));
        String::new()
    }),
    ("Screen::clone", Atomic, |world| {
        world.parser.screen().clone().contents()
    }),
    ("Screen::shown_copy", Atomic, |world| {
        world.parser.screen().shown_copy().contents()
    }),
];

/// The steps that return the text of a screen.
const TEXTS: [Step; 23] = [
    ("contents", Atomic, |world| world.parser.screen().contents()),
    ("contents_between", Atomic, |world| {
        world.parser.screen().contents_between(0, 1, 3, 4)
    }),
    ("rows", Atomic, |world| {
        rows(world.parser.screen().rows(0, 9))
    }),
    ("contents_formatted", Atomic, |world| {
        world.parser.screen().contents_formatted()
    }),
    ("contents_formatted_with", Atomic, |world| {
        let options = RedrawOptions { portable: true };
        world.parser.screen().contents_formatted_with(options)
    }),
    ("contents_formatted_basic", Atomic, |world| {
        captured(world, false)
    }),
    ("capture_screen", Atomic, |world| captured(world, true)),
    ("state_formatted", Atomic, |world| {
        world.parser.screen().state_formatted()
    }),
    ("state_formatted_with", Atomic, |world| {
        let options = RedrawOptions { portable: true };
        world.parser.screen().state_formatted_with(options)
    }),
    ("rows_formatted", Atomic, |world| {
        rows(world.parser.screen().rows_formatted(0, 9))
    }),
    ("cursor_state_formatted", Atomic, |world| {
        world.parser.screen().cursor_state_formatted()
    }),
    ("attributes_formatted", Atomic, |world| {
        world.parser.screen().attributes_formatted()
    }),
    ("input_mode_formatted", Atomic, |world| {
        world.parser.screen().input_mode_formatted()
    }),
    ("contents_diff", Atomic, |world| {
        world.parser.screen().contents_diff(&world.prev)
    }),
    ("contents_diff of itself", Atomic, |world| {
        world.parser.screen().contents_diff(world.parser.screen())
    }),
    ("contents_diff_scrolling", Atomic, |world| {
        world.parser.screen().contents_diff_scrolling(&world.prev)
    }),
    ("contents_diff_with", Atomic, |world| {
        world
            .parser
            .screen()
            .contents_diff_with(&world.prev, ALL_OPTIONS)
    }),
    ("state_diff", Atomic, |world| {
        world.parser.screen().state_diff(&world.prev)
    }),
    ("state_diff_with", Atomic, |world| {
        world
            .parser
            .screen()
            .state_diff_with(&world.prev, ALL_OPTIONS)
    }),
    ("rows_diff", Atomic, |world| {
        rows(world.parser.screen().rows_diff(&world.prev, 0, 9))
    }),
    ("update", Atomic, |world| update(world, None)),
    ("update_with", Atomic, |world| {
        update(world, Some(ALL_OPTIONS))
    }),
    ("cells", Optional, |world| cells(&world.parser)),
];

/// Checks that a parser or mirror in which an allocation failed processes nothing more. A parser with
/// callbacks continues if the allocation was not one of a step, but for an event or in a callback.
fn check_failed(world: &mut World, name: &str) {
    let before = world.observed();
    let again = panic_of(|| match name {
        "Mirror::process" => world.mirror.process(b"x"),
        "Parser::process" => world.parser.process(b"x"),
        _ => world.reporting.process(b"\x18\x07"),
    });
    if again.is_none() && name == "Parser::process with callbacks" {
        assert!(world.reporting.callbacks().log.ends_with("bell "));
        assert_ne!(world.observed(), before);
        return;
    }
    assert_eq!(again.as_deref(), Some(FAILED), "{name}");
    assert_eq!(world.observed(), before, "{name}");
}

/// Returns the message with which a call panics, or `None` if it returns.
fn panic_of(call: impl FnOnce()) -> Option<String> {
    let payload = catch_unwind(AssertUnwindSafe(call)).err()?;
    Some(message_of(payload.as_ref()).to_owned())
}

/// Returns the message of a panic.
fn message_of(payload: &(dyn Any + Send)) -> &str {
    let text = payload.downcast_ref::<String>().map(String::as_str);
    text.or_else(|| payload.downcast_ref::<&str>().copied())
        .unwrap_or_default()
}

/// Takes a step in which the allocation after `count` others fails and, if `all` is set, also those
/// after it. `wanted` is its output, and what can be observed after it, if no allocation fails.
/// Returns whether it panicked.
fn try_refused((name, kind, step): Step, wanted: &str, count: c_long, all: bool) -> bool {
    let mut world = World::new();
    let before = world.observed();
    let mut output = String::new();
    heap::refuse(count, all);
    let message = panic_of(|| output = step(&mut world));
    heap::grant();
    let Some(message) = message else {
        assert_eq!(
            output + &world.observed(),
            wanted,
            "{name}, allocation {count}"
        );
        return false;
    };
    assert_eq!(message, OUT_OF_MEMORY, "{name}, allocation {count}");
    if kind == Process {
        check_failed(&mut world, name);
    } else {
        assert_eq!(world.observed(), before, "{name}, allocation {count}");
        let output = step(&mut world);
        assert_eq!(
            output + &world.observed(),
            wanted,
            "{name} after allocation {count}"
        );
    }
    true
}

/// Takes a step with each of its allocations failing in turn. Returns how many there are.
fn try_step(step: Step) -> c_long {
    let mut world = World::new();
    let first = heap::allocations();
    let output = step.2(&mut world);
    let count = heap::allocations() - first;
    let wanted = output + &world.observed();
    drop(world);
    assert!(count > 0, "{} allocates nothing", step.0);
    for number in 0..count {
        for all in [false, true] {
            let has_panicked = try_refused(step, &wanted, number, all);
            assert_eq!(
                has_panicked,
                step.1 != Optional,
                "{}, allocation {number}",
                step.0
            );
        }
    }
    count
}

fn main() {
    let report = take_hook();
    set_hook(Box::new(move |panic| {
        if !message_of(panic.payload()).starts_with("vt100: ") {
            report(panic);
        }
    }));
    heap::grant();
    let before = heap::live();
    let steps = CHANGES.iter().chain(&TEXTS);
    let count: c_long = steps.map(|&step| try_step(step)).sum();
    assert_eq!(heap::live(), before, "not everything was freed");
    println!("{count} allocations failed, each once alone and once with all later ones");
}
