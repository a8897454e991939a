//! Tests of differences that move rows, and of the viewers of a mirror.

use std::num::NonZeroU16;
use vt100::mirror::{Mirror, Update};
use vt100::{DiffOptions, Parser, RedrawOptions, Repeat};

fn size(number: u16) -> NonZeroU16 {
    NonZeroU16::new(number).unwrap()
}

/// Applies an update to a viewer's terminal.
fn take(terminal: &mut Parser, update: &Update) {
    if let Update::Full { rows, cols, .. } = update {
        terminal.set_size(*rows, *cols);
    }
    terminal.process(update.text().as_bytes());
}

#[test]
fn rows_move_where_that_is_shorter() {
    let mut parser = Parser::new(size(4), size(10), 0);
    parser.process(b"aaaaaaaaa\r\nbbbbbbbbb\r\nccccccccc\r\nddddddddd");
    let before = parser.screen().clone();
    parser.process(b"\r\neeeeeeeee");
    let screen = parser.screen();
    assert_eq!(
        screen.contents_diff_scrolling(&before),
        "\x1b[H\x1b[M\n\n\neeeeeeeee"
    );
    assert!(screen.contents_diff_scrolling(&before).len() < screen.contents_diff(&before).len());
    assert_eq!(screen.contents_diff_scrolling(screen), "");
    let other = Parser::new(size(3), size(10), 0);
    assert_eq!(
        screen.contents_diff_scrolling(other.screen()),
        screen.contents_formatted()
    );
}

#[test]
fn runs_are_repeated_if_the_options_allow_it() {
    let mut parser = Parser::new(size(2), size(20), 0);
    let before = parser.screen().clone();
    parser.process(b"----------");
    let screen = parser.screen();
    let repeat = DiffOptions {
        repeat: Repeat::Any,
        ..DiffOptions::default()
    };
    assert_eq!(screen.contents_diff_with(&before, repeat), "-\x1b[9b");
    assert_eq!(
        screen.contents_diff_with(&before, DiffOptions::default()),
        screen.contents_diff(&before)
    );
    let mut mirror = Mirror::new(size(2), size(20), 0);
    let viewer = mirror.join();
    mirror.update(viewer).unwrap();
    mirror.process(b"----------");
    assert_eq!(
        mirror.update_with(viewer, repeat),
        Some(Update::Diff("-\x1b[9b".into()))
    );
    assert_eq!(mirror.update_with(viewer + 1, repeat), None);
}

#[test]
fn only_ascii_characters_are_repeated_if_the_options_say_so() {
    let mut parser = Parser::new(size(2), size(20), 0);
    let before = parser.screen().clone();
    parser.process("----------\r\n\u{2500}\u{2500}\u{2500}\u{2500}".as_bytes());
    let diff = |repeat| {
        let options = DiffOptions {
            repeat,
            ..DiffOptions::default()
        };
        parser.screen().contents_diff_with(&before, options)
    };
    assert_eq!(
        diff(Repeat::Never),
        "----------\r\n\u{2500}\u{2500}\u{2500}\u{2500}"
    );
    assert_eq!(
        diff(Repeat::Ascii),
        "-\x1b[9b\r\n\u{2500}\u{2500}\u{2500}\u{2500}"
    );
    assert_eq!(diff(Repeat::Any), "-\x1b[9b\r\n\u{2500}\x1b[3b");
}

#[test]
fn portable_output_avoids_what_terminals_disagree_on() {
    let clear = "\x1b[?25h\x1b[m\x1b[H\x1b[J";
    for (input, text, portable) in [
        (
            "\x1b[2ma\x1b[22;1mb",
            "\x1b[2ma\x1b[1mb",
            "\x1b[2ma\x1b[m\x1b[1mb",
        ),
        (
            "abcd\r\nxxxxx\x1b[A",
            "abcd\r\nxxxxx\x1b[1;5H \x1b7\x08\x1b[X\x1b8",
            "abcd\r\nxxxxx\x1b[1;5H \x1b7\x1b[1;5H\x1b[X\x1b8",
        ),
    ] {
        let mut parser = Parser::new(size(2), size(5), 0);
        let before = parser.screen().clone();
        parser.process(input.as_bytes());
        let screen = parser.screen();
        for (is_portable, wanted) in [(false, text), (true, portable)] {
            let options = DiffOptions {
                portable: is_portable,
                ..DiffOptions::default()
            };
            assert_eq!(screen.contents_diff_with(&before, options), wanted);
            let options = RedrawOptions {
                portable: is_portable,
            };
            assert_eq!(
                screen.contents_formatted_with(options),
                format!("{clear}{wanted}")
            );
        }
    }
}

#[test]
fn states_have_options_and_modes() {
    let mut parser = Parser::new(size(2), size(20), 0);
    let before = parser.screen().clone();
    parser.process(b"\x1b=\x1b[?2004h----------\r\n\x1b[2ma\x1b[22;1mb");
    let screen = parser.screen();
    let (dim_then_bold, modes) = ("\x1b[2ma\x1b[m\x1b[1mb", "\x1b=\x1b[?2004h");
    let mut options = DiffOptions::default();
    assert_eq!(
        screen.state_diff_with(&before, options),
        screen.state_diff(&before)
    );
    options.portable = true;
    assert_eq!(
        screen.state_diff_with(&before, options),
        format!("----------\r\n{dim_then_bold}{modes}")
    );
    options.repeat = Repeat::Ascii;
    assert_eq!(
        screen.state_diff_with(&before, options),
        format!("-\x1b[9b\r\n{dim_then_bold}{modes}")
    );
    assert_eq!(screen.state_diff_with(screen, options), "");
    let clear = "\x1b[?25h\x1b[m\x1b[H\x1b[J";
    assert_eq!(
        screen.state_formatted_with(RedrawOptions { portable: true }),
        format!("{clear}----------\r\n{dim_then_bold}\x1b=\x1b[?1l\x1b[?2004h")
    );
    assert_eq!(
        screen.state_formatted_with(RedrawOptions::default()),
        screen.state_formatted()
    );
}

#[test]
fn portable_updates_avoid_what_terminals_disagree_on() {
    let portable = DiffOptions {
        portable: true,
        ..DiffOptions::default()
    };
    let full = |text: &str| {
        Some(Update::Full {
            rows: size(2),
            cols: size(5),
            text: format!("\x1b[?25h\x1b[m\x1b[H\x1b[J{text}"),
        })
    };
    let diff = |text: &str| Some(Update::Diff(text.into()));
    let mut mirror = Mirror::new(size(2), size(5), 0);
    mirror.process(b"\x1b[2ma\x1b[22;1mb");
    let (first, second) = (mirror.join(), mirror.join());
    let wanted = full("\x1b[2ma\x1b[m\x1b[1mb");
    assert_eq!(mirror.update_with(first, portable), wanted);
    assert_eq!(mirror.update(second), full("\x1b[2ma\x1b[1mb"));
    mirror.process(b"\x1b[22;2mc");
    assert_eq!(mirror.update(first), diff("\x1b[2mc"));
    let wanted = diff("\x1b[m\x1b[2mc");
    assert_eq!(mirror.update_with(second, portable), wanted);
}

#[test]
fn rows_move_and_runs_are_repeated() {
    let mut parser = Parser::new(size(4), size(10), 0);
    parser.process(b"aaaaaaaaa\r\nbbbbbbbbb\r\nccccccccc\r\nddddddddd");
    let before = parser.screen().clone();
    parser.process(b"\r\neeeeeeeee");
    let both = DiffOptions {
        scroll: true,
        repeat: Repeat::Ascii,
        portable: false,
    };
    assert_eq!(
        parser.screen().contents_diff_with(&before, both),
        "\x1b[H\x1b[M\n\n\ne\x1b[8b"
    );
}

#[test]
fn viewers_are_kept_equal_by_both_kinds_of_update() {
    let mut mirror = Mirror::new(size(3), size(8), 5);
    let mut shown = Parser::new(size(3), size(8), 5);
    let (early, mut terminal) = (mirror.join(), Parser::new(size(1), size(1), 0));
    for piece in 0..40 {
        let text = format!("line {piece}\r\n\x1b[3{}m", piece % 8);
        mirror.process(text.as_bytes());
        shown.process(text.as_bytes());
        let update = if piece % 4 < 2 {
            mirror.update(early)
        } else {
            mirror.update_scrolling(early)
        };
        let update = update.unwrap();
        assert_eq!(matches!(update, Update::Full { .. }), piece == 0);
        take(&mut terminal, &update);
        let (seen, wanted) = (terminal.screen(), shown.screen());
        assert_eq!(seen.contents_formatted(), wanted.contents_formatted());
    }
    let late = mirror.join();
    assert_ne!(early, late);
    mirror.set_size(size(2), size(5));
    shown.set_size(size(2), size(5));
    for viewer in [early, late] {
        let mut terminal = Parser::default();
        take(&mut terminal, &mirror.update_scrolling(viewer).unwrap());
        let (seen, wanted) = (terminal.screen(), shown.screen());
        assert_eq!(seen.contents_formatted(), wanted.contents_formatted());
    }
    assert!(mirror.leave(early) && !mirror.leave(early));
    assert_eq!(mirror.update(early), None);
    assert_eq!(
        mirror.update_scrolling(late),
        Some(Update::Diff(String::new()))
    );
}

#[test]
fn a_mirror_keeps_as_many_rows_as_its_capacity() {
    // When a screen grows, rows come back from scrollback, with blank rows for those not kept.
    for (capacity, text) in [
        (0, "\n\n3\n4"),
        (1, "\n2\n3\n4"),
        (2, "1\n2\n3\n4"),
        (usize::MAX, "1\n2\n3\n4"),
    ] {
        let mut mirror = Mirror::new(size(2), size(8), capacity);
        mirror.process(b"1\r\n2\r\n3\r\n4");
        mirror.set_size(size(4), size(8));
        let viewer = mirror.join();
        let mut terminal = Parser::default();
        take(&mut terminal, &mirror.update(viewer).unwrap());
        assert_eq!(terminal.screen().contents(), text, "{capacity}");
    }
}

#[test]
fn a_mirror_processes_long_input() {
    let mut mirror = Mirror::new(size(2), size(20), 0);
    let viewer = mirror.join();
    mirror.process("line of text\r\n".repeat(100_000).as_bytes());
    mirror.process(b"the last one");
    let update = mirror.update(viewer).unwrap();
    assert!(update.text().ends_with("line of text\r\nthe last one"));
}

#[test]
fn a_viewer_is_current_until_the_mirror_reads_or_is_resized() {
    let mut mirror = Mirror::new(size(3), size(8), 0);
    let (viewer, other) = (mirror.join(), mirror.join());
    assert!(!mirror.is_current(viewer));
    mirror.update(viewer).unwrap();
    assert!(mirror.is_current(viewer) && !mirror.is_current(other));
    mirror.process(b"a");
    assert!(!mirror.is_current(viewer));
    assert_eq!(mirror.update(viewer), Some(Update::Diff("a".to_owned())));
    assert!(mirror.is_current(viewer));
    assert_eq!(mirror.update(viewer), Some(Update::Diff(String::new())));
    assert!(mirror.is_current(viewer));
    mirror.set_size(size(2), size(8));
    assert!(!mirror.is_current(viewer));
    mirror.update_scrolling(viewer).unwrap();
    assert!(mirror.is_current(viewer));
    assert!(mirror.leave(viewer) && !mirror.is_current(viewer));
}

#[test]
fn a_mirror_has_a_debug_form() {
    let size = |number| std::num::NonZeroU16::new(number).unwrap();
    let mirror = vt100::mirror::Mirror::new(size(3), size(20), 0);
    assert_eq!(format!("{mirror:?}"), "Mirror { .. }");
}
