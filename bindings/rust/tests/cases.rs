//! Tests that replay the recorded cases and scripts of `crates/test_cases`, whose README describes
//! the lines.

mod lines;

use lines::{bytes_of, mode_line, picture_lines, size_lines, Lines};
use std::num::NonZeroU16;
use std::path::Path;
use vt100::{Parser, Screen};

/// Replays all cases and scripts of a file, and returns how many there were. Panics if one of them
/// differs.
fn replay_file(name: &str) -> usize {
    let folder = Path::new(env!("CARGO_MANIFEST_DIR")).join("../../crates/test_cases/data");
    let text = std::fs::read_to_string(folder.join(name)).unwrap();
    let blocks: Vec<&str> = text.strip_prefix("= ").unwrap().split("\n= ").collect();
    let mut differing = Vec::new();
    for block in &blocks {
        let (head, lines) = block.split_once('\n').unwrap();
        let words: Vec<&str> = head.split(' ').collect();
        let capacity = words.get(3).map(|word| word.parse().unwrap());
        let size = (number(words[1]), number(words[2]));
        let found = match capacity {
            None => replay_case(size, lines),
            Some(capacity) => replay_script(size, capacity, lines),
        };
        differing.extend(found.map(|word| format!("{} ({word})", words[0])));
    }
    assert!(differing.is_empty(), "{name}: {}", differing.join("\n"));
    blocks.len()
}

fn number(word: &str) -> NonZeroU16 {
    word.parse().unwrap()
}

/// Replays a case with its bytes in one chunk and one by one. Returns the first difference, if any.
fn replay_case((rows, cols): (NonZeroU16, NonZeroU16), lines: &str) -> Option<String> {
    let (mut bytes, mut before) = (Vec::new(), 0);
    let (mut told, mut texts) = (String::new(), Vec::new());
    for line in lines.lines() {
        let (word, rest) = line.split_once(' ').unwrap_or((line, ""));
        match word {
            "<" => bytes = bytes_of(rest),
            "prev" => before = rest.parse().unwrap(),
            "unsteady" => {}
            _ if is_of_state(word) => told += &format!("{line}\n"),
            _ => texts.push(line),
        }
    }
    for piece in [bytes.len().max(1), 1] {
        let mut parser = Parser::new_with_callbacks(rows, cols, 0, Lines::default());
        parser.process(&bytes[..before]);
        let prev = parser.screen().clone();
        for piece in bytes[before..].chunks(piece) {
            parser.process(piece);
        }
        let screen = parser.screen();
        let state = picture_lines(screen) + &mode_line(screen) + &parser.callbacks().0;
        if state != told {
            return Some(format!(
                "state in pieces of {piece}:\n{state}and not\n{told}"
            ));
        }
        if let Some(line) = texts.iter().find(|line| !is_told(screen, &prev, line)) {
            return Some(format!("text: {line}"));
        }
    }
    is_quietly_equal(rows, cols, &bytes, &told).then_some("without callbacks".to_owned())
}

/// Returns whether a parser without callbacks has a different state than `told` specifies.
fn is_quietly_equal(rows: NonZeroU16, cols: NonZeroU16, bytes: &[u8], told: &str) -> bool {
    let mut parser = Parser::new(rows, cols, 0);
    parser.process(bytes);
    let state = picture_lines(parser.screen()) + &mode_line(parser.screen());
    !told.starts_with(&state)
}

/// Replays a script, and returns the first difference, if any.
fn replay_script(
    (rows, cols): (NonZeroU16, NonZeroU16),
    capacity: usize,
    lines: &str,
) -> Option<String> {
    let mut parser = Parser::new_with_callbacks(rows, cols, capacity, Lines::default());
    let mut prev = parser.screen().clone();
    for step in lines.strip_prefix("> ").unwrap().split("\n> ") {
        let (call, lines) = step.split_once('\n').unwrap_or((step, ""));
        if call != "expect" {
            take_step(&mut parser, call);
            continue;
        }
        let screen = parser.screen();
        let mut state = size_lines(screen) + &picture_lines(screen) + &mode_line(screen);
        state += &parser.callbacks().0;
        let mut told = String::new();
        for line in lines.lines() {
            if is_of_state(line.split(' ').next().unwrap()) {
                told += &format!("{line}\n");
            } else if !is_told(screen, &prev, line) {
                return Some(format!("text: {line}"));
            }
        }
        if state != told {
            return Some(format!("state:\n{state}and not\n{told}"));
        }
        prev = screen.clone();
    }
    None
}

/// Returns the number of rows that a word states, or the largest that the processor can express.
fn row_count(word: &str) -> usize {
    let count: u64 = word.parse().unwrap();
    usize::try_from(count).unwrap_or(usize::MAX)
}

fn take_step(parser: &mut Parser<Lines>, call: &str) {
    let words: Vec<&str> = call.split(' ').collect();
    match words[0] {
        "process" => parser.process(&bytes_of(words[1])),
        "set_size" => parser.set_size(number(words[1]), number(words[2])),
        "screen_set_size" => {
            let screen = parser.screen_mut();
            screen.set_size(number(words[1]), number(words[2]));
        }
        "set_scrollback" => parser.screen_mut().set_scrollback(row_count(words[1])),
        "clear_scrollback" => parser.screen_mut().clear_scrollback(),
        "clone" => *parser.screen_mut() = parser.screen().clone(),
        "clear_events" => parser.callbacks_mut().0.clear(),
        name => panic!("no step is named {name}"),
    }
}

fn is_of_state(word: &str) -> bool {
    let words = "size scrollback lengths cursor flags cell screen event scroll";
    words.split(' ').any(|other| other == word)
}

/// Returns whether a screen has the output that a line specifies; `prev` is the screen from which
/// differences start.
fn is_told(screen: &Screen, prev: &Screen, line: &str) -> bool {
    let words: Vec<&str> = line.split(' ').collect();
    let place = |at: usize| words[at].parse::<u16>().unwrap();
    let texts: Vec<String> = match words[0] {
        "contents" => vec![screen.contents()],
        "formatted" => vec![screen.contents_formatted()],
        "basic" => vec![screen.contents_formatted_basic()],
        "diff" => vec![screen.contents_diff(prev)],
        "cursor_state" => vec![screen.cursor_state_formatted()],
        "attributes" => vec![screen.attributes_formatted()],
        "input" => vec![screen.input_mode_formatted()],
        "input_diff" => vec![screen.input_mode_diff(prev)],
        "rows" => screen.rows(place(1), place(2)).collect(),
        "rows_formatted" => screen.rows_formatted(place(1), place(2)).collect(),
        "rows_diff" => screen.rows_diff(prev, place(1), place(2)).collect(),
        "between" => vec![screen.contents_between(place(1), place(2), place(3), place(4))],
        word => panic!("no text is named {word}"),
    };
    let first = words.len() - texts.len();
    let expected = words[first..].iter().map(|word| bytes_of(word));
    let had = matches!(words[0], "rows" | "rows_formatted" | "rows_diff");
    let first_wanted = match words[0] {
        "between" => 5,
        _ if had => 3,
        _ => 1,
    };
    first == first_wanted && texts.into_iter().map(String::into_bytes).eq(expected)
}

#[test]
fn cases_by_theme() {
    assert!(replay_file("hand.cases") > 100);
}

#[test]
fn random_cases() {
    assert!(replay_file("random.cases") > 100);
}

#[test]
fn scripts() {
    assert!(replay_file("scripts.cases") > 50);
}
