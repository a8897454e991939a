//! Tests of the translator of character sets.

use std::num::NonZeroU16;
use vt100::{Charsets, Parser};

/// The characters of the bytes 0x5F to 0x7E in DEC Special Graphics (DEC's manual of the VT220).
const DRAWN: &str = " ◆▒␉␌␍␊°±␤␋┘┐┌└┼⎺⎻─⎼⎽├┤┴┬│≤≥π≠£·";

fn translated(chunks: &[&[u8]]) -> String {
    let mut charsets = Charsets::new();
    let bytes = chunks
        .iter()
        .flat_map(|it| charsets.translate(it))
        .collect();
    String::from_utf8(bytes).unwrap()
}

#[test]
fn each_character_is_translated() {
    let bytes: Vec<u8> = (0x5F..=0x7E).collect();
    let input = [b"\x1b(0", bytes.as_slice()].concat();
    assert_eq!(translated(&[&input]), format!("\x1b(0{DRAWN}"));
    assert_eq!(translated(&[&bytes]).into_bytes(), bytes);
}

#[test]
fn input_may_be_split_anywhere() {
    let input = b"q\x1b)0q\x0eq\x0f\x1b*0\x1bNqq\x1b]0;q\x07\x1b7\x1b(0q\x1b8q";
    let wanted = "q\x1b)0q\x0e─\x0f\x1b*0\x1bN─q\x1b]0;q\x07\x1b7\x1b(0─\x1b8q";
    for at in 0..=input.len() {
        let (first, second) = input.split_at(at);
        assert_eq!(translated(&[first, second]), wanted);
    }
}

#[test]
fn a_parser_displays_the_translation() {
    let mut charsets = Charsets::default();
    let size = |number| NonZeroU16::new(number).unwrap();
    let mut parser = Parser::new(size(2), size(8), 0);
    parser.process(&charsets.translate(b"\x1b(0lqk\r\n"));
    parser.process(&charsets.translate(b"mqj\x1b(Bmqj"));
    assert_eq!(parser.screen().contents(), "┌─┐\n└─┘mqj");
    assert!(charsets.translate(b"").is_empty());
}
