//! The synopsis of the crate `vt100`, unmodified.

// The synopsis makes a copy of the first screen and never uses it.
#![allow(unused_variables)]

fn main() {
    let mut parser = vt100::Parser::default();

    let screen = parser.screen().clone();
    parser.process(b"this text is \x1b[31mRED\x1b[m");
    assert_eq!(
        parser.screen().cell(0, 13).unwrap().fgcolor(),
        vt100::Color::Idx(1),
    );

    let screen = parser.screen().clone();
    parser.process(b"\x1b[3D\x1b[32mGREEN");
    assert_eq!(
        parser.screen().contents_formatted(),
        "\x1b[?25h\x1b[m\x1b[H\x1b[Jthis text is \x1b[32mGREEN",
    );
    assert_eq!(
        parser.screen().contents_diff(&screen),
        "\x1b[1;14H\x1b[32mGREEN",
    );
}
