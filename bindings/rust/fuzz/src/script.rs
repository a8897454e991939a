//! Random scripts, which consist of calls and of the bytes that programs write.

/// A generator of pseudorandom numbers, which depend only on the seed.
pub struct Random(u64);

impl Random {
    pub fn new(seed: u64) -> Self {
        let mut random = Self(seed.wrapping_mul(0x9e37_79b9_7f4a_7c15) | 1);
        for _ in 0..8 {
            random.below(2);
        }
        random
    }

    pub fn below(&mut self, bound: u64) -> u64 {
        self.0 ^= self.0 << 13;
        self.0 ^= self.0 >> 7;
        self.0 ^= self.0 << 17;
        (self.0 >> 11) % bound
    }

    fn of<T: Copy>(&mut self, items: &[T]) -> T {
        items[self.below(items.len() as u64) as usize]
    }

    /// Returns a random number of rows or columns, from 1 to `bound`.
    pub fn size(&mut self, bound: u64) -> u16 {
        1 + self.below(bound) as u16
    }
}

/// A call that is made on both parsers.
#[derive(Debug)]
pub enum Step {
    Process(Vec<u8>),
    SetSize(u16, u16),
    ScreenSetSize(u16, u16),
    SetScrollback(usize),
    ClearScrollback,

    /// Swaps the screen with a copy of an earlier screen.
    Exchange,
}

impl Step {
    pub fn random(random: &mut Random) -> Self {
        match random.below(14) {
            0 => Self::SetSize(random.size(9), 1 + random.size(20)),
            1 => Self::ScreenSetSize(random.size(9), 1 + random.size(20)),
            2 => Self::SetScrollback(random.below(5) as usize),
            3 => Self::ClearScrollback,
            4 => Self::Exchange,
            _ => Self::Process(bytes(random)),
        }
    }
}

/// Returns random output of a program, in which the last sequence may be
/// incomplete.
fn bytes(random: &mut Random) -> Vec<u8> {
    let mut out = Vec::new();
    for _ in 0..random.below(40) {
        match random.below(16) {
            0..=5 => text(random, &mut out),
            6 => out.push(random.of(b"\x07\x08\t\n\x0b\x0c\r\x0e\x0f\x05\x18\x7f")),
            7 => out.extend([0x1b, random.of(b"78cDEM=>g\\HZ(")]),
            8 => command(random, &mut out),
            9 => mode(random, &mut out),
            10 | 11 => attributes(random, &mut out),
            12 => resize(random, &mut out),
            _ => control(random, &mut out),
        }
    }
    if random.below(4) == 0 && out.is_ascii() {
        out.truncate(random.below(out.len() as u64 + 1) as usize);
    }
    out
}

fn text(random: &mut Random, out: &mut Vec<u8>) {
    for _ in 0..random.below(14) {
        out.push(b' ' + random.below(95) as u8);
    }
    if random.below(3) == 0 {
        let other = random.of(&[
            "\u{5bbd}",
            "\u{e4}",
            "\u{5b57}\u{5b57}",
            "\u{e9}",
            "e\u{301}",
        ]);
        out.extend(other.bytes());
    }
}

fn command(random: &mut Random, out: &mut Vec<u8>) {
    let number = random.of(&["0", "1", "2", "52", "9", "52;c", ""]);
    let rest = random.of(&["t", "c;aGk=", "c;?", "x;y", "", ";;", "a title"]);
    let end = random.of(&["\x07", "\x1b\\"]);
    out.extend(format!("\x1b]{number};{rest}{end}").bytes());
}

fn mode(random: &mut Random, out: &mut Vec<u8>) {
    let modes = [
        1, 6, 9, 25, 47, 1049, 2004, 1000, 1002, 1003, 1005, 1006, 9999,
    ];
    let (mode, marker) = (random.of(&modes), random.of(&["?", "?", "?", "", ">"]));
    out.extend(format!("\x1b[{marker}{mode}{}", random.of(&["h", "l"])).bytes());
}

fn attributes(random: &mut Random, out: &mut Vec<u8>) {
    let numbers = [
        "",
        "0",
        "1;31",
        "38;5;9",
        "48;2;1;2;3",
        "7",
        "4;3;2",
        "22",
        "99",
        "38:5:7",
        "48:2:4:5:6",
        "39;49",
        "23;24;27",
        "97;100",
        "38;5",
        "38;9;1",
        "4:3",
    ];
    out.extend(format!("\x1b[{}m", random.of(&numbers)).bytes());
}

fn resize(random: &mut Random, out: &mut Vec<u8>) {
    let (rows, cols) = (random.below(9), random.below(20));
    out.extend(format!("\x1b[8;{rows};{cols}t").bytes());
}

/// Appends a control sequence with numbers and possibly a private marker and an
/// intermediate.
fn control(random: &mut Random, out: &mut Vec<u8>) {
    let number = |random: &mut Random| match random.below(8) {
        0 => String::new(),
        1 => random.of(&["0", "99999", "65535", "300"]).to_owned(),
        _ => random.below(20).to_string(),
    };
    let (one, two) = (number(random), number(random));
    let numbers = random
        .of(&[
            one.clone(),
            format!("{one};{two}"),
            format!("{one};{two};3"),
        ]
        .each_ref()
        .map(String::as_str))
        .to_owned();
    let marker = random.of(&["", "", "", "", "", "?", "!"]);
    let between = random.of(&["", "", "", "", "", "", " ", "$"]);
    let last = random.of(b"ABCDEFGHJKLMPSTX@dreqzafb`n") as char;
    out.extend(format!("\x1b[{marker}{numbers}{between}{last}").bytes());
}
