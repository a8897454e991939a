"""What a terminal sends for keys and for the mouse."""

from __future__ import annotations

import re
from typing import Dict, Tuple

from ._cells import MouseProtocolEncoding, MouseProtocolMode

#: The keys of the numeric keypad: what each sends in numeric mode, and what it sends after ESC O in
#: application mode (DECKPAM), as on a VT220.
_KEYPAD: Dict[str, Tuple[str, str]] = {
    **{f"keypad_{digit}": (str(digit), "pqrstuvwxy"[digit]) for digit in range(10)},
    "keypad_multiply": ("*", "j"),
    "keypad_add": ("+", "k"),
    "keypad_comma": (",", "l"),
    "keypad_subtract": ("-", "m"),
    "keypad_decimal": (".", "n"),
    "keypad_divide": ("/", "o"),
    "keypad_enter": ("\r", "M"),
    "keypad_equal": ("=", "X"),
}

#: The names of the keys that `Terminal.press` accepts besides characters, with what a terminal of
#: type xterm-256color sends for each. The cursor keys are those of normal mode, and the keypad is in
#: numeric mode; in application mode, cursor keys send ESC O instead of ESC [.
KEYS: Dict[str, str] = {
    "enter": "\r",
    "tab": "\t",
    "escape": "\x1b",
    "backspace": "\x7f",
    "space": " ",
    "up": "\x1b[A",
    "down": "\x1b[B",
    "right": "\x1b[C",
    "left": "\x1b[D",
    "begin": "\x1b[E",
    "home": "\x1b[H",
    "end": "\x1b[F",
    "insert": "\x1b[2~",
    "delete": "\x1b[3~",
    "page_up": "\x1b[5~",
    "page_down": "\x1b[6~",
    **{f"f{number}": f"\x1bO{final}" for number, final in zip(range(1, 5), "PQRS")},
    **{
        f"f{number}": f"\x1b[{code}~"
        for number, code in zip(range(5, 13), (15, 17, 18, 19, 20, 21, 23, 24))
    },
    **{name: character for name, (character, _) in _KEYPAD.items()},
}

#: Other names of keys, and short names of modifiers. Upper and lower case are equal in names of
#: more than one letter.
_OTHER_NAMES = {
    "esc": "escape",
    "return": "enter",
    "del": "delete",
    "ins": "insert",
    "pageup": "page_up",
    "pagedown": "page_down",
    "pgup": "page_up",
    "pgdn": "page_down",
}
_SHORT_MODIFIERS = {"C": "ctrl", "M": "alt", "S": "shift"}

_CURSOR_KEYS = ("up", "down", "right", "left", "begin", "home", "end")

#: The number that each modifier adds to the parameter of a key (xterm, PC-style function keys).
_MODIFIERS = {"shift": 1, "alt": 2, "ctrl": 4}

#: The code of each button, and the numbers that modifiers and motion add to it.
_BUTTONS = {"left": 0, "middle": 1, "right": 2, "none": 3, "wheel_up": 64, "wheel_down": 65}
_MOUSE_MODIFIERS = {"shift": 4, "alt": 8, "ctrl": 16}
_MOTION = 32
_RELEASE = 3

#: The actions that are sent in each mode.
_ACTIONS = {
    MouseProtocolMode.PRESS: ("press",),
    MouseProtocolMode.PRESS_RELEASE: ("press", "release"),
    MouseProtocolMode.BUTTON_MOTION: ("press", "release", "move"),
    MouseProtocolMode.ANY_MOTION: ("press", "release", "move"),
}


def key_bytes(key: str, application_cursor: bool, application_keypad: bool = False) -> bytes:
    """Returns what is sent for a key: a character or a name in `KEYS`, which the names of modifiers
    may precede, as in "ctrl-alt-delete". Raises `ValueError` if there is no such key."""
    modifiers, name = _split(key)
    if len(name) == 1:
        return _character_bytes(name, modifiers)
    name = _OTHER_NAMES.get(name.lower(), name.lower())
    if name not in KEYS:
        raise ValueError(
            f"no key is named {key!r}: a key is a character, or one of {', '.join(KEYS)}, after any"
            " of ctrl-, alt- and shift-; send() sends text"
        )
    if application_keypad and name in _KEYPAD and not modifiers:
        return b"\x1bO" + _KEYPAD[name][1].encode()
    text = KEYS[name]
    if len(text) == 1:
        return _control_bytes(name, text, modifiers)
    number = 1 + sum(modifiers.values())
    if number == 1:
        is_application = application_cursor and name in _CURSOR_KEYS
        return (text.replace("[", "O") if is_application else text).encode()
    if text.endswith("~"):
        return f"{text[:-1]};{number}~".encode()
    return f"\x1b[1;{number}{text[-1]}".encode()


def _split(key: str) -> Tuple[Dict[str, int], str]:
    """Returns the modifiers before the name of a key, and the name."""
    modifiers: Dict[str, int] = {}
    while "-" in key[1:]:
        word, rest = key.split("-", 1)
        word = _SHORT_MODIFIERS.get(word, word.lower())
        if word not in _MODIFIERS or not rest:
            break
        modifiers[word], key = _MODIFIERS[word], rest
    return modifiers, key


def _character_bytes(character: str, modifiers: Dict[str, int]) -> bytes:
    if "shift" in modifiers:
        character = character.upper()
    if "ctrl" in modifiers:
        if not ("@" <= character.upper() <= "_" or character in " ?"):
            raise ValueError(f"no character is sent for ctrl-{character}")
        character = "\x7f" if character == "?" else chr(ord(character.upper()) & 0x1F)
    return _with_alt(character, modifiers)


def _control_bytes(name: str, text: str, modifiers: Dict[str, int]) -> bytes:
    """Returns what is sent for a key that sends a single character. Modifiers other than Alt change
    only three of these keys."""
    if name == "tab" and "shift" in modifiers:
        text = "\x1b[Z"
    elif name == "backspace" and "ctrl" in modifiers:
        text = "\x08"
    elif name == "space" and "ctrl" in modifiers:
        text = "\0"
    return _with_alt(text, modifiers)


def _with_alt(text: str, modifiers: Dict[str, int]) -> bytes:
    return ("\x1b" + text if "alt" in modifiers else text).encode()


#: The controls that pasted text loses: all but TAB, LF and CR. keys.js removes the same ones.
_UNPASTED = re.compile(r"[\x00-\x08\x0b\x0c\x0e-\x1f\x7f-\x9f]")


def paste_text(text: str, is_bracketed: bool) -> str:
    """Returns what is sent for pasted text. ESC could end the brackets, and a control such as ^C
    interrupts a program, which then reads the rest as typed."""
    text = _UNPASTED.sub("", text).replace("\r\n", "\r").replace("\n", "\r")
    return f"\x1b[200~{text}\x1b[201~" if is_bracketed else text


def mouse_bytes(
    action: str,
    row: int,
    col: int,
    button: str,
    mode: MouseProtocolMode,
    encoding: MouseProtocolEncoding,
) -> bytes:
    """Returns what is sent for a mouse event: "press", "release" or "move" with a button, which the
    names of modifiers may precede. Raises `ValueError` if the program has not requested the event,
    or the encoding does not have the position."""
    word, _, name = button.rpartition("-")
    modifiers = word.split("-") if word else []
    if name not in _BUTTONS or any(one not in _MOUSE_MODIFIERS for one in modifiers):
        raise ValueError(f"no button is named {button!r}")
    if action not in ("press", "release", "move"):
        raise ValueError(f"a mouse event is 'press', 'release' or 'move', not {action!r}")
    is_wanted = action in _ACTIONS.get(mode, ())
    if name == "none":
        is_wanted = action == "move" and mode is MouseProtocolMode.ANY_MOTION
    if not is_wanted:
        raise ValueError(f"the program has not requested this event: its mouse mode is {mode.name}")
    is_sgr = encoding is MouseProtocolEncoding.SGR
    code = _BUTTONS[name] if is_sgr or action != "release" else _RELEASE
    code += _MOTION if action == "move" else 0
    if mode is not MouseProtocolMode.PRESS:
        code += sum(_MOUSE_MODIFIERS[one] for one in modifiers)
    if is_sgr:
        final = "m" if action == "release" else "M"
        return f"\x1b[<{code};{col + 1};{row + 1}{final}".encode()
    return b"\x1b[M" + b"".join(_coordinate(n, encoding) for n in (code, col + 1, row + 1))


def _coordinate(number: int, encoding: MouseProtocolEncoding) -> bytes:
    limit = 2015 if encoding is MouseProtocolEncoding.UTF8 else 223
    if number > limit:
        raise ValueError(f"the encoding of the mouse has no positions after {limit - 1}")
    if encoding is MouseProtocolEncoding.UTF8:
        return chr(number + 32).encode()
    return bytes([number + 32])
