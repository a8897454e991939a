"""What the terminfo entries say about keys, compared with xterm's document and with what the packages for Python and
JavaScript send."""

import json
import os
import re
import shutil
import subprocess

TOP = os.path.join(os.path.dirname(os.path.abspath(__file__)), "..")

# The keypad in application mode ("VT100-style keypad" in xterm's control sequences), and the key in its middle. The
# digits are a1 to c3 in three rows from the top.
KEYPAD = {
    "ka1": "w", "ka2": "x", "ka3": "y", "kb1": "t", "kb2": "u", "kb3": "v", "kc1": "q", "kc2": "r", "kc3": "s",
    "kpZRO": "p", "kpMUL": "j", "kpADD": "k", "kpCMA": "l", "kpSUB": "m", "kpDOT": "n", "kpDIV": "o", "kent": "M",
    "kp5": "E", "kbeg": "E",
}

# Capabilities that are no keys: the beginning of a mouse event, and what encloses pasted text.
OTHERS = {"kmous": b"\x1b[<", "PS": b"\x1b[200~", "PE": b"\x1b[201~"}

# The names of keys in Python.
PLAIN = {
    "kcuu1": "up", "kcud1": "down", "kcuf1": "right", "kcub1": "left", "khome": "home", "kend": "end",
    "kich1": "insert", "kdch1": "delete", "kpp": "page_up", "knp": "page_down", "kbs": "backspace",
    "kcbt": "shift-tab", "kri": "shift-up", "kind": "shift-down", "kbeg": "begin", "kp5": "begin",
    "ka1": "keypad_7", "ka2": "keypad_8", "ka3": "keypad_9", "kb1": "keypad_4", "kb2": "keypad_5", "kb3": "keypad_6",
    "kc1": "keypad_1", "kc2": "keypad_2", "kc3": "keypad_3", "kpZRO": "keypad_0", "kpMUL": "keypad_multiply",
    "kpADD": "keypad_add", "kpCMA": "keypad_comma", "kpSUB": "keypad_subtract", "kpDOT": "keypad_decimal",
    "kpDIV": "keypad_divide", "kent": "keypad_enter",
}
MODIFIED = {
    "kUP": "up", "kDN": "down", "kRIT": "right", "kLFT": "left", "kHOM": "home", "kEND": "end",
    "kIC": "insert", "kDC": "delete", "kPRV": "page_up", "kNXT": "page_down",
}
MODIFIERS = {
    "": "shift-", "3": "alt-", "4": "alt-shift-", "5": "ctrl-", "6": "ctrl-shift-", "7": "ctrl-alt-",
}
FUNCTION_MODIFIERS = ("", "shift-", "ctrl-", "ctrl-shift-", "alt-", "alt-shift-")

# The names of keys in JavaScript where they are not those in Python in another case.
IN_JAVASCRIPT = {
    "up": "ArrowUp", "down": "ArrowDown", "right": "ArrowRight", "left": "ArrowLeft", "page_up": "PageUp",
    "page_down": "PageDown",
}


def key_of(capability):
    """Returns the name in Python of the key that a capability is about, or None."""
    if capability in PLAIN:
        return PLAIN[capability]
    function = re.fullmatch(r"kf(\d+)", capability)
    if function:
        group, number = divmod(int(function[1]) - 1, 12)
        return f"{FUNCTION_MODIFIERS[group]}f{number + 1}"
    name, number = re.fullmatch(r"(\w*?)(\d?)", capability).groups()
    if name in MODIFIED and number in MODIFIERS:
        return MODIFIERS[number] + MODIFIED[name]
    return None


def event_of(key):
    """Returns the event of a key in JavaScript, given its name in Python."""
    *modifiers, name = key.split("-")
    event = {f"{modifier}Key": modifier in modifiers for modifier in ("shift", "alt", "ctrl")}
    if name == "begin":
        return {**event, "key": "Clear", "code": "Numpad5"}
    if name.startswith("keypad_"):
        return {**event, "key": "Unidentified", "code": name.replace("keypad_", "numpad ").title().replace(" ", "")}
    return {**event, "key": IN_JAVASCRIPT.get(name, name.capitalize())}


def sent_in_javascript(keys):
    """Returns what the package for JavaScript sends for each key in application mode, or None without node."""
    if not shutil.which("node"):
        return None
    events = [event_of(key) for key in keys]
    program = (
        'import { keyText } from "./keys.js"; import { readFileSync } from "node:fs";'
        "const events = JSON.parse(readFileSync(0, 'utf8'));"
        "const state = (event) => ({ applicationCursor: true, applicationKeypad: event.key !== 'Clear' });"
        "console.log(JSON.stringify(events.map((event) => keyText(event, state(event)))));"
    )
    command = ["node", "--input-type=module", "--eval", program]
    folder = os.path.join(TOP, "bindings", "js")
    done = subprocess.run(command, cwd=folder, input=json.dumps(events), capture_output=True, check=True, text=True)
    return [text.encode() for text in json.loads(done.stdout)]


def test(equal, entry):
    """Tests the keys of an entry by calls of `equal(about, found, wanted)`: that the keypad is as in xterm's document,
    that all keys are what the packages send, and that all keys of the packages are in the entry."""
    from vt100._keys import KEYS, key_bytes

    fixed = {**OTHERS, **{name: b"\x1bO" + final.encode() for name, final in KEYPAD.items()}}
    for name, text in fixed.items():
        equal(name, entry.expand(name) if name in entry.strings else None, text)
    names = [name for name in entry.strings if name.startswith("k") and name not in OTHERS]
    equal("unknown keys", [name for name in names if key_of(name) is None], [])
    names = [name for name in names if key_of(name) is not None]
    keys = [key_of(name) for name in names]
    # Every terminal sends the first four keys, and terminfo has no name for the last one.
    plain = set(KEYS) - {"enter", "tab", "escape", "space", "keypad_equal"}
    equal("keys that are missing", plain - set(keys), set())
    for name, key in zip(names, keys):
        equal(f"{name} in Python", entry.expand(name), key_bytes(key, True, True))
    in_javascript = sent_in_javascript(keys)
    if in_javascript is None:
        print("left out: the keys of the package for JavaScript, since there is no node")
    for name, text in zip(names, in_javascript or []):
        equal(f"{name} in JavaScript", entry.expand(name), text)
