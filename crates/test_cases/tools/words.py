"""The words that case files and script files use for colours, bytes and calls."""


def color(value):
    if isinstance(value, list):
        return "rgb:" + ":".join(str(part) for part in value)
    return str(value)


def hexadecimal(text):
    return text.encode().hex() or "."


def option(value):
    return "None" if value is None else f"Some({value})"


def quoted(text, encoding="utf-8"):
    escapes = {0x09: "\\t", 0x0A: "\\n", 0x0D: "\\r", 0x22: '\\"', 0x27: "\\'", 0x5C: "\\\\"}
    signs = (escapes.get(b) or (chr(b) if 0x20 <= b < 0x7F else f"\\x{b:02x}") for b in text.encode(encoding))
    return '"' + "".join(signs) + '"'


def event(words, quoted=quoted):
    """A call as the crate vt_notes writes it, and a row that scrolled away as its text and its page."""
    name, rest = words[0], words[1:]
    if name == "on_scroll":
        return f"scroll {hexadecimal(rest[0])} {int(rest[1])}"
    if name == "unhandled_csi":
        first, second, groups, final = rest
        parts = [option(first), option(second), str(groups), repr(final)]
    elif name == "unhandled_escape":
        parts = [option(rest[0]), option(rest[1]), str(rest[2])]
    else:
        rest = rest[0] if name == "unhandled_osc" else rest
        parts = [str(word) if isinstance(word, int) else quoted(word) for word in rest]
    return f"event {name}({', '.join(parts)})"
