"""A plain painting of a screen: absolute moves, complete SGR sequences and glyphs, and nothing else."""

from texts import BOLD, DEFAULT_LOOK, DIM, INVERSE, ITALIC, UNDERLINED

NUMBERS = {BOLD: 1, DIM: 2, ITALIC: 3, UNDERLINED: 4, INVERSE: 7}


def color_numbers(color, base):
    """Returns the SGR numbers of a color, where `base` is 30 for foregrounds and 40 for backgrounds."""
    if color == "-":
        return []
    if "," in color:
        return [base + 8, 2, *color.split(",")]
    number = int(color)
    if number < 8:
        return [base + number]
    return [base + 52 + number] if number < 16 else [base + 8, 5, number]


def sgr(look):
    """Returns the SGR sequence that selects a look, whatever was selected before."""
    ink, paper, marks = look
    numbers = [0, *(number for mark, number in NUMBERS.items() if marks & mark)]
    numbers += color_numbers(ink, 30) + color_numbers(paper, 40)
    return f"\x1b[{';'.join(map(str, numbers))}m"


def move(row, col):
    """Returns the absolute move to a position."""
    return f"\x1b[{row + 1};{col + 1}H"


def glyph_of(cell, has_marks):
    """Returns a cell's glyph and look. A blank is painted as a space, with nothing but its background unless `has_marks`
    is set.
    """
    glyph, (ink, paper, marks) = cell
    return (glyph, (ink, paper, marks)) if glyph or has_marks else (" ", ("-", paper, 0))


def painted_row(at, row, has_marks):
    """Paints a row. Each glyph after one that is not ASCII is reached by an absolute move."""
    out, before, is_sure = [move(at, 0)], None, True
    for col, cell in enumerate(row):
        if cell[0] is None:
            continue
        glyph, look = glyph_of(cell, has_marks)
        out.append("" if is_sure else move(at, col))
        out.append("" if look == before else sgr(look))
        out.append(glyph or " ")
        before, is_sure = look, glyph.isascii()
    return "".join(out)


def painted(update, has_marks):
    """Returns the painting of an update's screen, and then puts the cursor where the screen has it. If `has_marks` is set,
    blanks are underlined and inverse where the terminal leaves them so when it erases cells with these attributes.
    """
    out = ["\x1b[?25h\x1b[m\x1b[2J"]
    for at, row in enumerate(update.rows):
        if any(glyph or look != DEFAULT_LOOK for glyph, look in row):
            out.append(painted_row(at, row, has_marks))
    row, col, hidden = update.cursor
    cells = update.rows[row]
    out.append("\x1b[m" + move(row, min(col, len(cells) - 1)))
    if col >= len(cells):
        # A pending wrap: the row's last glyph again.
        last = max(at for at, cell in enumerate(cells) if cell[0] is not None)
        glyph, look = glyph_of(cells[last], has_marks)
        out.append(move(row, last) + sgr(look) + (glyph or " ") + "\x1b[m")
    out.append("\x1b[?25l" if hidden else "")
    return "".join(out).encode()
