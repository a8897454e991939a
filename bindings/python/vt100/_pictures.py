"""Pictures of screens: HTML and SVG.

The output and the colors are those of the package for JavaScript.
"""

from __future__ import annotations

import re
from typing import Iterator, List, NamedTuple, Sequence

from ._cells import Cell, Color

#: The first 16 colors of the palette.
_NAMED = (
    *("#000000", "#cd3131", "#0dbc79", "#c5b000", "#2472c8", "#bc3fbc", "#11a8cd", "#d5d5d5"),
    *("#666666", "#f14c4c", "#23d18b", "#f5f543", "#3b8eea", "#d670d6", "#29b8db", "#ffffff"),
)

_FONT = "'DejaVu Sans Mono', Menlo, Consolas, monospace"

# The size of the font and of a cell in SVG.
_FONT_SIZE, _CELL_WIDTH, _CELL_HEIGHT, _BASELINE = 15, 9, 18, 14

#: What is written for characters with a meaning in HTML, and for those that XML does not allow.
_ENTITIES = {
    "&": "&amp;", "<": "&lt;", ">": "&gt;", '"': "&quot;", "\ufffe": "\ufffd", "\uffff": "\ufffd",
}


class Theme(NamedTuple):
    """The colors of a picture, each written as in CSS.

    `palette` has the colors of the palette from index 0 on; for those that it lacks, the default
    ones are used, which are xterm's from index 16 on. `dim_opacity` is the opacity of dim text,
    from 0 to 1.
    """

    foreground: str = "#d4d4d4"
    background: str = "#101010"
    dim_opacity: float = 0.6
    palette: Sequence[str] = ()


class _Style(NamedTuple):
    """How a cell is drawn."""

    text: str
    background: str
    opacity: float
    bold: bool
    italic: bool
    underline: bool


class _Run(NamedTuple):
    """Cells next to each other that are drawn alike, or a wide character alone."""

    col: int
    width: int
    length: int
    text: str
    style: _Style

    def is_blank(self) -> bool:
        """Returns whether nothing is drawn over the background."""
        return not self.text.strip() and not self.style.underline


def _escaped(text: str) -> str:
    return re.sub("[&<>\"\ufffe\uffff]", lambda found: _ENTITIES[found[0]], text)


def _indexed(index: int) -> str:
    """Returns the default color of a palette index: after the first 16, a cube with six steps per
    side, and 24 grays."""
    if index < 16:
        return _NAMED[index]
    if index >= 232:
        gray = 8 + 10 * (index - 232)
        return f"rgb({gray},{gray},{gray})"
    steps = ((index - 16) // 36, (index - 16) // 6 % 6, (index - 16) % 6)
    return f"rgb({','.join(str(55 + 40 * step if step else 0) for step in steps)})"


def _css_color(color: Color, default: str, theme: Theme) -> str:
    if color is None:
        return default
    if isinstance(color, tuple):
        return f"rgb({','.join(map(str, color))})"
    return theme.palette[color] if color < len(theme.palette) else _indexed(color)


def _style_of(cell: Cell, theme: Theme) -> _Style:
    text = _css_color(cell.fgcolor, theme.foreground, theme)
    background = _css_color(cell.bgcolor, theme.background, theme)
    if cell.inverse:
        text, background = background, text
    opacity = theme.dim_opacity if cell.dim else 1
    return _Style(text, background, opacity, cell.bold, cell.italic, cell.underline)


def _runs_of(cells: List[Cell], theme: Theme) -> List[_Run]:
    """Returns the runs of a row."""
    runs: List[_Run] = []
    for col, cell in enumerate(cells):
        if cell.wide_continuation:
            continue
        style, last = _style_of(cell, theme), runs[-1] if runs else None
        if last and last.style == style and last.width == last.length and not cell.wide:
            length = last.length + 1
            runs[-1] = last._replace(width=length, length=length, text=last.text + cell.display)
        else:
            runs.append(_Run(col, 2 if cell.wide else 1, 1, cell.display, style))
    return runs


def _trimmed(runs: List[_Run], theme: Theme) -> List[_Run]:
    """Returns the runs of a row without the blanks at its end that look like the background."""
    while runs and runs[-1].is_blank() and runs[-1].style.background == theme.background:
        runs = runs[:-1]
    if runs and runs[-1].style.background == theme.background and not runs[-1].style.underline:
        return [*runs[:-1], runs[-1]._replace(text=runs[-1].text.rstrip(" "))]
    return runs


def _css_of(run: _Run, theme: Theme) -> Iterator[str]:
    """Yields the declarations of a run's style that differ from those of the screen."""
    style = run.style
    if style.text != theme.foreground:
        yield f"color:{style.text}"
    if style.background != theme.background:
        yield f"background:{style.background}"
    if style.bold:
        yield "font-weight:bold"
    if style.italic:
        yield "font-style:italic"
    if style.underline:
        yield "text-decoration:underline"
    if style.opacity != 1:
        yield f"opacity:{style.opacity:g}"
    if run.width != run.length:
        yield f"display:inline-block;width:{run.width}ch"


def _html_of_run(run: _Run, theme: Theme) -> str:
    css, text = ";".join(_css_of(run, theme)), _escaped(run.text)
    return f'<span style="{_escaped(css)}">{text}</span>' if css else text


def html_of(buffer: List[List[Cell]], theme: Theme) -> str:
    """Returns the rows of a screen as an element of HTML."""
    rows = (_trimmed(_runs_of(cells, theme), theme) for cells in buffer)
    lines = ("".join(_html_of_run(run, theme) for run in runs) for runs in rows)
    css = f"color:{theme.foreground};background:{theme.background}"
    css += f";width:{len(buffer[0])}ch;font-family:{_FONT}"
    # HTML ignores a newline after the start tag.
    return f'<pre style="{_escaped(css)}">\n' + "\n".join(lines) + "</pre>"


def _attributes(style: _Style, theme: Theme) -> Iterator[str]:
    """Yields the attributes of text that differ from those of the picture."""
    if style.text != theme.foreground:
        yield f' fill="{_escaped(style.text)}"'
    if style.bold:
        yield ' font-weight="bold"'
    if style.italic:
        yield ' font-style="italic"'
    if style.underline:
        yield ' text-decoration="underline"'
    if style.opacity != 1:
        yield f' opacity="{style.opacity:g}"'


def _ink_of(run: _Run) -> _Run:
    """Returns the part of a run that must be drawn as text: all of it if it is underlined, and
    otherwise not the blanks at its ends."""
    if run.style.underline:
        return run
    ink = run.text.strip(" ")
    before = len(run.text) - len(run.text.lstrip(" "))
    width = run.width - (len(run.text) - len(ink))
    return run._replace(col=run.col + before, width=width, text=ink)


def _with_fixed_blanks(text: str) -> str:
    """Returns text in which no blanks are collapsed: browsers ignore the attribute of XML for
    that."""
    return re.sub(r" {2,}|^ | $", lambda found: "\u00a0" * len(found[0]), text)


def _svg_of_run(run: _Run, row: int, theme: Theme) -> str:
    """Returns the elements of SVG that draw a run in a row."""
    x, y, length = _CELL_WIDTH * run.col, _CELL_HEIGHT * row, _CELL_WIDTH * run.width
    area = ""
    if run.style.background != theme.background:
        fill = _escaped(run.style.background)
        area = f'<rect x="{x}" y="{y}" width="{length}" height="{_CELL_HEIGHT}" fill="{fill}"/>'
    ink = _ink_of(run)
    if ink.text == "":
        return area
    place = f'x="{_CELL_WIDTH * ink.col}" y="{y + _BASELINE}" textLength="{_CELL_WIDTH * ink.width}"'
    attributes = "".join(_attributes(run.style, theme))
    text = _escaped(_with_fixed_blanks(ink.text))
    return f'{area}<text {place} lengthAdjust="spacingAndGlyphs"{attributes}>{text}</text>'


def svg_of(buffer: List[List[Cell]], theme: Theme) -> str:
    """Returns the rows of a screen as a picture in SVG."""
    width, height = _CELL_WIDTH * len(buffer[0]), _CELL_HEIGHT * len(buffer)
    lines = (
        "".join(_svg_of_run(run, row, theme) for run in _runs_of(cells, theme))
        for row, cells in enumerate(buffer)
    )
    size = f'width="{width}" height="{height}"'
    head = f'<svg xmlns="http://www.w3.org/2000/svg" {size} viewBox="0 0 {width} {height}"'
    font = f'font-family="{_escaped(_FONT)}" font-size="{_FONT_SIZE}"'
    head += f' {font} fill="{_escaped(theme.foreground)}">'
    area = f'<rect {size} fill="{_escaped(theme.background)}"/>'
    return "\n".join([head, area, *filter(None, lines), "</svg>\n"])
