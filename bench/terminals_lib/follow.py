"""Follows streams in a terminal, and finds the updates after which it does not display what it should."""

import dataclasses
import os
import re
import time

from causes import COLUMNS, LINE_FEED, LOST, OTHER, ORPHAN, REORDERED, SCROLLED, WIDTHS, WRAPPED
from causes import cause_of, differences, is_line_feed, is_lost_glyph, is_moved_columns
from painting import painted
from texts import KINDS, REPEATING, is_redraw, pair_of_updates, redraw_of, updates
from widths import Twins, Widths, glyphs_of, is_right_to_left, wide_places

# Without SGR 0 first, xterm's RIS keeps the color of bold text.
RESET = b"\x1b[m\x1bc\x1b[?25h"
# The sequences before the first glyph: those that move the cursor to a row, and those that insert or delete rows.
PART = re.compile(rb"\x1b\[(?P<number>\d*)(?:;\d*)?(?P<final>[HLM])|(?P<down>\n)|\x1b\[[0-9;?]*[mhlG]|[\r\b]")


def moved_row(row, at, final, count, rows):
    """Returns the row to which IL or DL at a row moves a row, or None if it is dropped."""
    if row < at:
        return row
    if final == b"L":
        return row + count if row + count < rows else None
    return row - count if row >= at + count else None


def moved(places, text, start, rows):
    """Returns where a text moves places before it draws anything, if the cursor starts in the row `start`."""
    at, end = start, 0
    while found := PART.match(text, end):
        end, count = found.end(), int(found["number"] or 1)
        if found["final"] == b"H":
            at = count - 1
        elif found["final"]:
            pairs = ((moved_row(row, at, found["final"], count, rows), col) for row, col in places)
            places = {(row, col) for row, col in pairs if row is not None}
        elif found["down"]:
            at = min(at + 1, rows - 1)
    return places


@dataclasses.dataclass
class Fault:
    """A difference: the kind of the output, the cause, the number of the update, and the cells."""

    kind: str
    cause: str
    number: int
    places: list
    screen: object


class Terminals:
    """Terminals of one make and size: one for the paintings, one for the redraws, and one for each chain of diffs."""

    def __init__(self, make, size):
        self.make, self.size, self.made = make, size, {}
        # For each chain, the update with whose redraw it begins, if any, and those whose diffs it has read.
        self.chains = {}
        self.widths = None

    def get(self, name):
        """Returns the terminal for a purpose, which is made when it is first needed."""
        if name not in self.made:
            self.made[name] = self.make(*self.size)
        return self.made[name]

    def kinds(self, update, wanted):
        """Returns the wanted kinds of an update's outputs that the terminal can read."""
        repeats = self.make.repeats
        return [kind for kind in update.outputs if kind in wanted and (repeats or kind not in REPEATING)]

    def start(self, kind, update):
        """Begins a chain of diffs anew, with the redraw of an update."""
        self.get(kind).read(RESET + update.outputs[redraw_of(kind)])
        self.chains[kind] = [update]

    def extend(self, kind, update):
        """Lets a chain read the diff of an update."""
        self.get(kind).read(update.outputs[kind])
        self.chains.setdefault(kind, [None]).append(update)

    def pair(self, kind, update):
        """Returns two texts after which a terminal displays the same if an output of a kind is right."""
        if is_redraw(kind):
            return RESET + update.outputs[kind], RESET + painted(update, self.make.blanks_have_marks)
        name, (first, *later) = redraw_of(kind), self.chains[kind]
        chain = b"".join([first.outputs[name] if first else b"", *(it.outputs[kind] for it in later)])
        return RESET + chain, RESET + update.outputs[name]

    def differ(self, texts):
        """Returns the cells that differ after two texts."""
        for name, text in zip(("one", "two"), texts):
            self.get(name).read(text)
        return differences(self.get("one"), self.get("two"))

    def screens(self, kind, update):
        """Returns the screens that outputs of a kind have drawn since the redraw with which its chain began, if any."""
        return [update] if is_redraw(kind) else [it for it in self.chains[kind] if it]

    def twins(self, kind, update, odd):
        """Returns what puts characters on whose width terminals agree in place of glyphs, given with their widths."""
        screens = self.screens(kind, update)
        return Twins(odd, {it[1] for screen in screens for row in screen.rows for it in glyphs_of(row)})

    def cause(self, places, kind, update, past):
        """Returns why cells differ after output of a kind. `past` are the last update that was compared, if any, and those
        after it up to this one.
        """
        if self.make.stays_on_wide and is_line_feed(places, update, update.outputs[kind]):
            return LINE_FEED
        self.widths = self.widths or Widths(self.make)
        screens = self.screens(kind, update)
        odd_glyphs = {it[2:4] for screen in screens for it in self.widths.odd_glyphs(screen.rows)}
        texts = self.pair(kind, update)
        if not odd_glyphs or not self.differ(texts):
            return self.plain_cause(cause_of(places, update, {}, False), places, kind, update)
        twins = self.twins(kind, update, odd_glyphs)
        needs_odd = not self.differ([twins.replace(text) for text in texts])
        cause = cause_of(places, update, self.odd_places(kind, past), needs_odd)
        return cause if needs_odd else self.plain_cause(cause, places, kind, update)

    def plain_cause(self, cause, places, kind, update):
        """Returns why cells differ that no glyph of another width explains, where `cause` is what the screen tells."""
        screens, texts = self.screens(kind, update), self.pair(kind, update)
        outputs = [it.outputs[kind] for it in screens if kind in it.outputs]
        if cause == OTHER and is_lost_glyph(places, update, outputs):
            return LOST
        if cause == OTHER and is_moved_columns(places, screens, outputs):
            return COLUMNS
        letters = {(it[1], it[2]) for one in screens for row in one.rows for it in glyphs_of(row) if is_right_to_left(it[1])}
        if not self.make.reorders or not letters or not self.differ(texts):
            return cause
        twins = self.twins(kind, update, letters)
        return cause if self.differ([twins.replace(text) for text in texts]) else REORDERED

    def scrolled_places(self, kind, update):
        """Returns the cells above the last row that differ if characters on whose width terminals agree are in place of the
        glyphs of the last row that have no room in it. The painting does not tell, since it scrolls as well.
        """
        self.widths = self.widths or Widths(self.make)
        odd = {it[2:4] for it in self.widths.scrolling_glyphs(update.rows)}
        if not odd:
            return []
        text, twins = self.pair(kind, update)[0], self.twins(kind, update, odd)
        own = self.widths.odd_places(update.rows)
        found = self.differ([text, twins.replace(text)])
        return [(row, col) for row, col in found if row < self.size[0] - 1 and (row, col) not in own]

    def odd_places(self, kind, past):
        """Returns the causes of the places on which glyphs with other widths have had an effect since the last update that
        was compared, where the outputs have moved them.
        """
        own, wrapped, orphans, wide, row = set(), set(), set(), set(), 0
        screens = past[1][-1:] if is_redraw(kind) else [it for it in (past[0], *past[1]) if it]
        for update in screens:
            rows, words = update.rows, (update.outputs[kind], row, len(update.rows))
            own = moved(own, *words) | self.widths.odd_places(rows)
            if not kind.startswith("portable"):
                wrapped = moved(wrapped, *words) | self.widths.wrapped_places(rows)
            if self.make.keeps_orphans:
                orphans = moved(orphans, *words) | self.widths.orphan_places(moved(wide, *words), rows)
            wide, row = wide_places(rows), update.cursor[0]
        found = {}
        if any(any(self.widths.scrolling_glyphs(update.rows)) for update in screens):
            found = {(row, col): SCROLLED for row in range(self.size[0]) for col in range(self.size[1])}
        for cause, places in (ORPHAN, orphans), (WIDTHS, own), (WRAPPED, wrapped):
            found |= {place: cause for place in places}
        return found

    def begin(self):
        """Resets the terminals."""
        self.chains = {}
        for terminal in self.made.values():
            terminal.read(RESET)

    def end(self):
        """Ends the terminals."""
        for terminal in [*self.made.values(), *([self.widths.terminal] if self.widths else [])]:
            terminal.end()

    def faults(self, number, past, wanted):
        """Returns the differences after an update, whose diffs the chains have read, and puts the chains right."""
        found, update = [], past[1][-1]
        self.get("painting").read(painted(update, self.make.blanks_have_marks))
        kinds = self.kinds(update, wanted)
        for kind in sorted(kinds, key=is_redraw, reverse=True):
            name = kind if is_redraw(kind) else redraw_of(kind)
            if is_redraw(kind):
                self.get(kind).read(RESET + update.outputs[kind])
            other = self.get("painting" if is_redraw(kind) else name)
            places = differences(self.get(kind), other)
            scrolled = self.scrolled_places(kind, update)
            if scrolled or places:
                cause = SCROLLED if scrolled else self.cause(places, kind, update, past)
                found.append(Fault(kind, cause, number, scrolled or places, update))
            if (scrolled or places) and not is_redraw(kind):
                self.start(kind, update)
        return found


def follow(terminals, stream, wanted, every, most):
    """Returns how many updates of a stream were compared, at most about `most`, and the differences. If `every` is 0,
    these are all updates.
    """
    program, path, size = stream
    terminals.begin()
    all_updates = [*updates(program, size, every or -(-os.path.getsize(path) // most), path)]
    step = max(1, -(-len(all_updates) // most))
    count, found, before, later = 0, [], None, []
    for number, update in enumerate(all_updates):
        later.append(update)
        for kind in terminals.kinds(update, wanted):
            if not is_redraw(kind):
                terminals.extend(kind, update)
        if number % step == 0 or update is all_updates[-1]:
            count += 1
            found += terminals.faults(number, (before, later), wanted)
            before, later = update, []
    return count, found


def pair_faults(terminals, program, first, second, wanted=KINDS):
    """Returns the differences after the second of two inputs. The chains begin with a redraw after the first."""
    before, update = pair_of_updates(program, terminals.size, first, second)
    for kind in terminals.kinds(update, wanted):
        if not is_redraw(kind):
            terminals.start(kind, before)
            terminals.extend(kind, update)
    return terminals.faults(0, (before, [update]), wanted)


def smaller(text, is_odd, until):
    """Returns a text that is odd, too, with as many parts left out as can be found until a time."""
    length = len(text)
    while length:
        at = 0
        while at < len(text) and time.monotonic() < until:
            shorter = text[:at] + text[at + length :]
            if is_odd(shorter):
                text = shorter
            else:
                at += length
        length //= 2
    return text


def smallest(terminals, stream, every, fault, seconds):
    """Returns two inputs, as small as can be found, after which the same kind of output differs for the same cause."""
    program, path, _ = stream
    with open(path, "rb") as file:
        first = file.read(every * (fault.number + 1))
    first, second = first[: every * fault.number], first[every * fault.number :]

    def is_odd(one, two):
        if not two:
            return False
        found = pair_faults(terminals, program, one, two, (fault.kind, redraw_of(fault.kind)))
        return any((it.kind, it.cause) == (fault.kind, fault.cause) for it in found)

    if not is_odd(first, second):
        return None
    until = time.monotonic() + seconds
    first = smaller(first, lambda text: is_odd(text, second), until)
    second = smaller(second, lambda text: is_odd(first, text), until)
    return smaller(first, lambda text: is_odd(text, second), until), second
