"""Tests that replay the recorded cases and scripts."""

import unittest

import recorded
import vt100


def text_of(screen, prev, line):
    """Returns the line that describes the output of a screen of the kind that `line` names."""
    name, *words = line.split(" ")
    if name.startswith("rows"):
        before = [prev] if name == "rows_diff" else []
        texts = getattr(screen, name)(*before, int(words[0]), int(words[1]))
        return " ".join([name, *words[:2], *map(recorded.hexed, texts)])
    if name == "between":
        places = map(int, words[:4])
        return " ".join([name, *words[:4], recorded.hexed(screen.contents_between(*places))])
    text = {
        "contents": screen.contents,
        "formatted": screen.contents_formatted,
        "basic": screen.contents_formatted_basic,
        "cursor_state": screen.cursor_state_formatted,
        "attributes": screen.attributes_formatted,
        "input": screen.input_mode_formatted,
        "diff": lambda: screen.contents_diff(prev),
        "input_diff": lambda: screen.input_mode_diff(prev),
    }[name]()
    return " ".join([name, recorded.hexed(text)])


def bytes_of(screen, prev, line):
    """Returns the line that describes the output as bytes, if there is a method for that."""
    name, *words = line.split(" ")
    if name == "rows_formatted":
        rows = screen.rows_formatted_bytes(int(words[0]), int(words[1]))
        return " ".join([name, *words[:2], *(recorded.hexed(row.decode()) for row in rows)])
    methods = {
        "formatted": screen.contents_formatted_bytes,
        "input": screen.input_mode_formatted_bytes,
        "diff": lambda: screen.contents_diff_bytes(prev),
        "input_diff": lambda: screen.input_mode_diff_bytes(prev),
    }
    return " ".join([name, recorded.hexed(methods[name]().decode())]) if name in methods else line


class Replay(unittest.TestCase):
    maxDiff = None

    def assert_lines(self, name, lines, state, screen, prev):
        """Asserts that the state and the output are those that some lines specify."""
        told = [line for line in lines if line.split(" ")[0] in recorded.STATE]
        self.assertEqual([*map(recorded.plain, state)], [*map(recorded.plain, told)], name)
        for line in lines:
            if line.split(" ")[0] not in (*recorded.STATE, "<", "prev", "unsteady"):
                self.assertEqual(text_of(screen, prev, line), line, name)
                self.assertEqual(bytes_of(screen, prev, line), line, name)
        rows = screen.rows()
        wrapped = [screen.row_wrapped(row) for row in range(screen.lines)]
        self.assertEqual(vt100._find.contents_of(rows, wrapped)[0], screen.contents(), name)
        for row, text in enumerate(rows):
            columns = vt100._find.columns_of(screen._record(row, screen.columns))
            self.assertEqual(len(columns), len(text) + 1, name)

    def replay_case(self, head, lines):
        name, rows, cols = head[0], int(head[1]), int(head[2])
        fields = dict(line.split(" ", 1) for line in lines if line[0] in "<p")
        data, before = recorded.unhex(fields["<"]), int(fields.get("prev", 0))
        notes = recorded.Notes()
        parser = vt100.Parser(rows, cols, callbacks=notes)
        parser.process(data[:before])
        prev = parser.save()
        parser.process(data[before:])
        state = recorded.picture(parser) + recorded.modes(parser) + notes.lines
        self.assert_lines(name, lines, state, parser, prev)
        quiet = vt100.Parser(rows, cols)
        quiet.process(data)
        self.assertEqual(quiet, parser)

    def take_step(self, parser, notes, step, words):
        if step == "process":
            parser.process(recorded.unhex(words[0]))
        elif step == "clone":
            parser.swap(parser.save())
        elif step == "clear_events":
            notes.lines.clear()
        elif step == "screen_set_size":
            vt100.Screen.set_size(parser, *map(int, words))
        else:
            getattr(parser, step)(*map(int, words))

    def replay_script(self, head, lines):
        notes = recorded.Notes()
        rows, cols, capacity = map(int, head[1:])
        parser = vt100.Parser(rows, cols, capacity, notes)
        prev = parser.save()
        starts = [at for at, line in enumerate(lines) if line.startswith("> ")]
        for start, end in zip(starts, [*starts[1:], len(lines)]):
            step, *words = lines[start][2:].split(" ")
            if step != "expect":
                self.take_step(parser, notes, step, words)
                continue
            state = recorded.sizes(parser) + recorded.picture(parser)
            state += recorded.modes(parser) + notes.lines
            name = f"{head[0]}, line {start}"
            self.assert_lines(name, lines[start + 1 : end], state, parser, prev)
            prev = parser.save()

    def test_cases(self):
        for name in ("hand", "random"):
            cases = list(recorded.blocks(name))
            self.assertGreater(len(cases), 700)
            for head, lines in cases:
                self.replay_case(head, lines)

    def test_scripts(self):
        scripts = list(recorded.blocks("scripts"))
        self.assertGreater(len(scripts), 80)
        for head, lines in scripts:
            self.replay_script(head, lines)


if __name__ == "__main__":
    unittest.main()
