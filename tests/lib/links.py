"""Checks that each link in documents leads to an existing file and, if it has a fragment, to a heading of that file.

    links.py FOLDER    prints a line for each link in the documents in a directory that leads nowhere

The exit status is 1 if there is such a link.
"""
import glob
import os
import re
import sys


def read(path):
    with open(path, encoding="utf-8") as file:
        return file.read()


def blocks(text):
    """Returns the text outside of blocks of code, and the blocks: the mark after the first backquotes, and the code."""
    parts = re.split(r"^```(.*)\n((?:(?!```).*\n)*)```.*$", text, flags=re.M)
    return "".join(parts[::3]), [*zip(parts[1::3], parts[2::3])]


def anchors(path):
    """Returns the fragments that lead to the headings of a document."""
    headings = re.findall(r"^#+ (.*)", read(path), re.M)
    return {re.sub(r"[^a-z0-9_-]", "", it.lower().replace(" ", "-")) for it in headings}


def links_in(path):
    """Returns the links of a document, except for those to other sites."""
    return [it for it in re.findall(r"\]\(([^) ]*)\)", blocks(read(path))[0]) if not re.match(r"[a-z]+:", it)]


def leads_nowhere(path, link):
    file, _, fragment = link.partition("#")
    target = os.path.join(os.path.dirname(path), file) if file else path
    return not os.path.exists(target) or bool(fragment) and fragment not in anchors(target)


def stray(paths):
    """Returns a line for each link that leads nowhere."""
    return [f"{path}: {link} leads nowhere" for path in paths for link in links_in(path) if leads_nowhere(path, link)]


if __name__ == "__main__":
    found = stray(sorted(glob.glob(f"{sys.argv[1]}/**/*.md", recursive=True)))
    sys.exit("\n".join(found) if found else 0)
