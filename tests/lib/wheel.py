"""wheel.py WHEEL PROJECT: checks a wheel for Python, with the file pyproject.toml of its sources.

RECORD must name each file of the wheel with its checksum and size, and itself without. The extras, programs, plugins
and the required version of Python must be those that PROJECT states. Prints what is wrong; the exit status is then 1.
"""

import base64
import configparser
import csv
import email
import hashlib
import io
import re
import sys
import zipfile

try:
    import tomllib
except ImportError:  # before Python 3.11
    from pip._vendor import tomli as tomllib


def wrong_records(wheel, name):
    """Yields what is wrong with the file RECORD, which has this name."""
    rows = list(csv.reader(io.StringIO(wheel.read(name).decode())))
    named = [row[0] for row in rows]
    if sorted(named) != sorted(wheel.namelist()):
        yield f"RECORD does not name each file once: {set(named) ^ set(wheel.namelist())}"
    for file, checksum, size in rows:
        if file == name:
            wanted = ("", "")
        else:
            data = wheel.read(file)
            digest = base64.urlsafe_b64encode(hashlib.sha256(data).digest()).decode().rstrip("=")
            wanted = (f"sha256={digest}", str(len(data)))
        if (checksum, size) != wanted:
            yield f"RECORD has {checksum} {size} for {file}, not {' '.join(wanted)}"


def extras(metadata):
    """Returns the requirements of each extra that the metadata states."""
    found = {name: [] for name in metadata.get_all("Provides-Extra", [])}
    for line in metadata.get_all("Requires-Dist", []):
        requirement, name = re.fullmatch(r'(\S+) *; *extra == "(\w+)"', line).groups()
        found[name].append(requirement)
    return found


def entries(text):
    """Returns the groups of a file entry_points.txt."""
    parser = configparser.ConfigParser(delimiters="=")
    parser.read_string(text)
    return {group: dict(parser[group]) for group in parser.sections()}


def differences(wheel, info, project):
    """Yields what the wheel states differently from the project."""
    metadata = email.message_from_string(wheel.read(f"{info}/METADATA").decode())
    scripts = {"console_scripts": project["scripts"], **project["entry-points"]}
    for about, found, wanted in (
        ("extras", extras(metadata), project["optional-dependencies"]),
        ("Requires-Python", metadata["Requires-Python"], project["requires-python"]),
        ("Name", metadata["Name"], project["name"]),
        ("Summary", metadata["Summary"], project["description"]),
        ("License", metadata["License"], project["license"]["text"]),
        ("entry points", entries(wheel.read(f"{info}/entry_points.txt").decode()), scripts),
    ):
        if found != wanted:
            yield f"{about}: {found}, not {wanted}"


def main(path, project_path):
    with open(project_path, "rb") as file:
        project = tomllib.load(file)["project"]
    with zipfile.ZipFile(path) as wheel:
        (record,) = [name for name in wheel.namelist() if name.endswith(".dist-info/RECORD")]
        info = record.rpartition("/")[0]
        found = [*wrong_records(wheel, record), *differences(wheel, info, project)]
    print("\n".join(found))
    return 1 if found else 0


sys.exit(main(*sys.argv[1:]))
