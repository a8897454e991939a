"""Builds the wheel of the package from this source, with a C compiler and the standard library alone (PEP 517).

CC names the compiler (default: cc, gcc or clang), and CFLAGS and LDFLAGS are passed to it.
"""
import base64
import hashlib
import os
import re
import shlex
import shutil
import struct
import subprocess
import sys
import sysconfig
import tarfile
import tempfile
import zipfile
from pathlib import Path
from typing import Any, Dict, List, Optional

ROOT = Path(__file__).resolve().parent
#: The file name with which vt100/_library.py loads the library.
LIBRARY = "libvt100.so.1"
#: The folder with the packages and modules.
MODULES = "src"
MANUAL = "vt100-share.1"

WHEEL = """\
Wheel-Version: 1.0
Generator: caldrosk
Root-Is-Purelib: false
Tag: {tag}
"""


def _metadata() -> bytes:
    return (ROOT / "PKG-INFO").read_bytes()


def _full_name() -> str:
    """Returns the name and the version of the package, as the names of its files begin."""
    found = re.search(rb"^Version: (.+)$", _metadata(), re.M)
    if found is None:
        sys.exit("vt100: PKG-INFO names no version")
    return f"vt100-{found.group(1).decode()}"


def _platform() -> str:
    """Returns the name of the running system in the tag of a wheel."""
    name = sysconfig.get_platform()
    if struct.calcsize("P") == 4:
        name = {"linux-x86_64": "linux-i686", "linux-aarch64": "linux-armv7l"}.get(name, name)
    return re.sub(r"[-.]", "_", name)


def _compiler() -> List[str]:
    words = shlex.split(os.environ.get("CC", ""))
    if words:
        return words
    for name in ("cc", "gcc", "clang"):
        if shutil.which(name):
            return [name]
    return sys.exit("vt100: no C compiler: install one, or name it in CC")


def _compile() -> bytes:
    """Returns the shared object that is compiled from the source in C."""
    with tempfile.TemporaryDirectory() as folder:
        target = os.path.join(folder, LIBRARY)
        flags = ["-O2", "-shared"] + ([] if os.name == "nt" else ["-fPIC"])
        flags += shlex.split(os.environ.get("CFLAGS", ""))
        sources = [str(ROOT / "portable" / name) for name in ("vt100.c", "heap.c")]
        command = [*_compiler(), *flags, "-o", target, *sources, *shlex.split(os.environ.get("LDFLAGS", ""))]
        try:
            subprocess.run(command, check=True)
        except (OSError, subprocess.CalledProcessError) as error:
            sys.exit(f"vt100: the library cannot be compiled: {error}")
        return Path(target).read_bytes()


def _files(folder: Path) -> Dict[str, bytes]:
    """Returns the files in a folder, apart from what Python has cached."""
    paths = [path for path in sorted(folder.rglob("*")) if path.is_file() and "__pycache__" not in path.parts]
    return {path.relative_to(folder).as_posix(): path.read_bytes() for path in paths}


def _record(files: Dict[str, bytes], name: str) -> bytes:
    lines = []
    for file, data in files.items():
        digest = base64.urlsafe_b64encode(hashlib.sha256(data).digest()).rstrip(b"=").decode()
        lines.append(f"{file},sha256={digest},{len(data)}\n")
    return ("".join(lines) + f"{name},,\n").encode()


def _info(tag: str) -> Dict[str, bytes]:
    """Returns the metadata of the wheel."""
    return {
        "LICENSE": (ROOT / "LICENSE").read_bytes(),
        "METADATA": _metadata(),
        "entry_points.txt": (ROOT / "entry_points.txt").read_bytes(),
        "WHEEL": WHEEL.format(tag=tag).encode(),
    }


def _tag() -> str:
    """Returns the tag of a wheel for the running system."""
    return f"py3-none-{_platform()}"


def prepare_metadata_for_build_wheel(metadata_directory: str, config_settings: Optional[Dict[str, Any]] = None) -> str:
    """Writes the metadata of the wheel, and returns the name of their folder. Without them, pip would build the wheel
    twice, since it reads them first."""
    name = f"{_full_name()}.dist-info"
    folder = Path(metadata_directory, name)
    folder.mkdir(parents=True)
    for file, data in _info(_tag()).items():
        (folder / file).write_bytes(data)
    return name


def build_wheel(wheel_directory: str, config_settings: Optional[Dict[str, Any]] = None,
                metadata_directory: Optional[str] = None) -> str:
    """Builds the wheel for the running system, and returns the name of its file."""
    full_name = _full_name()
    tag = _tag()
    files = _files(ROOT / MODULES)
    files[f"vt100/{LIBRARY}"] = _compile()
    files[f"{full_name}.data/data/share/man/man1/{MANUAL}"] = (ROOT / MANUAL).read_bytes()
    for name, data in _info(tag).items():
        files[f"{full_name}.dist-info/{name}"] = data
    record = f"{full_name}.dist-info/RECORD"
    files[record] = _record(files, record)
    name = f"{full_name}-{tag}.whl"
    with zipfile.ZipFile(os.path.join(wheel_directory, name), "w", zipfile.ZIP_DEFLATED) as wheel:
        for path, data in files.items():
            wheel.writestr(path, data)
    return name


def build_sdist(sdist_directory: str, config_settings: Optional[Dict[str, Any]] = None) -> str:
    """Packs this source again, and returns the name of the file."""
    name = f"{_full_name()}.tar.gz"
    with tarfile.open(os.path.join(sdist_directory, name), "w:gz") as archive:
        for path in _files(ROOT):
            archive.add(ROOT / path, f"{_full_name()}/{path}")
    return name
