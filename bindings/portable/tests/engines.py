"""Assembles functions of WebAssembly, and runs them in node and, translated to C, as a program.

Each function has the address of a block of BLOCK bytes as its parameter, and no result: it changes the block. Both engines
call each function with the same blocks, and return what is in the blocks afterwards.
"""
import os
import re
import subprocess
import sys
from pathlib import Path
from typing import List, NamedTuple, Optional, Sequence, Tuple

HERE = Path(__file__).resolve().parent
PORTABLE = HERE.parent
BLOCK = 256
# What a block is after a trap, and what a program in C then writes.
TRAPPED = b"\xee" * BLOCK
COMPLAINT = b"vt100: internal error: the library was compiled wrongly, or its memory was changed from outside\n"

BEGINNING = "\t.globaltype __stack_pointer, i64\n\t.globaltype __memory_base, i64, immutable\n"
FUNCTION = """\
\t.globl {name}
\t.type {name},@function
{name}:
\t.functype {name} (i64) -> ()
{lines}
\tend_function
"""

# A function of the library to which convert.h refers.
STATE_FUNCTION = "HELPER u32 w_vt100_get_state(u64 handle, u64 out) { return (void)handle, (void)out, 1; }\n"


class Compiler(NamedTuple):
    """A C compiler with its flags, and the command that runs its programs.

    If `is_plain`, the program uses nothing that C99 lacks: it takes the compiler for one that it does not know.
    """

    command: Sequence[str]
    runner: Sequence[str] = ()
    is_plain: bool = False


def function(name: str, lines: Sequence[str]) -> str:
    """Returns a function in assembler."""
    return FUNCTION.format(name=name, lines="\n".join("\t" + line for line in lines))


def run(command: Sequence, folder: Path, **more) -> None:
    """Runs a command, and raises an error with its output if it fails."""
    done = subprocess.run([str(word) for word in command], cwd=folder, stdout=subprocess.PIPE, stderr=subprocess.STDOUT,
                          universal_newlines=True, check=False, **more)
    if done.returncode != 0:
        raise AssertionError(f"{command[0]} ended with {done.returncode}:\n{done.stdout[-3000:]}")


def kit_tool(name: str) -> str:
    """Returns the path of a program of the kit's toolchain."""
    guide = subprocess.run(["rt", "doc"], stdout=subprocess.PIPE, universal_newlines=True, check=True).stdout.strip()
    return str(Path(os.path.realpath(guide)).parent / "toolchain" / "bin" / name)


def assemble(text: str, folder: Path) -> Path:
    """Assembles functions, and links them as the library is linked. Returns the path of the module.

    LLVM's own check of types is off, since it expects addresses of 32 bits in loads of vectors.
    """
    (folder / "module.s").write_text(BEGINNING + text, encoding="utf-8")
    run([kit_tool("clang"), "--no-default-config", "--target=wasm64-unknown-unknown", "-mcpu=lime1", "-msimd128",
         "-Wa,--no-type-check", "-x", "assembler", "-c", "module.s", "-o", "module.o"], folder)
    linker = folder / "wasm-ld"
    if not linker.exists():
        linker.symlink_to(kit_tool("ld.lld"))
    run([linker, "-m", "wasm64", "-shared", "--experimental-pic", "--no-entry", "--import-undefined", "module.o", "-o",
         "module.wasm"], folder)
    return folder / "module.wasm"


def translate(module: Path, target: Path) -> "subprocess.CompletedProcess[str]":
    """Runs the translator, whatever its status is."""
    return subprocess.run([sys.executable, "-B", str(PORTABLE / "wasm_to_c.py"), str(module), str(target)],
                          stdout=subprocess.PIPE, stderr=subprocess.PIPE, universal_newlines=True, check=False)


def _split(data: bytes, names: Sequence[str], blocks: Sequence[bytes]) -> List[Tuple[str, bytes, bytes]]:
    """Returns the name of a function, a block, and the block afterwards, for each function and each block."""
    calls = [(name, block) for name in names for block in blocks]
    if len(data) != len(calls) * BLOCK:
        raise AssertionError(f"{len(data)} bytes of results")
    return [(name, block, data[k * BLOCK:(k + 1) * BLOCK]) for k, (name, block) in enumerate(calls)]


def in_node(module: Path, names: Sequence[str], blocks: Sequence[bytes]) -> List[Tuple[str, bytes, bytes]]:
    """Runs the functions in node."""
    folder = module.parent
    (folder / "blocks").write_bytes(b"".join(blocks))
    flags = "--experimental-wasm-memory64", "--experimental-wasm-extended-const"
    options = subprocess.run(["node", "--v8-options"], stdout=subprocess.PIPE, universal_newlines=True, check=True).stdout
    run(["node", *(flag for flag in flags if flag in options), HERE / "run.mjs", module, folder / "blocks", folder / "results",
         *names], folder)
    return _split((folder / "results").read_bytes(), names, blocks)


def in_c(module: Path, names: Sequence[str], blocks: Sequence[bytes], compiler: Optional[Compiler] = None,
         ) -> List[Tuple[str, bytes, bytes]]:
    """Translates the functions to C, and runs them in a program."""
    folder = module.parent
    compiler = compiler or Compiler(["cc"])
    done = translate(module, folder / "code.c")
    if done.returncode != 0:
        raise AssertionError(done.stderr)
    table = f"static void (*const functions[])(u64) = {{{', '.join('w_' + name for name in names)}}};\n"
    parts = [HERE / "run_before.h", PORTABLE / "host.h", folder / "code.c", STATE_FUNCTION, PORTABLE / "convert.h", table,
             HERE / "run_after.h"]
    text = "".join(it if isinstance(it, str) else it.read_text(encoding="utf-8") for it in parts)
    if compiler.is_plain:
        text = text.replace("__GNUC__", "NO_SUCH_COMPILER")
    (folder / "run.c").write_text(text, encoding="utf-8")
    (folder / "blocks").write_bytes(b"".join(blocks))
    run([*compiler.command, "-std=c99", "-O2", f"-I{PORTABLE.parent / 'c'}", "run.c", "-o", "program"], folder)
    program = next(path for path in (folder / "program", folder / "program.exe") if path.exists())
    with open(folder / "results", "wb") as results, open(folder / "blocks", "rb") as given:
        said = subprocess.run([*compiler.runner, str(program), str(len(blocks))], stdin=given, stdout=results,
                              stderr=subprocess.PIPE, check=True).stderr
    program.unlink()
    found = _split((folder / "results").read_bytes(), names, blocks)
    if said != COMPLAINT * sum(after == TRAPPED for _, _, after in found):
        raise AssertionError(f"other complaints than for each trap: {said[:3000]!r}")
    return found


def names_in(text: str) -> List[str]:
    """Returns the names of the functions with a block in a text in assembler."""
    return re.findall(r"^\t\.functype (\w+) \(i64\) -> \(\)$", text, re.M)
