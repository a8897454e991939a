"""Reads a module of WebAssembly that wasm-ld has linked with -shared for wasm64."""
from typing import Any, Dict, Iterator, List, NamedTuple, NoReturn, Set, Tuple

import instructions


class Unsupported(Exception):
    """Something in a module that the translator does not know; the text says what."""


def refuse(what: str) -> NoReturn:
    raise Unsupported(what)


class Reader:
    """Reads the numbers of the binary format."""

    def __init__(self, data: bytes, at: int = 0):
        self.data, self.at = data, at

    def is_at_end(self) -> bool:
        return self.at == len(self.data)

    def take(self, count: int) -> bytes:
        self.at += count
        if self.at > len(self.data):
            refuse("a module that ends early")
        return self.data[self.at - count:self.at]

    def byte(self) -> int:
        return self.take(1)[0]

    def _number(self) -> Tuple[int, int]:
        """Returns a number in LEB128 and the number of its bits."""
        value = bits = 0
        while True:
            byte = self.byte()
            value |= (byte & 0x7F) << bits
            bits += 7
            if byte < 0x80:
                return value, bits

    def unsigned(self) -> int:
        return self._number()[0]

    def signed(self) -> int:
        value, bits = self._number()
        return value - (1 << bits) if value >> (bits - 1) else value

    def name(self) -> str:
        return self.take(self.unsigned()).decode()

    def list(self, read) -> List[Any]:
        return [read() for _ in range(self.unsigned())]

    def part(self) -> "Reader":
        """Returns a reader of the next bytes, whose number comes first."""
        return Reader(self.take(self.unsigned()))


class Instruction(NamedTuple):
    """An instruction: its name and its immediate operands."""

    name: str
    operands: Tuple[Any, ...] = ()


def _block_type(reader):
    kind = reader.signed()
    if kind == -64:
        return None
    if kind + 128 in instructions.C_TYPES:
        return kind + 128
    return refuse("a block with parameters or several results")


def _access(reader):
    flags = reader.unsigned()
    if flags >= 64:
        refuse("a second memory")
    return reader.unsigned()


def _branches(reader):
    return reader.list(reader.unsigned) + [reader.unsigned()]


# How the immediate operands of an instruction are read. Instructions with a form in C have none.
_OPERANDS = {
    **{name: [] for name in instructions.FORMS},
    **{name: [_access] for name in (*instructions.LOADS, *instructions.STORES)},
    **{name: [] for name in ("unreachable", "nop", "else", "end", "return", "drop", "select")},
    **{name: [_block_type] for name in ("block", "loop", "if")},
    **{name: [Reader.unsigned] for name in ("br", "br_if", "call", "local.get", "local.set", "local.tee", "global.get",
                                            "global.set", "memory.fill")},
    "br_table": [_branches],
    "memory.copy": [Reader.unsigned, Reader.unsigned],
    "i32.const": [Reader.signed],
    "i64.const": [Reader.signed],
    "v128.const": [lambda reader: reader.take(16)],
}


def known_instructions() -> Set[str]:
    """Returns the names of the instructions that the translator knows."""
    return set(_OPERANDS)


def _name(reader):
    code = reader.byte()
    if code in instructions.PREFIXES:
        number = reader.unsigned()
        return instructions.PREFIXES[code].get(number, f"{code:#x} {number:#x}")
    return instructions.ONE_BYTE.get(code, f"{code:#x}")


def decoded(reader: Reader) -> Iterator[Instruction]:
    """Yields the instructions of a function or an initializer, up to the end of its bytes."""
    while not reader.is_at_end():
        name = _name(reader)
        if name not in _OPERANDS:
            refuse(f"the instruction {name}")
        yield Instruction(name, tuple(read(reader) for read in _OPERANDS[name]))


class Code(NamedTuple):
    """The body of a function: the types of its locals after the parameters, and its instructions."""

    kinds: List[int]
    instructions: List[Instruction]


class Module:
    """The parts of a module that the translator needs.

    The functions of the module come after those that it imports, and both are counted together. `size` is the number
    of bytes of static data.
    """

    def __init__(self, data: bytes):
        if data[:8] != b"\0asm\1\0\0\0":
            refuse("a file that is not a module of WebAssembly")
        self.types: List[Tuple[List[int], List[int]]] = []
        self.functions: List[int] = []
        self.imported: List[str] = []
        self.globals: List[str] = []
        self.exports: Dict[str, int] = {}
        self.names: Dict[int, str] = {}
        self.data: List[Tuple[int, bytes]] = []
        self.size = 0
        self.alignment = 1
        self._bodies: List[Reader] = []
        reader = Reader(data, 8)
        while not reader.is_at_end():
            self._section(reader.byte(), reader.part())

    def type_of(self, index: int) -> Tuple[List[int], List[int]]:
        """Returns the types of the parameters and of the results of a function."""
        return self.types[self.functions[index]]

    def code(self, index: int) -> Code:
        """Returns the body of a function of the module.

        Raises Unsupported at an instruction that the translator does not know.
        """
        body = self._bodies[index - len(self.imported)]
        reader = Reader(body.data)
        kinds = []
        for count, kind in reader.list(lambda: (reader.unsigned(), reader.byte())):
            if kind not in instructions.C_TYPES:
                refuse(f"a local of the type {kind:#x}")
            kinds += [kind] * count
        return Code(kinds, list(decoded(reader)))

    def _section(self, number, reader):
        readers = {
            0: self._custom, 1: self._read_types, 2: self._read_imports, 3: self._read_functions, 7: self._read_exports,
            10: self._read_bodies, 11: self._read_data, 12: lambda reader: None,
        }
        if number not in readers:
            refuse(f"section {number}")
        readers[number](reader)

    def _read_types(self, reader):
        for _ in range(reader.unsigned()):
            if reader.byte() != 0x60:
                refuse("a type that is not a function")
            self.types.append((reader.list(reader.byte), reader.list(reader.byte)))

    def _read_imports(self, reader):
        for _ in range(reader.unsigned()):
            module, name, kind = reader.name(), reader.name(), reader.byte()
            if kind == 0:
                self.functions.append(reader.unsigned())
                self.imported.append(name)
            elif kind == 2:
                if reader.byte() != 4:
                    refuse("a memory with another type than that of wasm64")
                reader.unsigned()
            elif kind == 3 and module == "env":
                reader.take(2)
                self.globals.append(name)
            else:
                refuse(f"the import {module}.{name}")

    def _read_functions(self, reader):
        self.functions += reader.list(reader.unsigned)

    def _read_exports(self, reader):
        for _ in range(reader.unsigned()):
            name, kind, index = reader.name(), reader.byte(), reader.unsigned()
            if kind != 0:
                refuse(f"the export {name}, which is not a function")
            self.exports[name] = index

    def _read_bodies(self, reader):
        self._bodies = reader.list(reader.part)

    def _read_data(self, reader):
        for _ in range(reader.unsigned()):
            if reader.unsigned() != 0:
                refuse("a passive segment")
            self.data.append((self._offset(reader), reader.take(reader.unsigned())))

    def _offset(self, reader):
        """Reads where a segment is, which is the start of the static data or a number of bytes after it."""
        found = []
        for it in decoded(reader):
            if it.name == "end":
                break
            found.append((it.name, *it.operands))
        bases = [k for k, name in enumerate(self.globals) if name == "__memory_base"]
        forms = [[("global.get", base)] for base in bases]
        if found in forms:
            return 0
        if len(found) == 3 and [found[0]] in forms and found[1][0] == "i64.const" and found[2] == ("i64.add",):
            return found[1][1]
        return refuse("the offset of a segment")

    def _custom(self, reader):
        name = reader.name()
        if name not in ("dylink.0", "name"):
            return
        while not reader.is_at_end():
            kind, part = reader.byte(), reader.part()
            if kind == 1 and name == "dylink.0":
                self.size, self.alignment = part.unsigned(), 1 << part.unsigned()
            elif kind == 1:
                self.names = dict(part.list(lambda: (part.unsigned(), part.name())))
