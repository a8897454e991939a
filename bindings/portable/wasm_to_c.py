#!/usr/bin/env python3
"""wasm_to_c.py IN.wasm OUT.c: translates a position-independent module for wasm64 to C.

wasm-ld makes such a module with -shared. Its memory is that of the process: an address in the module is an address of the
process, and the static data is an array in C. The header host.h, which must come before OUT.c, defines loads, stores,
traps and the functions that the module imports.

The script knows what the library uses: integers and vectors of bytes, but no table, no indirect call, no floating-point
number and no growth of memory. It stops at anything else, names it, and writes nothing.
"""
import sys

sys.dont_write_bytecode = True
from function_to_c import Function, heading, name_in_c  # noqa: E402 (a module beside this script)
from wasm_module import Module, Unsupported, refuse  # noqa: E402

# What the linker generates: the function that stores the addresses in the static data, and one that calls constructors.
RELOCATING, CONSTRUCTING = "__wasm_apply_data_relocs", "__wasm_call_ctors"
# The functions that host.h defines for the module.
IMPORTS = {"rattle_alloc", "rattle_realloc", "rattle_dealloc", "memcpy", "memmove", "memset", "memcmp", "bcmp"}


def bytes_in_c(data):
    """Returns the lines of an initializer."""
    return ["  " + ",".join(map(str, data[at:at + 32])) + "," for at in range(0, len(data), 32)]


def offset_in(code, base):
    """Returns the offset that three instructions add to the start of the static data."""
    words = [it for it in code if it != base]
    if len(code) != 3 or [it.name for it in words] != ["i64.const", "i64.add"]:
        refuse("another address in the static data")
    return words[0].operands[0]


def relocations(module):
    """Returns the offsets of the addresses in the static data, with the offsets of what they point to.

    They are in the function that would store them: seven instructions store one.
    """
    found = {}
    for index, name in module.names.items():
        if name == CONSTRUCTING and len(module.code(index).instructions) != 1:
            refuse("a constructor")
        if name != RELOCATING:
            continue
        code = module.code(index).instructions[:-1]
        base = ("global.get", (module.globals.index("__memory_base"),))
        for at in range(0, len(code), 7):
            place, target = offset_in(code[at:at + 3], base), offset_in(code[at + 3:at + 6], base)
            if code[at + 6:at + 7] != [("i64.store", (0,))] or place % 8 != 0 or not 0 <= target <= module.size:
                refuse("another address in the static data")
            found[place] = target
    return found


def data_of(module):
    """Returns the static data."""
    data = bytearray(max(module.size, 1))
    for offset, part in module.data:
        if offset < 0 or offset + len(part) > module.size:
            refuse("static data outside its array")
        data[offset:offset + len(part)] = part
    return bytes(data)


def runs_of(data, found):
    """Yields the parts of the static data: the offset of each, its end, and whether it consists of addresses."""
    at = 0
    while at < len(data):
        end, has_addresses = at, at in found
        while end < len(data) and (end in found) == has_addresses:
            end += 8 if has_addresses else 1
        yield at, end, has_addresses
        at = end


def struct_in_c(data, found):
    """Returns the lines of the static data, whose addresses the compiler and the linker fill in."""
    fields, values = [], []
    for number, (at, end, has_addresses) in enumerate(runs_of(data, found)):
        if has_addresses:
            fields.append(f"struct address part{number}[{(end - at) // 8}];")
            values += ["{" + ", ".join(f"ADDRESS({found[k]})" for k in range(at, end, 8)) + "},"]
        else:
            fields.append(f"u8 part{number}[{end - at}];")
            values += ["{", *bytes_in_c(data[at:end]), "},"]
    return ["struct static_data { " + " ".join(fields) + " };", "static STATIC_DATA static_data = {{", *values, "}};",
            f"typedef char static_data_has_no_padding[sizeof(struct static_data) == {len(data)} ? 1 : -1];"]


def static_data(module):
    """Returns the lines that define the static data.

    On a host whose numbers have the order of bytes that the module expects, it contains the addresses. On any other, the
    functions of vt100.h store the addresses before they use the data.
    """
    data, found = data_of(module), relocations(module)
    if not found:
        return struct_in_c(data, {})
    pairs = ", ".join(f"{{{place}, {target}}}" for place, target in sorted(found.items()))
    return ["#if VT100_BIG_ENDIAN", *struct_in_c(data, {}),
            f"static const struct relocation relocations[{len(found)}] = {{{pairs}}};", "#define HAS_RELOCATIONS 1",
            "#else", *struct_in_c(data, found), "#endif"]


def function_in_c(module, index):
    """Returns the lines of a function. Raises Unsupported with the function's name."""
    try:
        return [heading(module, index) + " {", *Function(module, index).translated(), "}"]
    except Unsupported as error:
        return refuse(f"{error}, in {module.names.get(index) or name_in_c(module, index)}")


def translated(module):
    """Returns the lines of the translation, and the number of its functions."""
    for name in module.imported:
        if name not in IMPORTS:
            refuse(f"the import {name}")
    if module.alignment > 16:
        refuse("static data with an alignment of more than 16 bytes")
    first = len(module.imported)
    indices = [k for k in range(first, len(module.functions)) if module.names.get(k) not in (RELOCATING, CONSTRUCTING)]
    lines = [*static_data(module), *(heading(module, index) + ";" for index in indices)]
    for index in indices:
        lines += function_in_c(module, index)
    return lines, len(indices)


def main():
    if len(sys.argv) != 3:
        sys.exit("usage: wasm_to_c.py IN.wasm OUT.c")
    source, target = sys.argv[1:]
    try:
        with open(source, "rb") as file:
            lines, count = translated(Module(file.read()))
    except Unsupported as error:
        sys.exit(f"wasm_to_c: not supported: {error}")
    with open(target, "w", encoding="utf-8") as file:
        file.write("\n".join(lines) + "\n")
    print(f"translated {count} functions")


if __name__ == "__main__":
    main()
