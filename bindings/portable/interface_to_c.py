#!/usr/bin/env python3
"""interface_to_c.py vt100.h OUT.c: writes the functions of vt100.h, which call those that wasm_to_c.py has translated.

On a host whose numbers, sizes and pointers have the module's form (64 bits, the lowest byte first), a function passes its
arguments on. On any other host, handles and results pass through variables in the module's form; convert.h defines what
this takes. How a parameter passes follows from its type and its name in the header. The script stops at a parameter that
it does not know.
"""
import re
import sys

# The types that are passed by value.
SCALARS = ("uint8_t", "uint16_t", "uint32_t", "uint64_t", "size_t")
# The types of memory that has the same form on each host.
BYTES = ("const uint8_t *", "uint8_t *", "vt100_cell *")
# Numbers to which a function stores a result.
NUMBERS = ("uint16_t *", "uint64_t *", "size_t *")
# The functions that names.c defines.
DEFINED_IN_C = ("vt100_version", "vt100_status_text")


class Parameter:
    """A parameter: its type, its name, and how it passes."""

    def __init__(self, words, function):
        self.type, self.name = re.fullmatch(r"(.*?)(\w+)", words).groups()
        self.type = self.type.strip()
        self.role = self._role(function)

    def _role(self, function):
        if self.type in SCALARS:
            return "scalar"
        if self.type == "vt100_handle *":
            return "handle"
        if self.type == "vt100_state *":
            return "state"
        if self.type == "size_t *" and self.name == "ends":
            return "ends"
        if self.type in NUMBERS:
            return "number"
        if self.type in BYTES:
            return "bytes"
        return sys.exit(f"interface_to_c: {function} has a parameter of another kind: {self.type} {self.name}")

    def declared(self):
        return f"{self.type}{'' if self.type.endswith('*') else ' '}{self.name}"

    def direct(self):
        """Returns the argument on a host whose memory has the module's form."""
        return self.name if self.role == "scalar" else f"address_of({self.name})"


def functions_of(text):
    """Yields the result, the name and the parameters of each function of the header."""
    text = re.sub(r"/\*.*?\*/", "", text, flags=re.S)
    for result, name, words in re.findall(r"^(\w[\w ]*[ *]+)(vt100_\w+)\(([^()]*)\);", text, re.M):
        if name in DEFINED_IN_C:
            continue
        parameters = [word for word in " ".join(words.split()).split(", ") if word != "void"]
        yield result.strip(), name, [Parameter(word, name) for word in parameters]


def converted(parameter, parameters):
    """Returns the lines before a call for a parameter, its argument, and the line after the call."""
    name, role = parameter.name, parameter.role
    if role in ("scalar", "bytes"):
        return [], parameter.direct(), None
    if role == "handle":
        # Equal handles stay equal, since calls refuse them.
        earlier = [it.name for it in parameters[:parameters.index(parameter)] if it.role == "handle"]
        equal = "".join(f"{name} == {it} ? at_{it} : " for it in earlier)
        return ([f"    struct number in_{name};", f"    u64 at_{name} = {equal}pass_number(&in_{name}, address_of({name}->at));"],
                f"at_{name}", f"{name}->at = at_address(load64(at_{name}));")
    if role == "state":
        return ([f"    struct state in_{name};", f"    u64 at_{name} = pass_state(&in_{name});"], f"at_{name}",
                f"if (result == VT100_OK) take_state({name}, at_{name});")
    if role == "ends":
        handle = next(it.name for it in parameters if it.role == "handle")
        return ([f"    struct ends in_{name} = make_ends(at_{handle}, room);"], f"address_of(in_{name}.at)",
                f"take_ends({name}, &in_{name}, result == VT100_OK);")
    bits = "16" if parameter.type == "uint16_t *" else "64"
    kind = parameter.type[:-2]
    return ([f"    struct number in_{name};", f"    u64 at_{name} = pass_number(&in_{name}, *{name});"], f"at_{name}",
            f"*{name} = ({kind})load{bits}(at_{name});")


def converting(result, name, parameters):
    """Returns the lines of the body for a host whose memory has another form."""
    before, words, after = [], [], []
    for parameter in parameters:
        lines, word, line = converted(parameter, parameters)
        before += lines
        words.append(word)
        after += [f"    {line}"] if line else []
    call = f"w_{name}({', '.join(words)})"
    refused = [f"    if (!in_{it.name}.is_made) return VT100_OUT_OF_MEMORY;" for it in parameters if it.role == "ends"]
    lines = ["    complete_static_data();", *before, *refused]
    if result == "void":
        return [*lines, f"    {call};", *after]
    return [*lines, f"    {result} result = ({result}){call};", *after, "    return result;"]


def function_in_c(result, name, parameters):
    """Returns the lines of a function of the header."""
    head = f"{result} {name}({', '.join(it.declared() for it in parameters) or 'void'}) {{"
    call = f"w_{name}({', '.join(it.direct() for it in parameters)});"
    passed = f"    {call}" if result == "void" else f"    return ({result}){call}"
    return ["", head, "#if IS_LIKE_MODULE", passed, "#else", *converting(result, name, parameters), "#endif", "}"]


def main():
    if len(sys.argv) != 3:
        sys.exit("usage: interface_to_c.py vt100.h OUT.c")
    with open(sys.argv[1], encoding="utf-8") as file:
        text = file.read()
    functions = list(functions_of(text))
    declared = set(re.findall(r"\b(vt100_\w+)\(", re.sub(r"/\*.*?\*/", "", text, flags=re.S)))
    missed = declared - {name for _, name, _ in functions} - set(DEFINED_IN_C)
    if not functions or missed:
        sys.exit(f"interface_to_c: declared in another way: {' '.join(sorted(missed)) or 'all functions'}")
    with open(sys.argv[2], "w", encoding="utf-8") as file:
        file.write("\n".join(line for it in functions for line in function_in_c(*it)) + "\n")
    print(f"wrote {len(functions)} functions")


if __name__ == "__main__":
    main()
