#!/usr/bin/env python3
"""to_wasm.py [--unguarded] IN.ll OUT.ll: makes the LLVM module that the kit compiles for x86-64 one for wasm64.

The kit's LLVM backend writes the same instructions for every processor with 64-bit pointers. The script replaces the
layout and the target, removes the attributes that name a processor, and stops if it finds anything else that depends on
one.

A host can catch a trap and call the library again, whose objects may then be half changed. Each exported function is
therefore guarded as the kit's own functions for wasm64 are: after a trap, every further call traps. The linker defines
the three functions that the guard calls. --unguarded leaves the guard out, for hosts that end at a trap.
"""
import re
import sys

LAYOUT = "e-m:e-p:64:64-p10:8:8-p20:8:8-i64:64-i128:128-n32:64-S128-ni:1:10:20"
TRIPLE = "wasm64-unknown-unknown"
PROCESSOR = r' "(?:target-cpu|target-features|tune-cpu|probe-stack|stack-probe-size|frame-pointer)"="[^"]*"'

# What depends on a processor, and what it is. An assembler template without instructions only orders memory accesses.
DEPENDENT = {
    r"@llvm\.(?:x86|aarch64|arm|wasm)[\w.]*": "an intrinsic",
    r'\basm (?!sideeffect "", "~\{memory\}"\(\))': "inline assembler",
    r"^module asm": "assembler",
    r"\bblockaddress\b": "the address of a block",
    r"\b(?:x86_fp80|x86_amx|ppc_fp128)\b": "a type",
    r"\b(?:x86_\w+cc|win64cc|aarch64_\w+|arm_\w+cc)\b": "a calling convention",
    r'\btarget\("': "a type",
}

# A definition with external linkage: its result, name, parameters and attributes.
EXPORT = re.compile(r"^define (?!internal|private)(.*?)@(\w+)\((.*)\)(.*?)(?: #\d+)? \{$", re.M)

# What the type of a result has in a definition, and not in a call or a return.
RESULT_ATTRIBUTES = r"\b(?:noundef|zeroext|signext|dso_local|range\([^)]*\)) ?"

# A result that fills only a part of a value of WebAssembly. x86-64 leaves the rest undefined, which a host would read.
NARROW_RESULT = r"(?<!zeroext )(?<!signext )\bi(?:1|8|16)\b"

GUARDED = """\
define {result}@{name}({parameters}) #{number} {{
start:
  %is_running = call zeroext i1 @__rattle_enter()
  br i1 %is_running, label %again, label %first
again:
  call void @__rattle_trap()
  unreachable
first:
  {call}
  call void @__rattle_leave()
  {end}
}}
attributes #{number} = {{ nounwind "wasm-export-name"="{name}" }}
"""

DECLARED = """\
declare zeroext i1 @__rattle_enter()
declare void @__rattle_leave()
declare void @__rattle_trap()
"""


def retarget(text):
    """Replaces the layout and the target, and removes the attributes that name a processor."""
    text = re.sub(r"^target datalayout = .*$", f'target datalayout = "{LAYOUT}"', text, flags=re.M)
    text = re.sub(r"^target triple = .*$", f'target triple = "{TRIPLE}"', text, flags=re.M)
    text = re.sub(PROCESSOR, "", text)
    # An empty group is a syntax error, and an unknown attribute has no effect.
    return re.sub(r"^(attributes #\d+ =) \{ *\}$", r'\1 { "portable" }', text, flags=re.M)


def dependent(text):
    """Returns a line for each thing in the module that depends on a processor."""
    return sorted({f"{what}: {it.group()}" for form, what in DEPENDENT.items() for it in re.finditer(form, text, re.M)})


def guarded(found, number):
    """Returns the function that calls an exported function between the two halves of the guard."""
    result, name, parameters, _ = found.groups()
    kind = re.sub(RESULT_ATTRIBUTES, "", result).strip()
    call = f'call {result.replace("dso_local ", "")}@"rattle::export_{name}"({parameters})'
    if kind == "void":
        end = "ret void"
    else:
        call, end = f"%result = {call}", f"ret {kind} %result"
    result = re.sub(NARROW_RESULT, r"zeroext \g<0>", result)
    return GUARDED.format(result=result, name=name, parameters=parameters, number=number, call=call, end=end)


def guard(text):
    """Makes each exported function an internal one, and adds a guarded one of its name."""
    exports = list(EXPORT.finditer(text))
    first = 1 + max(map(int, re.findall(r"^attributes #(\d+)", text, re.M)), default=0)
    added = [guarded(found, first + k) for k, found in enumerate(exports)]
    return "\n".join([EXPORT.sub(internal, text), DECLARED, *added])


def called(text, names):
    """Returns the exported functions that the module calls itself: the guard would take that for a call after a trap."""
    return sorted(set(re.findall(r"\bcall [^@\n]*@(\w+)\(", text)) & set(names))


def internal(found):
    """Returns the first line of an exported function as that of an internal one."""
    result, name = found.group(1), found.group(2)
    return found.group().replace(f"define {result}@{name}(", f'define internal {result}@"rattle::export_{name}"(', 1)


def main():
    is_guarded = sys.argv[1:2] != ["--unguarded"]
    source, target = sys.argv[1 if is_guarded else 2:]
    with open(source, encoding="utf-8") as file:
        text = retarget(file.read())
    found = dependent(text)
    if found:
        sys.exit("to_wasm: for one processor only: " + ", ".join(found))
    names = [name for _, name, _, _ in EXPORT.findall(text)]
    if not names:
        sys.exit("to_wasm: no function is exported")
    if is_guarded:
        if called(text, names):
            sys.exit("to_wasm: exported and called: " + ", ".join(called(text, names)))
        text = guard(text)
    with open(target, "w", encoding="utf-8") as file:
        file.write(text)


if __name__ == "__main__":
    main()
