#!/usr/bin/env python3
"""retarget.py RETURN IN.ll OUT.ll: makes the LLVM module that the kit compiles for x86-64 one for any similar target.

Similar are targets with 64-bit pointers whose lowest byte comes first. RETURN says how a function of C returns two words
there: "registers" or "memory". The script removes the layout and the target, for which clang takes those of its option
--target, and stops if it finds anything else that depends on a processor. Two things depend on the conventions for calls:

- On x86-64 Linux, a result of fewer than 32 bits leaves the rest of its register undefined, which other targets define.
- LLVM returns a pair of words in registers everywhere. Where C does not, the heap's functions, which are in C, are called
  with a pointer to the place of the result.
"""
import os
import re
import sys

sys.dont_write_bytecode = True
sys.path.insert(0, os.path.join(os.path.dirname(os.path.abspath(__file__)), "../wasm"))
import to_wasm  # noqa: E402 (a script of the folder beside this one)

PAIR = "{ i64, i64 }"
IN_MEMORY = """
define internal {pair} @{name}.pair({parameters}) noinline {{
start:
  %result = alloca {pair}, align 8
  call void @{name}(ptr sret({pair}) align 8 %result, {parameters})
  %pair = load {pair}, ptr %result, align 8
  ret {pair} %pair
}}
declare void @{name}(ptr sret({pair}) align 8, {types})
"""


def widened(found):
    """Returns the first line of an exported function whose result fills its register."""
    result, name = found.group(1), found.group(2)
    wide = re.sub(to_wasm.NARROW_RESULT, r"zeroext \g<0>", result)
    return found.group().replace(f"define {result}@{name}(", f"define {wide}@{name}(", 1)


def in_memory(text):
    """Has each imported function that returns a pair of words store it where its first argument says."""
    for found in list(re.finditer(rf"^declare {re.escape(PAIR)} @(\w+)\((.*)\)(?: #\d+)?$", text, re.M)):
        name, types = found.group(1), [it.split()[0] for it in found.group(2).split(",")]
        parameters = ", ".join(f"{kind} %a{place}" for place, kind in enumerate(types))
        text = text.replace(found.group(), "").replace(f"@{name}(", f"@{name}.pair(")
        text += IN_MEMORY.format(pair=PAIR, name=name, parameters=parameters, types=", ".join(types))
    return text


def main():
    how, source, target = sys.argv[1:]
    with open(source, encoding="utf-8") as file:
        text = to_wasm.retarget(file.read())
    found = to_wasm.dependent(text)
    if found:
        sys.exit("retarget: for one processor only: " + ", ".join(found))
    text = to_wasm.EXPORT.sub(widened, re.sub(r"^target .*\n", "", text, flags=re.M))
    if how == "memory":
        text = in_memory(text)
    elif how != "registers":
        sys.exit(f"retarget: no way to return two words is named {how}")
    with open(target, "w", encoding="utf-8") as file:
        file.write(text)


if __name__ == "__main__":
    main()
