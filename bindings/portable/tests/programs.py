"""Functions in the assembler of WebAssembly: one for each instruction that the translator knows, and some for control."""
import itertools
import sys
from pathlib import Path

sys.dont_write_bytecode = True
sys.path.insert(0, str(Path(__file__).resolve().parent.parent))
from engines import BLOCK, function  # noqa: E402 (modules beside this script)
from instructions import FORMS, I32, I64, LOADS, STORES, V128  # noqa: E402

WORDS = {I32: "i32", I64: "i64", V128: "v128"}
# Where a function finds its operands in its block, and where it stores its result.
OPERANDS = (0, 16)
RESULT = 64
SPECIAL = (0, 1, 2, 7, 8, 31, 32, 63, 64, 0x7F, 0x80, 0xFF, 0x7FFF, 0x8000, 0xFFFF, 0x7FFFFFFF, 0x80000000, 0xFFFFFFFF,
           0x7FFFFFFFFFFFFFFF, 0x8000000000000000, 0xFFFFFFFFFFFFFFFF, 0x8080808080808080, 0x0101010101010101)
# The operands of divisions that trap or overflow, or nearly do.
LOWEST = (0x80000000, 0x8000000000000000)
DIVISORS = (0, 1, 0xFFFFFFFF, 0xFFFFFFFFFFFFFFFF)


def blocks(rng, count):
    """Returns random blocks, half of whose numbers are special ones. The first have the operands of special divisions."""
    made = []
    for _ in range(count):
        numbers = [rng.choice(SPECIAL) if rng.random() < 0.5 else rng.getrandbits(64) for _ in range(BLOCK // 8)]
        if rng.random() < 0.2:
            numbers[2] = numbers[0]
        made.append(numbers)
    for numbers, (dividend, divisor) in zip(made, itertools.product(LOWEST, DIVISORS)):
        numbers[OPERANDS[0] // 8], numbers[OPERANDS[1] // 8] = dividend, divisor
    return [b"".join(number.to_bytes(8, "little") for number in numbers) for numbers in made]


def load(kind, offset):
    return ["local.get 0", f"{WORDS[kind]}.load {offset}:p2align=0"]


def store(kind, lines, offset=RESULT):
    return ["local.get 0", *lines, f"{WORDS[kind]}.store {offset}:p2align=0"]


def bytes_of(data):
    return ", ".join(map(str, data))


def in_c_name(name):
    return name.replace(".", "_")


# ---- one function for each instruction


def each_form():
    for name, form in FORMS.items():
        operands = [line for kind, offset in zip(form.operands, OPERANDS) for line in load(kind, offset)]
        yield function(in_c_name(name), store(form.result, [*operands, name]))


def each_access():
    for name, access in LOADS.items():
        yield function(in_c_name(name), store(access.kind, ["local.get 0", f"{name} 3:p2align=0"]))
    for name, access in STORES.items():
        yield function(in_c_name(name), ["local.get 0", *load(access.kind, 0), f"{name} {RESULT + 5}:p2align=0"])


def each_constant(rng):
    for number in (0, 1, -1, 9, 10, 0x7FFFFFFF, -0x80000000, rng.getrandbits(31)):
        yield function(f"i32_const_{number & 0xFFFFFFFF:x}", store(I32, [f"i32.const {number}"]))
    for number in (0, -1, 2**63 - 1, -2**63, 2**32, rng.getrandbits(63)):
        yield function(f"i64_const_{number & (2**64 - 1):x}", store(I64, [f"i64.const {number}"]))
    yield function("v128_const", store(V128, [f"v128.const {bytes_of(rng.randbytes(16))}"]))


# With the feature extended-const, which the library's module has, wasm-ld makes a segment of each kind of section.
DATA = """\
\t.type table,@object
\t.section .data.table,"",@
\t.p2align 3
table:
\t.int64 0x1122334455667788
\t.int32 -2
\t.int32 77
\t.int64 table
\t.int64 table+8
\t.size table, 32
\t.type further,@object
\t.section .rodata.further,"",@
\t.p2align 2
further:
\t.int32 0x1badcafe
\t.size further, 4
\t.section .custom_section.target_features,"",@
\t.int8 1
\t.ascii "+\\016extended-const"
\t.text
"""

IMPORTED = """\
\t.functype memcmp (i64, i64, i64) -> (i32)
\t.functype bcmp (i64, i64, i64) -> (i32)
\t.functype memcpy (i64, i64, i64) -> (i64)
\t.functype memmove (i64, i64, i64) -> (i64)
\t.functype memset (i64, i32, i64) -> (i64)
"""


def address(offset):
    return ["local.get 0", f"i64.const {offset}", "i64.add"]


def _count(offset):
    """Pushes a count below 64 that is in the block."""
    return ["local.get 0", f"i64.load {offset}:p2align=0", "i64.const 63", "i64.and"]


def each_memory():
    count = _count(0)
    for name, to, source in (("forward", 80, 88), ("backward", 88, 80)):
        yield function(f"memory_copy_{name}", [*address(to), *address(source), *count, "memory.copy 0, 0"])
    yield function("memory_fill", [*address(90), "local.get 0", "i32.load 8:p2align=0", *count, "memory.fill 0"])
    yield function("memcpy_call", store(I64, [*address(130), *address(2), *count, "call memcpy", *address(0), "i64.sub"]))
    # Each returns the address at which it writes.
    yield function("memmove_call", store(I64, [*address(11), *address(2), *count, "call memmove", *address(0), "i64.sub"], 200))
    yield function("memset_call", store(I64, [*address(90), "local.get 0", "i32.load 8:p2align=0", *count, "call memset",
                                              *address(0), "i64.sub"], 200))
    for name in ("memcmp", "bcmp"):
        call = [*address(0), *address(16), "i64.const 3", f"call {name}"]
        yield function(f"{name}_call", store(I32, [*call, "i32.const 0", "i32.ne" if name == "bcmp" else "i32.lt_s"]))


def static(name):
    return ["global.get __memory_base", f"i64.const {name}@MBREL", "i64.add"]


def each_data():
    yield function("data", store(I32, [*static("table"), "i32.load 12:p2align=0"]))
    yield function("data_of_another_section", store(I32, [*static("further"), "i32.load 0:p2align=0"]))
    for number in (0, 1):
        pointer = [*static("table"), f"i64.load {16 + 8 * number}:p2align=0"]
        yield function(f"data_address_{number}", store(I64, [*pointer, "i64.load 0:p2align=0"]))
        yield function(f"data_distance_{number}", store(I64, [*pointer, *static("table"), "i64.sub"]))


# ---- control, by hand

CONTROL = {
    "loop_sum": """.local i32, i64
        loop
        local.get 2; local.get 1; i64.extend_i32_u; i64.add; local.set 2
        local.get 1; i32.const 1; i32.add; local.tee 1; local.get 0; i32.load8_u 0; i32.lt_u; br_if 0
        end_loop
        local.get 0; local.get 2; i64.store 64""",
    "loop_with_a_result": """.local i32
        local.get 0
        loop i32
        local.get 1; i32.const 1; i32.add; local.tee 1
        local.get 0; i32.load8_u 0; i32.lt_u; br_if 0
        local.get 1
        end_loop
        i32.store 64""",
    "if_result": """
        local.get 0
        local.get 0; i32.load 0
        if i32
        local.get 0; i32.load 4
        else
        local.get 0; i32.load 8
        end_if
        i32.store 64""",
    "if_without_else": """
        local.get 0; i32.load 0
        if
        local.get 0; i32.const 5; i32.store 64
        end_if""",
    "branch_value": """
        local.get 0
        block i64
        local.get 0; i64.load 0
        local.get 0; i32.load 16; br_if 0
        drop
        local.get 0; i64.load 8
        local.get 0; i32.load 20; br_if 0
        br 0
        end_block
        i64.store 64""",
    "branch_by_table": """
        local.get 0
        block i32
        block
        block
        block
        local.get 0; i32.load8_u 0; i32.const 7; i32.and
        br_table {2, 0, 1, 0}
        end_block
        i32.const 11; br 2
        end_block
        i32.const 22; br 1
        end_block
        i32.const 33
        end_block
        i32.store 64""",
    "early_return": """
        local.get 0; i32.load 0
        if
        return
        end_if
        local.get 0; i32.const 1; i32.store 64""",
    "dead_code": """.local i32
        block
        br 0
        loop
        i32.const 1; local.set 1
        br 0
        end_loop
        i32.const 3
        if
        else
        end_if
        unreachable
        end_block
        local.get 0; local.get 1; i32.store 64""",
    "trap_at_unreachable": """
        local.get 0; i32.load 0; i32.const 1; i32.and
        if
        unreachable
        end_if
        local.get 0; i32.const 1; i32.store 64""",
    "difference_of_comparisons": """
        local.get 0
        local.get 0; i32.load 0; local.get 0; i32.load 16; i32.lt_u
        local.get 0; i32.load 0; local.get 0; i32.load 16; i32.gt_u
        i32.sub
        i64.extend_i32_u
        i64.store 64
        local.get 0
        local.get 0; i32.load 0; local.get 0; i32.load 16; i32.lt_s
        local.get 0; i32.load 0; local.get 0; i32.load 16; i32.gt_s
        i32.sub
        i32.const 1
        i32.shr_u
        i32.store 72""",
    "value_before_its_local_changes": """.local i32
        local.get 0; i32.load 0; local.set 1
        local.get 0
        local.get 1
        i32.const 9; local.set 1
        local.get 1
        i32.sub
        i32.store 64""",
    "value_before_a_loop_changes_its_local": """.local i32, i32
        local.get 0; i32.load8_u 0; local.set 1
        local.get 0
        local.get 1
        loop
        local.get 1; i32.const 3; i32.add; local.set 1
        local.get 2; i32.const 1; i32.add; local.tee 2; i32.const 4; i32.lt_u; br_if 0
        end_loop
        local.get 1
        i32.sub
        i32.store 64""",
    "load_before_a_store": """
        local.get 0
        local.get 0; i32.load 64
        local.get 0; i32.const 1; i32.store 64
        local.get 0; i32.load 64
        i32.sub
        i32.store 68""",
    "division_that_is_dropped": """
        local.get 0; i32.load 0; local.get 0; i32.load 16; i32.div_u; drop
        local.get 0; i32.const 1; i32.store 64""",
    # With addresses that C takes for null pointers.
    "copies_of_nothing": """
        i64.const 0; i64.const 0; i64.const 0; memory.copy 0, 0
        i64.const 0; i32.const 1; i64.const 0; memory.fill 0
        local.get 0; i64.const 0; i64.const 0; i64.const 0; call memcmp; i32.store 64
        local.get 0; i64.const 0; i64.const 0; i64.const 0; call memmove; i64.store 72""",
    "frame": """.local i64
        global.get __stack_pointer; i64.const 32; i64.sub; local.tee 1; global.set __stack_pointer
        local.get 1; local.get 0; i64.load 0; i64.store 8
        local.get 1; i64.const 16; i64.add; i32.const 255; i64.const 8; memory.fill 0
        local.get 0; local.get 1; i64.load 12; i64.store 64
        local.get 1; i64.const 2; i64.or; local.get 0; i32.load 0; i32.store16 0
        local.get 0; local.get 1; i32.load16_u 2; i32.store 72
        local.get 1; i64.const 32; i64.add; global.set __stack_pointer""",
    "frame_to_its_end": """.local i64
        global.get __stack_pointer; i64.const 1024; i64.sub; local.tee 1; global.set __stack_pointer
        local.get 1; local.get 0; i32.load8_u 0; i64.const 1024; memory.fill 0
        local.get 0; local.get 1; i32.load 1020; i32.store 64
        local.get 1; i64.const 1024; i64.add; global.set __stack_pointer""",
    "frame_is_aligned": """.local i64
        global.get __stack_pointer; i64.const 32; i64.sub; local.tee 1; global.set __stack_pointer
        local.get 0; local.get 1; i64.const 15; i64.or; local.get 1; i64.sub; i64.store 64
        local.get 1; i64.const 32; i64.add; global.set __stack_pointer""",
    "frame_in_red_zone": """.local i64, i64
        global.get __stack_pointer; local.set 1
        local.get 1; i64.const 16; i64.sub; local.set 2
        local.get 2; local.get 0; i64.load 0; i64.store 8
        local.get 0; local.get 2; i64.load 8; i64.store 64""",
    "frame_that_is_not_used": """
        global.get __stack_pointer; i64.const 16; i64.sub; drop
        local.get 0; local.get 0; i64.load 8; i64.store 64""",
    "select_and_nop": """
        local.get 0
        local.get 0; i64.load 0; local.get 0; i64.load 8; local.get 0; i32.load 16; nop; i64.select
        i64.store 64
        local.get 0
        local.get 0; v128.load 0; local.get 0; v128.load 32; local.get 0; i32.load 16; v128.select
        v128.store 80""",
    "select_before_its_locals_change": """.local i32, i32, i32
        local.get 0; i32.load 0; local.set 1
        local.get 0; i32.load 4; local.set 2
        local.get 0; i32.load 8; i32.const 1; i32.and; local.set 3
        local.get 0
        local.get 0
        local.get 1; local.get 2; local.get 3; i32.select
        local.get 3; i32.eqz; local.set 3
        i32.store 64
        local.get 1; local.get 2; local.get 3; i32.select
        local.get 2; i32.const 3; i32.add; local.set 2
        i32.store 72
        local.get 0
        local.get 1; local.get 2; local.get 3; i32.select
        local.get 1; i32.const 3; i32.add; local.set 1
        i32.store 80""",
    "constants_below_zero": """
        local.get 0; i32.const 1; i32.const 2; i32.sub; i64.extend_i32_u; i64.store 64
        local.get 0; i32.const 3; i32.const 9; i32.sub; i32.const 1; i32.shr_u; i32.store 72
        local.get 0; i64.const 3; i64.const 9; i64.sub; i64.const 1; i64.shr_u; i64.store 80""",
    "branch_that_ends_in_a_jump": """
        block
        local.get 0
        local.get 0; i32.load 0; i32.const 1; i32.and
        if i32
        br 1
        else
        local.get 0; i32.load 8
        end_if
        i32.store 64
        end_block""",
    "calls": """
        local.get 0
        local.get 0; i64.load 0
        local.get 0; i32.load 8
        call helper
        i64.store 64
        local.get 0; i64.load 8; i32.const 2
        call helper
        drop""",
    "results_of_functions_that_end_in_a_trap": """
        local.get 0
        local.get 0; i64.load 0
        call odd_number
        i64.store 64
        local.get 0
        local.get 0; i64.load 0
        call odd_vector
        v128.store 80""",
}

HELPER = """\
\t.type helper,@function
\t.hidden helper
helper:
\t.functype helper (i64, i32) -> (i64)
\tlocal.get 0
\tlocal.get 1
\ti64.extend_i32_s
\ti64.rotl
\tend_function
"""

ODD = """\
\t.type odd_{name},@function
\t.hidden odd_{name}
odd_{name}:
\t.functype odd_{name} (i64) -> ({kind})
\tlocal.get 0
\ti32.wrap_i64
\ti32.const 1
\ti32.and
\tif
\tlocal.get 0
{conversion}\treturn
\tend_if
\tunreachable
\tend_function
"""
ODD_FUNCTIONS = ODD.format(name="number", kind="i64", conversion="") \
    + ODD.format(name="vector", kind="v128", conversion="\ti32.wrap_i64\n\ti8x16.splat\n")


def each_control():
    for name, text in CONTROL.items():
        yield function(name, [word.strip() for line in text.splitlines() for word in line.split(";") if word.strip()])


def known(rng):
    """Returns functions for all instructions that the translator knows."""
    return IMPORTED + "".join([*each_form(), *each_access(), *each_constant(rng), *each_memory(), *each_data(), HELPER,
                               ODD_FUNCTIONS, *each_control()]) + DATA
