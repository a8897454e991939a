"""Tests of the translator from WebAssembly to C: each instruction that it knows, random functions, and what it refuses."""
import os
import random
import re
import shutil
import subprocess
import sys
import tempfile
import unittest
from pathlib import Path

sys.dont_write_bytecode = True
sys.path.insert(0, str(Path(__file__).resolve().parent))
import engines  # noqa: E402 (a module beside this script)
import programs  # noqa: E402
import random_programs  # noqa: E402
import instructions  # noqa: E402
import wasm_module  # noqa: E402
import wasm_to_c  # noqa: E402

SEED = int(os.environ.get("VT100_SEED", "1"))
RANDOM_FUNCTIONS = int(os.environ.get("VT100_RANDOM_FUNCTIONS", "40"))

STRICT = ["-Wall", "-Wextra", "-pedantic", "-Werror"]
SANITIZED = ["-w", "-fsanitize=undefined", "-fno-sanitize-recover"]
NATIVE = {
    "cc": engines.Compiler(["cc", *STRICT]),
    "cc without vectors": engines.Compiler(["cc", *STRICT, "-DVT100_NO_VECTORS"]),
    "cc with UBSan": engines.Compiler(["cc", *SANITIZED]),
    "clang": engines.Compiler(["clang", *STRICT, "-Wno-unused-function"]),
    # A compiler without the functions for bits and vectors that others have.
    "tcc": engines.Compiler(["tcc", "-Wall", "-Werror"]),
}
# Processors of 32 bits, with the other order of bytes, and with NEON.
OTHERS = {
    "i686": engines.Compiler(["i686-linux-gnu-gcc", *STRICT]),
    "s390x": engines.Compiler(["s390x-linux-gnu-gcc", *STRICT], ["qemu-s390x", "-L", "/usr/s390x-linux-gnu"]),
    "s390x without extensions": engines.Compiler(["s390x-linux-gnu-gcc", "-w", "-DVT100_NO_VECTORS"],
                                                 ["qemu-s390x", "-L", "/usr/s390x-linux-gnu"], is_plain=True),
    "aarch64": engines.Compiler(["aarch64-linux-gnu-gcc", *STRICT], ["qemu-aarch64", "-L", "/usr/aarch64-linux-gnu"]),
}


class TranslatorTest(unittest.TestCase):
    """Has a directory for the files of a test."""

    def setUp(self):
        folder = tempfile.TemporaryDirectory()
        self.addCleanup(folder.cleanup)
        self.folder = Path(folder.name)


class Equal(TranslatorTest):
    """What node computes, the C program computes."""

    def assert_equal(self, expected, found):
        self.assertEqual(len(found), len(expected))
        for wanted, got in zip(expected, found):
            if wanted != got:
                name, block, after = wanted
                self.fail(f"{name} of {block.hex()} gives {after.hex()}, in C {got[2].hex()}")

    def compare(self, text, blocks, compilers):
        module = engines.assemble(text, self.folder)
        names = engines.names_in(text)
        expected = engines.in_node(module, names, blocks)
        for name, compiler in compilers.items():
            tools = [compiler.command[0], *compiler.runner[:1]]
            with self.subTest(name):
                if not all(map(shutil.which, tools)):
                    self.skipTest(f"what needs {' and '.join(tools)}")
                self.assert_equal(expected, engines.in_c(module, names, blocks, compiler))
        return module, expected

    def test_each_instruction(self):
        rng = random.Random(SEED)
        module, results = self.compare(programs.known(rng), programs.blocks(rng, 200), {**NATIVE, **OTHERS})
        # Each instruction occurs, and each function but those for constants has different results.
        parts = wasm_module.Module(module.read_bytes())
        functions = range(len(parts.imported), len(parts.functions))
        tried = {it.name for index in functions for it in parts.code(index).instructions}
        self.assertEqual(tried, wasm_module.known_instructions())
        self.assertGreater(sum(after == engines.TRAPPED for _, _, after in results), 40)

    def test_random_functions(self):
        rng = random.Random(SEED)
        text = random_programs.random_functions(rng, RANDOM_FUNCTIONS)
        compilers = {
            "cc with UBSan": NATIVE["cc with UBSan"],
            "without vectors": engines.Compiler(["cc", "-w", "-DVT100_NO_VECTORS"]),
            "i686": engines.Compiler(["i686-linux-gnu-gcc", "-w"]),
        }
        _, results = self.compare(text, programs.blocks(rng, 20), compilers)
        self.assertGreater(len({after for _, _, after in results}), RANDOM_FUNCTIONS * 10)


def body(*lines):
    return engines.function("f", lines)


FRAME = ["global.get __stack_pointer", "i64.const 32", "i64.sub"]
REFUSED = {
    "the instruction f32.add": body("f32.add"),
    "the instruction memory.grow": body("i64.const 1", "memory.grow 0", "drop"),
    "the instruction memory.size": body("memory.size 0", "drop"),
    "the instruction i16x8.mul": body("i16x8.mul"),
    "the instruction i8x16.shuffle": body("unreachable", "i8x16.shuffle " + ", ".join("0" * 16)),
    "the import f_of_another_library": "\t.functype f_of_another_library () -> ()\n" + body("call f_of_another_library"),
    "a function with several results": "\t.globl two\n\t.type two,@function\ntwo:\n\t.functype two () -> (i32, i32)\n"
                                       "\ti32.const 1\n\ti32.const 2\n\tend_function\n",
    "a block with parameters or several results": body("i32.const 1", "block (i32) -> (i32)", "end_block", "drop"),
    "a local of the type 0x7d": body(".local f32"),
    "a frame of unknown size": body("global.get __stack_pointer", "local.get 0", "i64.sub", "drop"),
    "an operation on the stack pointer": body("global.get __stack_pointer", "i64.const 8", "i64.add", "drop"),
    "a second frame, or one that begins in a block": body(".local i64, i64", *FRAME, "local.set 1", *FRAME, "local.set 2"),
    "a new value of the global __stack_pointer": body(".local i64", *FRAME, "local.tee 1", "global.set __stack_pointer",
                                                      "local.get 1", "i64.const 31", "i64.add", "global.set __stack_pointer"),
    "a frame whose address changes": body(".local i64", *FRAME, "local.tee 1", "global.set __stack_pointer", "local.get 0",
                                          "local.set 1"),
    "a copy of the stack pointer in a block": body("block", "global.get __stack_pointer", "local.set 0", "end_block"),
    "a copy of the stack pointer that changes in a block": body(".local i64", "global.get __stack_pointer", "local.set 1",
                                                                "block", "local.get 0", "local.set 1", "end_block"),
    "a copy of the stack pointer that a block keeps": body("global.get __stack_pointer", "block", "end_block", "drop"),
    "an operand of another type": body("i32.const 1", "i64.const 1", "i64.add", "drop"),
    "an instruction without its operands": body("i64.add", "drop"),
    "values that are left at the end of a block": body("i32.const 1"),
    "a branch without its value": body("block i32", "br 0", "end_block", "drop"),
}


# Further functions that are refused for one of these reasons.
ALSO_REFUSED = [
    ("a second frame, or one that begins in a block", body(".local i64", "block", *FRAME, "local.set 1", "end_block")),
    ("a second frame, or one that begins in a block", body(*FRAME, "local.set 0")),
    ("a copy of the stack pointer in a block", body(".local i64", "global.get __stack_pointer", "local.set 1", "block",
                                                    "local.get 1", "i64.const 32", "i64.sub", "drop", "end_block")),
    ("an operation on the stack pointer", body("i64.const 0", "global.get __stack_pointer", "i32.const 1", "i64.select", "drop")),
    ("an operation on the stack pointer", body("global.get __stack_pointer", "i64.const 0", "i32.const 1", "i64.select", "drop")),
]


class Refused(TranslatorTest):
    """What the translator does not know, it names, and writes nothing."""

    def refuse(self, module):
        target = self.folder / "out.c"
        done = engines.translate(module, target)
        self.assertEqual(done.returncode, 1, done.stderr)
        self.assertFalse(target.exists())
        return done.stderr

    def test_what_is_refused(self):
        for what, text in [*REFUSED.items(), *ALSO_REFUSED]:
            with self.subTest(what):
                self.assertIn(f"not supported: {what}", self.refuse(engines.assemble(text, self.folder)))

    def test_the_function_is_named(self):
        error = self.refuse(engines.assemble(body("f64.sqrt"), self.folder))
        self.assertEqual(error, "wasm_to_c: not supported: the instruction f64.sqrt, in f\n")

    def test_each_other_instruction_is_named(self):
        names = {bytes([code]): name for code, name in instructions.ONE_BYTE.items()}
        for prefix, table in instructions.PREFIXES.items():
            names.update({bytes([prefix, *([code] if code < 128 else [code & 127 | 128, code >> 7])]): name
                          for code, name in table.items()})
        others = {code: name for code, name in names.items() if name not in wasm_module.known_instructions()}
        self.assertGreater(len(others), 200)
        for code, name in others.items():
            with self.subTest(name), self.assertRaises(wasm_module.Unsupported) as caught:
                list(wasm_module.decoded(wasm_module.Reader(code)))
            self.assertEqual(str(caught.exception), f"the instruction {name}")

    def test_names_are_those_of_the_assembler(self):
        floats = ("f32.", "f64.", "f32x4.", "f64x2.", "i16x8.", "i32x4.", "i8x16.")
        tables = [instructions.ONE_BYTE, *instructions.PREFIXES.values()]
        names = [name for table in tables for name in table.values()
                 if ("trunc" in name or name.startswith(floats)) and not any(
                     word in name for word in ("const", "load", "store", "lane", "shuffle"))]
        self.assertGreater(len(names), 150)
        known = wasm_module.known_instructions()
        text = "".join(engines.function(f"f{k}", [name]) for k, name in enumerate(names))
        module = wasm_module.Module(engines.assemble(text, self.folder).read_bytes())
        for k, name in enumerate(names):
            if name not in known:
                with self.subTest(name), self.assertRaisesRegex(wasm_module.Unsupported, f"^the instruction {name}$"):
                    module.code(module.exports[f"f{k}"])

    def test_files_that_are_no_modules(self):
        whole = engines.assemble(body("nop"), self.folder).read_bytes()
        module = self.folder / "broken.wasm"
        for data, what in ((b"", "a file that is not a module"), (b"\0asm\2\0\0\0", "a file that is not a module"),
                           (whole[:-3], "a module that ends early"), (whole[:8] + b"\x09\1\0", "section 9"),
                           (whole + b"\x0b\7\1\0\x42\5\x0b\1\0", "the offset of a segment"),
                           (whole + b"\x0b\2\1\1", "a passive segment")):
            module.write_bytes(data)
            with self.subTest(what):
                self.assertIn(what, self.refuse(module))

    def test_wrong_arguments(self):
        for script in ("wasm_to_c.py", "interface_to_c.py"):
            done = subprocess.run([sys.executable, "-B", str(engines.PORTABLE / script), "one"], stderr=subprocess.PIPE,
                                  universal_newlines=True, check=False)
            self.assertEqual(done.returncode, 1)
            self.assertIn("usage: ", done.stderr)


def part(number, *bodies):
    """Returns a section of a module, whose body is short."""
    data = b"".join(bodies)
    return bytes([number, len(data)]) + data


def word(text):
    return bytes([len(text)]) + text.encode()


def dynamic(size, power):
    """Returns the section with the size of the static data, and with its alignment as a power of 2."""
    return part(0, word("dylink.0"), bytes([1, 4, size, power, 0, 0]))


def module_of(name, code):
    """Returns a module with one function and 16 bytes of static data."""
    return (part(1, b"\1\x60\0\0"), BASES, part(3, b"\1\0"), part(10, bytes([1, len(code) + 1, 0]), code),
            part(0, word("name"), bytes([1, len(name) + 3, 1, 0]), word(name)), dynamic(16, 3))


def stored_address(place, target):
    """Returns code that stores the address of one place in the static data at another one."""
    offset = b"\x23\1\x42%c\x7c"
    return offset % place + offset % target + b"\x37\3\0"


# The imported globals, of which the second one is the address of the static data.
BASES = part(2, b"\2", word("env"), word("__stack_pointer"), b"\3\x7e\1", word("env"), word("__memory_base"), b"\3\x7e\0")
RELOCATES, CONSTRUCTS = "__wasm_apply_data_relocs", "__wasm_call_ctors"
MALFORMED = {
    "the offset of a segment": (BASES, part(11, b"\1\0\x23\0\x0b\1x"), dynamic(16, 3)),
    "static data outside its array": (BASES, part(11, b"\1\0\x23\1\x0b\2xy"), dynamic(1, 3)),
    "static data with an alignment of more than 16 bytes": (dynamic(16, 5),),
    "a memory with another type than that of wasm64": (part(2, b"\1", word("env"), word("memory"), b"\2\0\0"),),
    "the import GOT.mem.f": (part(2, b"\1", word("GOT.mem"), word("f"), b"\3\x7e\1"),),
    "the export g, which is not a function": (part(7, b"\1", word("g"), b"\3\0"),),
    "a type that is not a function": (part(1, b"\1\x50\0\0"),),
    "a constructor": module_of(CONSTRUCTS, b"\1\x0b"),
    "a second memory, in f": module_of("f", b"\x23\0\x28\x40\0\0\x1a\x0b"),
    "code that ends early, in f": module_of("f", b"\1"),
    "a branch with a result and no other branch, in f": module_of("f", b"\x41\1\x04\x7f\x41\1\x0b\x1a\x0b"),
}


class Malformed(unittest.TestCase):
    """Modules that wasm-ld does not make."""

    def translate(self, *sections):
        return wasm_to_c.translated(wasm_module.Module(b"\0asm\1\0\0\0" + b"".join(sections)))[0]

    def test_what_is_refused(self):
        for what, sections in MALFORMED.items():
            with self.subTest(what), self.assertRaises(wasm_module.Unsupported) as caught:
                self.translate(*sections)
            self.assertEqual(str(caught.exception), what)

    def test_what_is_nearly_refused(self):
        self.assertIn("sizeof(struct static_data) == 16", self.translate(dynamic(16, 4))[-1])
        self.translate(BASES, part(11, b"\1\0\x23\1\x0b\2xy"), dynamic(2, 3))
        self.translate(*module_of(CONSTRUCTS, b"\x0b"))

    def test_addresses_in_static_data(self):
        code = stored_address(8, 16)
        self.assertIn("{{8, 16}}", "".join(self.translate(*module_of(RELOCATES, code + b"\x0b"))))
        others = [stored_address(4, 16), stored_address(8, 17), code[:-2] + b"\3\1", code.replace(b"\x23\1", b"\x23\0", 1),
                  code.replace(b"\x7c", b"\x7d", 1), code + b"\1"]
        for other in others:
            with self.subTest(other), self.assertRaisesRegex(wasm_module.Unsupported, "^another address in the static data$"):
                self.translate(*module_of(RELOCATES, other + b"\x0b"))


class Interface(TranslatorTest):
    """The functions of a header."""

    def write(self, header):
        (self.folder / "vt100.h").write_text(header, encoding="utf-8")
        script = engines.PORTABLE / "interface_to_c.py"
        return subprocess.run([sys.executable, "-B", str(script), "vt100.h", "out.c"], cwd=self.folder, check=False,
                              stdout=subprocess.PIPE, stderr=subprocess.PIPE, universal_newlines=True)

    def test_a_parameter_of_another_kind(self):
        done = self.write("vt100_status vt100_f(vt100_handle *handle, float width);\n")
        self.assertEqual(done.returncode, 1)
        self.assertIn("vt100_f has a parameter of another kind: float width", done.stderr)
        self.assertFalse((self.folder / "out.c").exists())

    def test_a_function_in_another_form(self):
        done = self.write("vt100_status vt100_f(uint8_t a);\n  vt100_status vt100_g(void (*f)(void));\n")
        self.assertEqual(done.returncode, 1)
        self.assertIn("declared in another way: vt100_g", done.stderr)

    def test_a_header_without_functions(self):
        self.assertEqual(self.write("/* vt100_status vt100_f(void); */\n").returncode, 1)

    def test_each_function(self):
        done = self.write("/* vt100_f(x) */\nvt100_status vt100_f(vt100_handle *handle,\n    const uint8_t *bytes, size_t len);\n"
                          "void vt100_g(vt100_handle *handle);\nuint8_t vt100_h(void);\nconst char *vt100_version(void);\n")
        self.assertEqual((done.returncode, done.stdout), (0, "wrote 3 functions\n"))
        text = (self.folder / "out.c").read_text(encoding="utf-8")
        self.assertIn("return (vt100_status)w_vt100_f(address_of(handle), address_of(bytes), len);", text)
        self.assertIn("    w_vt100_g(address_of(handle));", text)
        self.assertIn("return (uint8_t)w_vt100_h();", text)

    def test_how_each_kind_of_parameter_is_converted(self):
        self.write("vt100_status vt100_f(vt100_handle *one, vt100_handle *two, vt100_state *state, uint16_t *rows,\n"
                   "    uint64_t *viewer, size_t *ends, size_t room, uint8_t *flag);\nvoid vt100_g(vt100_handle *one);\n")
        text = (self.folder / "out.c").read_text(encoding="utf-8")
        first, second = re.findall(r"^#else\n(.*?)^#endif$", text, re.M | re.S)
        self.assertEqual([line.strip() for line in first.splitlines()], CONVERTED)
        self.assertEqual([line.strip() for line in second.splitlines()],
                         [*CONVERTED[:3], "w_vt100_g(at_one);", "one->at = at_address(load64(at_one));"])


# The body of a function with parameters of each kind, for a host whose memory has another form.
CONVERTED = """\
complete_static_data();
struct number in_one;
u64 at_one = pass_number(&in_one, address_of(one->at));
struct number in_two;
u64 at_two = two == one ? at_one : pass_number(&in_two, address_of(two->at));
struct state in_state;
u64 at_state = pass_state(&in_state);
struct number in_rows;
u64 at_rows = pass_number(&in_rows, *rows);
struct number in_viewer;
u64 at_viewer = pass_number(&in_viewer, *viewer);
struct ends in_ends = make_ends(at_one, room);
if (!in_ends.is_made) return VT100_OUT_OF_MEMORY;
vt100_status result = (vt100_status)w_vt100_f(at_one, at_two, at_state, at_rows, at_viewer, address_of(in_ends.at), room, \
address_of(flag));
one->at = at_address(load64(at_one));
two->at = at_address(load64(at_two));
if (result == VT100_OK) take_state(state, at_state);
*rows = (uint16_t)load16(at_rows);
*viewer = (uint64_t)load64(at_viewer);
take_ends(ends, &in_ends, result == VT100_OK);
return result;
""".splitlines()


if __name__ == "__main__":
    unittest.main()
