"""Random functions in the assembler of WebAssembly."""
import random

from engines import BLOCK, function
from instructions import FORMS, I32, I64, LOADS, STORES, V128
from programs import WORDS, address, bytes_of, store


class Program:
    """A random function. Its locals are two numbers of each type, and a counter for each loop."""

    def __init__(self, rng: random.Random):
        self.rng = rng
        self.kinds = [I32, I32, I64, I64, V128, V128]
        self.lines = []
        # The types of the results of the open blocks, and for a loop "loop".
        self.blocks = []
        self.pure = {kind: [name for name, form in FORMS.items() if form.result == kind and not form.can_trap]
                     for kind in WORDS}

    def emit(self, *lines):
        self.lines += lines

    def local(self, kind):
        return 1 + self.rng.choice([k for k, it in enumerate(self.kinds[:6]) if it == kind])

    def value(self, kind, depth):
        """Emits code that pushes a value."""
        ways = [self.constant, self.read, self.loaded]
        if depth > 0:
            ways += [self.operation, self.operation, self.operation, self.tee, self.selected, self.block, self.branches]
            ways += [self.divided] if kind != V128 else []
        self.rng.choice(ways)(kind, depth - 1)

    def constant(self, kind, _):
        if kind == V128:
            self.emit(f"v128.const {bytes_of(self.rng.randbytes(16))}")
            return
        bits = 32 if kind == I32 else 64
        number = self.rng.choice((0, 1, 5, self.rng.getrandbits(bits), 1 << (bits - 1)))
        self.emit(f"{WORDS[kind]}.const {number - (1 << bits) if number >> (bits - 1) else number}")

    def read(self, kind, _):
        self.emit(f"local.get {self.local(kind)}")

    def loaded(self, kind, _):
        name = self.rng.choice([name for name, access in LOADS.items() if access.kind == kind])
        self.emit("local.get 0", f"{name} {self.rng.randrange(BLOCK - 16)}:p2align=0")

    def operation(self, kind, depth):
        name = self.rng.choice(self.pure[kind])
        for operand in FORMS[name].operands:
            self.value(operand, depth)
        self.emit(name)

    def divided(self, kind, depth):
        word = WORDS[kind]
        self.value(kind, depth)
        self.value(kind, depth)
        self.emit(f"{word}.const 1", f"{word}.or", f"{word}.{self.rng.choice(('div_u', 'rem_u', 'rem_s'))}")

    def tee(self, kind, depth):
        self.value(kind, depth)
        self.emit(f"local.tee {self.local(kind)}")

    def selected(self, kind, depth):
        self.value(kind, depth)
        self.value(kind, depth)
        self.value(I32, depth)
        self.emit(f"{WORDS[kind]}.select")

    def block(self, kind, depth):
        self.emit(f"block {WORDS[kind]}")
        self.blocks.append(kind)
        self.statements(depth)
        self.value(kind, depth)
        if self.rng.random() < 0.5:
            self.value(I32, depth)
            self.emit("br_if 0")
        self.blocks.pop()
        self.emit("end_block")

    def branches(self, kind, depth):
        self.value(I32, depth)
        self.emit(f"if {WORDS[kind]}")
        self.blocks.append(kind)
        self.value(kind, depth)
        self.emit("else")
        self.statements(depth)
        self.value(kind, depth)
        self.blocks.pop()
        self.emit("end_if")

    def statements(self, depth):
        for _ in range(self.rng.randrange(1, 4)):
            ways = [self.assign, self.write] + ([self.loop, self.jump, self.condition, self.move] if depth > 0 else [])
            self.rng.choice(ways)(depth - 1)

    def assign(self, depth):
        kind = self.rng.choice((I32, I64, V128))
        self.value(kind, max(depth, 0))
        self.emit(f"local.set {self.local(kind)}")

    def write(self, depth):
        name = self.rng.choice(list(STORES))
        self.emit("local.get 0")
        self.value(STORES[name].kind, max(depth, 0))
        self.emit(f"{name} {self.rng.randrange(BLOCK - 16)}:p2align=0")

    def loop(self, depth):
        """Emits a loop that ends after at most four rounds."""
        self.kinds.append(I32)
        counter = len(self.kinds)
        self.emit("i32.const 0", f"local.set {counter}", "loop")
        self.blocks.append("loop")
        self.statements(depth)
        self.blocks.pop()
        self.emit(f"local.get {counter}", "i32.const 1", "i32.add", f"local.tee {counter}", "i32.const 4", "i32.lt_u")
        self.value(I32, max(depth, 0))
        self.emit("i32.and", "br_if 0", "end_loop")

    def jump(self, depth):
        """Emits a branch out of an open block that has no result, by br_if or br_table."""
        self.emit("block", "block")
        self.blocks += [None, None]
        self.statements(depth)
        self.value(I32, max(depth, 0))
        self.emit(self.rng.choice(("br_if 0", "br_if 1", "br_table {0, 1}", "br_table {1, 0, 1}")))
        self.emit("end_block")
        self.blocks.pop()
        self.statements(depth)
        self.blocks.pop()
        self.emit("end_block")

    def condition(self, depth):
        self.value(I32, max(depth, 0))
        self.emit("if")
        self.blocks.append(None)
        self.statements(depth)
        if self.rng.random() < 0.3:
            self.leave()
        elif self.rng.random() < 0.5:
            self.emit("else")
            self.statements(depth)
        self.blocks.pop()
        self.emit("end_if")

    def leave(self):
        """Emits a branch out of the innermost block without a result, or a return."""
        for depth, kind in enumerate(reversed(self.blocks)):
            if kind is None:
                self.emit(f"br {depth}")
                return
            if kind != "loop":
                break
        self.emit("return")

    def move(self, depth):
        offsets = [self.rng.randrange(BLOCK // 2) for _ in range(2)]
        self.emit(*address(offsets[0]), *address(offsets[1]))
        self.value(I64, max(depth, 0))
        self.emit("i64.const 127", "i64.and", "memory.copy 0, 0")

    def text(self, name):
        self.statements(4)
        self.statements(4)
        for kind in WORDS:
            for offset in range(2):
                lines = [f"local.get {1 + self.kinds.index(kind) + offset}"]
                self.emit(*store(kind, lines, {I32: 0, I64: 16, V128: 32}[kind] + 16 * offset))
        words = ", ".join(WORDS[kind] for kind in self.kinds)
        return function(name, [f".local {words}", *self.lines])


def random_functions(rng, count):
    """Returns random functions, of which most have some hundred instructions."""
    made = []
    while len(made) < count:
        program = Program(rng).text(f"random_{len(made)}")
        if 50 < program.count("\n") < 3000:
            made.append(program)
    return "".join(made)
