"""Translates the code of one function to C.

The values on the stack of WebAssembly become expressions of C. One that reads a local is stored in a variable before that
local changes, and before a block begins. Loads, calls and divisions are stored in variables where they happen, so that
the order of effects is that of the module.

A function reserves its frame by subtracting a constant from the stack pointer. The frame becomes an array in the C
function, so the stack pointer itself is not needed. Any other use of the stack pointer is refused.
"""
from typing import FrozenSet, List, Optional, Set

from instructions import C_TYPES, FORMS, I32, I64, LOADS, STORES, V128
from wasm_module import Module, refuse

# An expression that is longer is stored in a variable.
LONGEST = 160

# The first value of a local.
ZEROS = {kind: "v_const(0, 0)" if kind == V128 else "0" for kind in C_TYPES}


class Value:
    """A value on the stack: an expression, its type, and the names of the variables that it reads.

    `condition` is the same value as an expression of type int, if it is 0 or 1. `role` says what the value has to do
    with the stack pointer: "stack" for the pointer itself, "frame" for the address of the frame that `number` bytes
    below the pointer begins, "base" for the local with this address, and "top" for the address after the frame.
    """

    def __init__(self, text, kind, reads: FrozenSet[str] = frozenset(), condition=None, role=None, number=None):
        self.text, self.kind, self.reads = text, kind, reads
        self.condition = condition or text
        self.role, self.number = role, number


class Block:
    """A block, loop, branch or function that is open.

    `height` is the number of values on the stack at its start, and `variable` holds its result. `label_at` is the place
    of a loop's label among the lines.
    """

    def __init__(self, kind: str, height: int, result: Optional[int], number: int):
        self.kind, self.height, self.result = kind, height, result
        self.label = f"B{number}"
        self.variable = f"r{number}"
        self.label_at = 0
        self.is_used = False
        self.is_dead = False


def without_parentheses(text):
    """Returns an expression without the parentheses around all of it."""
    if not text.startswith("("):
        return text
    depth = 0
    for place, char in enumerate(text):
        depth += (char == "(") - (char == ")")
        if depth == 0:
            return text[1:-1] if place == len(text) - 1 else text
    return text


def constant(number, kind):
    number &= (1 << (32 if kind == I32 else 64)) - 1
    digits = str(number) if number < 10 else hex(number)
    return Value(digits + ("u" if kind == I32 else "ull"), kind, role="constant", number=number)


def name_in_c(module: Module, index: int) -> str:
    """Returns the name in C of a function of the module or of one that it imports."""
    if index < len(module.imported):
        return f"host_{module.imported[index]}"
    for name, number in module.exports.items():
        if number == index:
            return f"w_{name}"
    return f"f{index}"


def heading(module: Module, index: int) -> str:
    """Returns the beginning of a function's declaration in C."""
    parameters, results = module.type_of(index)
    words = ", ".join(f"{C_TYPES[kind]} l{k}" for k, kind in enumerate(parameters)) or "void"
    result = C_TYPES[results[0]] if results else "void"
    return f"static {result} {name_in_c(module, index)}({words})"


class Function:
    """The translation of one function."""

    def __init__(self, module: Module, index: int):
        self.module, self.index = module, index
        parameters, results = module.type_of(index)
        if len(results) > 1:
            refuse("a function with several results")
        code = module.code(index)
        self.parameters = len(parameters)
        self.result = results[0] if results else None
        self.kinds = parameters + code.kinds
        self.instructions = iter(code.instructions)
        self.lines: List[Optional[str]] = []
        self.variables: List[str] = []
        self.stack: List[Value] = []
        self.blocks: List[Block] = []
        self.count_of_temporaries = self.count_of_blocks = 0
        self.frame_size: Optional[int] = None
        # The local with the address of the frame. Where the function needs no stack pointer, the local may change.
        self.base: Optional[int] = None
        self.has_changed_base = self.has_set_pointer = False
        # The locals that hold a copy of the stack pointer, and those that are read.
        self.copies: Set[int] = set()
        self.read: Set[int] = set()

    def translated(self) -> List[str]:
        """Returns the lines of the function's body."""
        self.open("function", self.result)
        for it in self.instructions:
            self.translate(it)
        if self.blocks:
            refuse("code that ends early")
        if self.has_set_pointer and self.has_changed_base:
            refuse("a frame whose address changes")
        lines = [] if self.frame_size is None else [f"  FRAME(frame, {self.frame_size});"]
        lines += self.declarations() + ["  " + line for line in self.variables]
        unread = [k for k in range(len(self.kinds)) if k not in self.read | self.copies]
        lines += [f"  (void)l{k};" for k in unread]
        return lines + [line for line in self.lines if line is not None]

    def declarations(self):
        lines = []
        for kind, name in C_TYPES.items():
            words = [f"l{k} = {ZEROS[kind]}" for k in range(self.parameters, len(self.kinds))
                     if self.kinds[k] == kind and k not in self.copies]
            for first in range(0, len(words), 12):
                lines.append(f"  {name} " + ", ".join(words[first:first + 12]) + ";")
        return lines

    def translate(self, it):
        """Translates one instruction."""
        if it.name in FORMS:
            self.operate(it.name)
        elif it.name in LOADS:
            self.load(LOADS[it.name], *it.operands)
        elif it.name in STORES:
            self.store(STORES[it.name], *it.operands)
        else:
            getattr(self, "do_" + it.name.replace(".", "_"))(*it.operands)

    # ---- lines and values

    def emit(self, line):
        self.lines.append("  " + line)

    def push(self, text, kind, reads=frozenset(), condition=None):
        """Pushes an expression, or a new variable that holds it if it is long."""
        if len(text) > LONGEST:
            self.push_stored(text, kind)
        else:
            self.stack.append(Value(text, kind, reads, condition))

    def stored(self, text, kind):
        """Stores an expression in a new variable, and returns that."""
        name = f"t{self.count_of_temporaries}"
        self.count_of_temporaries += 1
        self.emit(f"{C_TYPES[kind]} {name} = {without_parentheses(text)};")
        return Value(name, kind)

    def push_stored(self, text, kind):
        self.stack.append(self.stored(text, kind))

    def pop(self, kind=None):
        if len(self.stack) <= self.blocks[-1].height:
            refuse("an instruction without its operands")
        value = self.stack.pop()
        if kind is not None and value.kind != kind:
            refuse("an operand of another type")
        return value

    def pop_plain(self, kind=None):
        """Pops a value that has nothing to do with the stack pointer, apart from addresses in the frame."""
        value = self.pop(kind)
        if value.role in ("stack", "frame"):
            refuse("an operation on the stack pointer")
        return value

    def pop_all(self, kinds):
        return [self.pop_plain(kind) for kind in reversed(kinds)][::-1]

    def settle(self, name=None):
        """Stores the values on the stack that read a variable, or any, in variables of their own."""
        for place, value in enumerate(self.stack):
            if value.reads and (name is None or name in value.reads):
                self.stack[place] = self.stored(value.text, value.kind)

    # ---- blocks

    def open(self, kind, result):
        self.settle()
        if any(value.role in ("stack", "frame") for value in self.stack):
            refuse("a copy of the stack pointer that a block keeps")
        block = Block(kind, len(self.stack), result, self.count_of_blocks)
        self.count_of_blocks += 1
        if result is not None and kind != "function":
            self.variables.append(f"{C_TYPES[result]} {block.variable};")
        self.blocks.append(block)
        return block

    def do_block(self, result):
        self.open("block", result)

    def do_loop(self, result):
        block = self.open("loop", result)
        block.label_at = len(self.lines)
        self.lines.append(None)

    def do_if(self, result):
        condition = self.pop_plain(I32)
        self.open("if", result)
        self.emit(f"if ({without_parentheses(condition.condition)}) {{")

    def do_else(self):
        self.end_branch()
        block = self.blocks[-1]
        block.kind, block.is_dead = "else", False
        self.emit("} else {")

    def do_end(self):
        self.end_branch()
        block = self.blocks.pop()
        if block.kind == "function":
            return
        if block.kind == "if" and block.result is not None:
            refuse("a branch with a result and no other branch")
        if block.kind in ("if", "else"):
            self.emit("}")
        if block.is_used and block.kind == "loop":
            self.lines[block.label_at] = f"  {block.label}:;"
        elif block.is_used:
            self.emit(f"{block.label}:;")
        if block.result is not None:
            self.push(block.variable, block.result, frozenset([block.variable]))

    def end_branch(self):
        """Stores the result of a block or of one of its branches, whose end is reached."""
        block = self.blocks[-1]
        if block.is_dead:
            return
        if block.result is not None:
            text = self.pop_plain(block.result).text
            self.emit(f"return {text};" if block.kind == "function" else f"{block.variable} = {text};")
        if len(self.stack) != block.height:
            refuse("values that are left at the end of a block")

    def jump(self, depth):
        """Returns the statement that leaves for a block. The value for it stays on the stack."""
        block = self.blocks[-1 - depth]
        has_value = block.result is not None and block.kind != "loop"
        if has_value and (len(self.stack) <= self.blocks[-1].height or self.stack[-1].kind != block.result
                          or self.stack[-1].role in ("stack", "frame")):
            refuse("a branch without its value")
        if block.kind == "function":
            return f"return {self.stack[-1].text};" if has_value else "return;"
        block.is_used = True
        go = f"goto {block.label};"
        return f"{{ {block.variable} = {self.stack[-1].text}; {go} }}" if has_value else go

    def skip_dead_code(self):
        """Skips the instructions up to the end of the block or of its branch, which cannot be reached."""
        block = self.blocks[-1]
        del self.stack[block.height:]
        block.is_dead = True
        depth = 0
        for it in self.instructions:
            if it.name in ("block", "loop", "if"):
                depth += 1
            elif depth > 0 and it.name == "end":
                depth -= 1
            elif depth == 0 and it.name in ("end", "else"):
                self.translate(it)
                return

    def do_br(self, depth):
        self.emit(self.jump(depth))
        self.skip_dead_code()

    def do_br_if(self, depth):
        condition = self.pop_plain(I32)
        self.emit(f"if ({without_parentheses(condition.condition)}) {self.jump(depth)}")

    def do_br_table(self, depths):
        self.emit(f"switch ({self.pop_plain(I32).text}) {{")
        for number, depth in enumerate(depths[:-1]):
            self.emit(f"case {number}: {self.jump(depth)}")
        self.emit(f"default: {self.jump(depths[-1])}")
        self.emit("}")
        self.skip_dead_code()

    def do_return(self):
        self.do_br(len(self.blocks) - 1)

    def do_unreachable(self):
        """Traps. A compiler that does not know that this ends the program wants a result all the same."""
        self.emit("trap();" if self.result is None else f"trap(); return {ZEROS[self.result]};")
        self.skip_dead_code()

    def do_nop(self):
        pass

    # ---- locals and the stack pointer

    def push_local(self, number):
        if number in self.copies:
            if len(self.blocks) != 1:
                refuse("a copy of the stack pointer in a block")
            self.push_stack_pointer()
            return
        self.read.add(number)
        value = Value(f"l{number}", self.kinds[number], frozenset([f"l{number}"]))
        if number == self.base:
            value.role = "base"
        self.stack.append(value)

    def push_stack_pointer(self):
        self.stack.append(Value("", I64, role="stack"))

    def set_local(self, number, value):
        self.settle(f"l{number}")
        if number in self.copies and len(self.blocks) != 1:
            refuse("a copy of the stack pointer that changes in a block")
        self.copies.discard(number)
        if value.role == "frame":
            self.begin_frame(number, value.number)
        elif value.role == "stack":
            if len(self.blocks) != 1 or number < self.parameters:
                refuse("a copy of the stack pointer in a block")
            self.copies.add(number)
        elif value.text != f"l{number}":  # a compiler warns of an assignment to itself
            self.has_changed_base |= number == self.base
            self.emit(f"l{number} = {without_parentheses(value.text)};")

    def begin_frame(self, number, size):
        if self.frame_size is not None or number < self.parameters or len(self.blocks) != 1:
            refuse("a second frame, or one that begins in a block")
        self.frame_size, self.base = size, number
        self.emit(f"l{number} = frame_at(frame);")

    def do_local_get(self, number):
        self.push_local(number)

    def do_local_set(self, number):
        self.set_local(number, self.pop(self.kinds[number]))

    def do_local_tee(self, number):
        self.set_local(number, self.pop(self.kinds[number]))
        self.push_local(number)

    def do_global_get(self, number):
        name = self.module.globals[number]
        if name == "__memory_base":
            self.push("STATIC", I64)
        elif name == "__stack_pointer":
            self.push_stack_pointer()
        else:
            refuse(f"the global {name}")

    def do_global_set(self, number):
        """Accepts only the stack pointer, and for it only the two ends of the frame."""
        value = self.pop(I64)
        name = self.module.globals[number]
        if name != "__stack_pointer" or value.role not in ("base", "top"):
            refuse(f"a new value of the global {name}")
        self.has_set_pointer = True

    # ---- operations

    def operate(self, name):
        form = FORMS[name]
        if name == "i64.sub" and len(self.stack) > 1 and self.stack[-2].role == "stack":
            size = self.pop(I64)
            self.pop(I64)
            if size.role != "constant":
                refuse("a frame of unknown size")
            self.stack.append(Value("", I64, role="frame", number=size.number))
            return
        values = self.pop_all(form.operands)
        condition = None
        if form.is_condition:
            operands = [value.condition if name.endswith(".eqz") else value.text for value in values]
            condition = f"({form.text.format(*operands)})"
            text = f"(u32){condition}"
        else:
            text = form.text.format(*(value.text for value in values))
        reads = frozenset().union(*(value.reads for value in values))
        if form.can_trap or form.result == V128:
            self.push_stored(text, form.result)
        else:
            self.push(f"({text})", form.result, reads, condition)
        if name == "i64.add" and values[0].role == "base" and values[1].role == "constant" \
                and values[1].number == self.frame_size:
            self.stack[-1].role = "top"

    def do_i32_const(self, number):
        self.stack.append(constant(number, I32))

    def do_i64_const(self, number):
        self.stack.append(constant(number, I64))

    def do_v128_const(self, data):
        low, high = (int.from_bytes(data[at:at + 8], "little") for at in (0, 8))
        self.push(f"v_const({low:#x}ull, {high:#x}ull)", V128)

    def do_drop(self):
        """Drops a value. It may be the address of a frame that the function does not use."""
        value = self.pop()
        if value.text.isidentifier():
            self.emit(f"(void){value.text};")

    def do_select(self):
        condition, last = self.pop_plain(I32), self.pop_plain()
        first = self.pop_plain(last.kind)
        text = f"({condition.condition} ? {first.text} : {last.text})"
        self.push(text, last.kind, condition.reads | first.reads | last.reads)

    def do_call(self, index):
        kinds, results = self.module.type_of(index)
        values = self.pop_all(kinds)
        text = f"{name_in_c(self.module, index)}({', '.join(without_parentheses(value.text) for value in values)})"
        if results:
            self.push_stored(text, results[0])
        else:
            self.emit(text + ";")

    # ---- memory

    def pop_address(self, offset):
        value = self.pop_plain(I64)
        return f"{value.text} + {offset}" if offset else without_parentheses(value.text)

    def load(self, access, offset):
        self.push_stored(f"{access.cast}{access.function}({self.pop_address(offset)})", access.kind)

    def store(self, access, offset):
        text = access.cast + self.pop_plain(access.kind).text
        self.emit(f"{access.function}({self.pop_address(offset)}, {without_parentheses(text)});")

    def do_memory_copy(self, *_):
        to, source, count = self.pop_all((I64, I64, I64))
        self.emit(f"memory_copy({to.text}, {source.text}, {count.text});")

    def do_memory_fill(self, _):
        to, value, count = self.pop_all((I64, I32, I64))
        self.emit(f"memory_fill({to.text}, {value.text}, {count.text});")
