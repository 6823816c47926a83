"""Translates one function of a module of WebAssembly into C. What stands on the module's stack are expressions of C, which are
put into variables before anything changes that they read.

The module has a stack in its memory too, whose pointer is a global. A function lowers it by its frame and gives it back. It is
followed through the function which values are that pointer less how many bytes, so that what is done with it otherwise is seen."""
from __future__ import annotations

import collections
import dataclasses
import itertools
import re
from typing import NamedTuple, Protocol

from wasm import Instruction, Module, refuse
from wasm_loops import by_words

# No address of the stack is so small, since its array is as large as the calls need.
SMALL = 1 << 32
# Of a local that may be a pointer to the stack or something else.
UNKNOWN = -1
# Compilers need not take more than 127 blocks inside each other. So a deeper block has a label and no braces, and more loops
# and conditions are refused.
MOST_BRACES = 100
MOST_NESTED = 120
# What an expression can read beside locals.
MEMORY = -1
LONGEST = 120
OPERATORS = {"add": "+", "sub": "-", "mul": "*", "and": "&", "or": "|", "xor": "^"}
RELATIONS = {"eq": "==", "ne": "!=", "lt": "<", "gt": ">", "le": "<=", "ge": ">="}
SHIFTS = {"shl": "<<", "shr_u": ">>", "shr_s": ">>"}
# By functions of the file's head, which begin so.
CALLED = {"clz", "ctz", "popcnt", "div_s", "div_u", "rem_s", "rem_u", "rotl", "rotr"}


class Value(NamedTuple):
    """An expression of C, its type, and what it reads: locals by their numbers, or memory. A truth is an `int` for C. What is
    the pointer to the stack, as the function found it, less some bytes has their number."""

    text: str
    type: str
    reads: frozenset[int] = frozenset()
    is_name: bool = False
    is_truth: bool = False
    below: int | None = None

    def number(self) -> Value:
        """As a number without a sign."""
        return self._replace(text=f"(u32){self.text}", is_truth=False) if self.is_truth else self


class File(Protocol):
    """What a function asks of the file: the names of others, which of them only guard a call, and which use the module's stack."""

    module: Module
    names: dict[int, str]
    guards: set[int]

    def needs_stack(self, index: int) -> bool: ...

    def table_needs_stack(self, type_: int) -> bool: ...


class State(NamedTuple):
    """How many bytes the pointer to the stack was lowered by, and the locals that are that pointer, as it was found, less some
    bytes."""

    pointer: int
    locals: dict[int, int]


@dataclasses.dataclass
class Block:
    """A block that is open: its kind, its label, the variable of what it leaves, how much stood on the stack before it, the
    state there, and the states from which its end is reached."""

    kind: str
    label: str
    result: Value | None
    height: int
    state: State
    states: list[State]
    at: int


def bare(text: str) -> str:
    """The expression without the parentheses around all of it."""
    depth = 0
    for at, sign in enumerate(text):
        depth += (sign == "(") - (sign == ")")
        if depth == 0 and at < len(text) - 1:
            return text
    return text[1:-1] if text.startswith("(") else text


def constant(value: int, type_: str) -> Value:
    value &= 0xFFFFFFFF if type_ == "u32" else 0xFFFFFFFFFFFFFFFF
    return Value(f"{value}u" if type_ == "u32" else f"UINT64_C({value})", type_, is_name=True)


def number_of(value: Value) -> int | None:
    """The number that the value is, if it is one."""
    found = re.fullmatch(r"(\d+)u|UINT64_C\((\d+)\)", value.text)
    return int(found[1] or found[2]) if found else None


def identifier(name: str) -> str:
    return re.sub(r"\W+", "_", name).strip("_")


class Translation:
    """The lines of the function. The file knows the functions that it calls."""

    def __init__(self, file: File, index: int) -> None:
        self.file, self.module, self.index = file, file.module, index
        self.code, self.type = self.module.codes[index], self.module.types[self.module.type_of[index]]
        # Of each loop, by where it begins, the locals that are another pointer, or none, when it begins again.
        self.lost: dict[int, set[int]] = {}
        while not self.is_translated():
            """Once more, by what is known of the loops now."""
        self.tidy()

    def is_translated(self) -> bool:
        """Translates the function, unless a loop is found that begins again with other pointers than it was taken for."""
        self.stack: list[Value] = []
        self.lines: list[str] = []
        self.variables: list[Value] = []
        self.jumped_to: set[str] = set()
        self.called: set[str] = set()
        self.count = 0
        self.is_live = True
        self.frame_bytes = 0
        self.state = State(0, {})
        self.blocks = [Block("function", "", None, 0, self.state, [], 0)]
        found = sum(map(len, self.lost.values()))
        for at, instruction in enumerate(self.code.instructions):
            self.at = at
            self.translate(instruction)
        return sum(map(len, self.lost.values())) == found

    def tidy(self) -> None:
        """Takes away the labels of loops that begin again by `continue` alone, and variables that nobody reads."""
        self.lines = [re.sub(r"^(again\d+): ", lambda it: it[0] if it[1] in self.jumped_to else "", line) for line in self.lines]
        if max(itertools.accumulate(line.count("{") - line.count("}") for line in self.lines), default=0) > MOST_NESTED:
            refuse(f"{self.name()} has more than {MOST_NESTED} blocks inside each other")
        self.lines = by_words(self.lines)
        while (kept := self.without_unread()) != self.lines:
            self.lines = kept
        read = set(re.findall(r"\bl\d+\b", re.sub(r"^l\d+ = ", "", "\n".join(self.lines), flags=re.MULTILINE)))
        of_stack = re.compile(r"^(l\d+) = sp( - \d+)?;$")
        self.lines = [line for line in self.lines if not (found := of_stack.match(line)) or found[1] in read]
        self.uses_stack = any(re.search(r"\bsp\b", line) for line in self.lines)

    def without_unread(self) -> list[str]:
        """The lines without those that give a value to what nobody reads. Of a call the call stays."""
        read = collections.Counter(re.findall(r"\bt\d+\b", "\n".join(self.lines)))
        kept = []
        for line in self.lines:
            found = re.match(r"const u\d+ (t\d+) = (.*)$", line)
            if not found or read[found[1]] > 1:
                kept.append(line)
            elif found[2].startswith(("f_", "by_table_")):
                kept.append(found[2])
        return kept

    def only_stack_pointer(self, number: int) -> None:
        if number != self.module.stack_pointer:
            refuse(f"{self.name()} uses another global than the pointer to the stack")

    def name(self) -> str:
        return self.file.names[self.index]

    # Lines, and values.

    def emit(self, line: str) -> None:
        self.lines.append(line)

    def new(self, prefix: str) -> str:
        self.count += 1
        return f"{prefix}{self.count}"

    def settled(self, value: Value) -> Value:
        """The value in a variable of its own, which nothing changes."""
        if value.is_name and not value.reads:
            return value
        name = self.new("t")
        self.emit(f"const {value.type} {name} = {bare(value.text)};")
        return Value(name, value.type, is_name=True)

    def settle(self, changed: int | None = None) -> None:
        """Puts into variables what reads that, or everything."""
        for at, value in enumerate(self.stack):
            if changed is None or changed in value.reads:
                self.stack[at] = self.settled(value)

    def push(self, text: str, type_: str, *of: Value, reads: frozenset[int] = frozenset(), is_truth: bool = False) -> None:
        value = Value(text, type_, reads.union(*(it.reads for it in of)), is_truth=is_truth)
        self.stack.append(self.settled(value) if len(text) > LONGEST else value)

    def pop(self, count: int) -> list[Value]:
        """The uppermost values, the lowest of them first."""
        if count == 0:
            return []
        if len(self.stack) < count + self.blocks[-1].height:
            refuse(f"{self.name()} takes more from the stack than is there")
        taken = self.stack[-count:]
        del self.stack[-count:]
        return taken

    # Instructions.

    def translate(self, instruction: Instruction) -> None:
        name, operands = instruction
        if not self.is_live:
            if name in ("block", "loop", "if"):
                self.blocks.append(Block("unreached", "", None, len(self.stack), self.state, [], self.at))
                return
            if name not in ("end", "else"):
                return
            if self.blocks[-1].kind == "unreached":
                if name == "end":
                    self.blocks.pop()
                return
        type_, _, word = name.partition(".")
        if type_ in ("u32", "u64"):
            self.operation(type_, word, operands)
        else:
            getattr(self, "on_" + {"if": "if_", "return": "return_", "else": "else_"}.get(name, name).replace(".", "_"))(*operands)

    def operation(self, type_: str, word: str, operands: tuple[int, ...]) -> None:
        bits = type_[1:]
        if word == "const":
            self.stack.append(constant(operands[0], type_))
        elif word in CALLED:
            values = self.pop(1 if word in ("clz", "ctz", "popcnt") else 2)
            self.push(f"{word}{bits}({', '.join(bare(it.text) for it in values)})", type_, *values)
        elif word in OPERATORS:
            self.operator(type_, word, bits)
        elif word in SHIFTS:
            self.shift(type_, word, bits)
        elif word.startswith(("extend", "wrap")):
            [value] = self.pop(1)
            signed = re.fullmatch(r"extend(\d*)_s", word)
            self.push(f"({type_})" + (f"(int{signed[1] or 32}_t)" if signed else "") + value.text, type_, value)
        elif word == "eqz":
            self.is_zero()
        else:
            self.relation(word, bits)

    def operator(self, type_: str, word: str, bits: str) -> None:
        first, second = (it.number() for it in self.pop(2))
        operator, other, number = OPERATORS[word], second.text, number_of(second)
        below = self.moved(first, word, number)
        if below is not None and below >= 0:
            self.stack.append(self.of_stack(below))
            return
        if word == "add" and number is not None and number >> (int(bits) - 1):
            operator, other = "-", constant(-number, type_).text
        self.push(f"({first.text} {operator} {other})", type_, first, second)

    def is_zero(self) -> None:
        [value] = self.pop(1)
        number = number_of(value)
        if number is not None:
            self.stack.append(constant(int(number == 0), "u32"))
            return
        # Twice it asks whether the value is another.
        twice = value.text.endswith(" == 0)") and bare(value.text) != value.text
        self.push(f"{value.text[: -len(' == 0)')]} != 0)" if twice else f"({value.text} == 0)", "u32", value, is_truth=True)

    def relation(self, word: str, bits: str) -> None:
        first, second = self.pop(2)
        if first.below is not None and word in ("lt_s", "gt_s") and (number_of(second) or SMALL) < SMALL:
            # Whether there is room on the stack: the array has it.
            self.stack.append(constant(int(word == "gt_s"), "u32"))
            return
        cast = f"(int{bits}_t)" if word.endswith("_s") else ""
        self.push(f"({cast}{first.text} {RELATIONS[word[:2]]} {cast}{second.text})", "u32", first, second, is_truth=True)

    def moved(self, value: Value, word: str, by: int | None) -> int | None:
        """How far below the stack's pointer the value is that is so much less or more, if it is known."""
        if value.below is None or by is None or word not in ("add", "sub"):
            return None
        by = by - (1 << 64) if by >> 63 else by
        below = value.below + (by if word == "sub" else -by)
        self.frame_bytes = max(self.frame_bytes, below)
        return below

    def shift(self, type_: str, word: str, bits: str) -> None:
        value, by = (it.number() for it in self.pop(2))
        amount = number_of(by)
        count = f"({by.text} & {int(bits) - 1})" if amount is None else str(amount % int(bits))
        casts = (f"({type_})", f"(int{bits}_t)") if word == "shr_s" else ("", "")
        self.push(f"{casts[0]}({casts[1]}{value.text} {SHIFTS[word]} {count})", type_, value, by)

    def on_unreachable(self) -> None:
        self.emit("stop();")
        self.is_live = False

    def on_nop(self) -> None:
        """Nothing."""

    def on_drop(self) -> None:
        self.pop(1)

    def on_select(self) -> None:
        first, second, condition = self.pop(3)
        first, second = first.number(), second.number()
        self.push(f"({condition.text} ? {first.text} : {second.text})", first.type, first, second, condition)

    def on_local_get(self, number: int) -> None:
        below = self.state.locals.get(number)
        if below is not None and below != UNKNOWN:
            self.stack.append(self.of_stack(below))
            return
        self.stack.append(Value(f"l{number}", self.code.locals[number], frozenset([number]), is_name=True))

    def on_local_set(self, number: int) -> None:
        [value] = self.pop(1)
        self.settle(number)
        if value.text != f"l{number}":
            self.emit(f"l{number} = {bare(value.text)};")
        others = {local: below for local, below in self.state.locals.items() if local != number}
        self.state = self.state._replace(locals=others if value.below is None else others | {number: value.below})

    def on_local_tee(self, number: int) -> None:
        self.on_local_set(number)
        self.on_local_get(number)

    def on_global_get(self, number: int) -> None:
        self.only_stack_pointer(number)
        self.stack.append(self.of_stack(self.state.pointer))

    def on_global_set(self, number: int) -> None:
        """No line is needed: what is called is told where the stack ends, and who called knows where it ended."""
        self.only_stack_pointer(number)
        [value] = self.pop(1)
        if value.below is None or value.below < 0:
            refuse(f"{self.name()} sets the pointer to the stack otherwise than a frame does")
        self.state = self.state._replace(pointer=value.below)

    def of_stack(self, below: int) -> Value:
        """The pointer to the stack, as the function found it, less so many bytes."""
        return Value(f"(sp - {below})" if below else "sp", "u64", is_name=True, below=below)

    def address(self, base: Value, offset: int) -> str:
        return f"{base.text} + {offset}" if offset else bare(base.text)

    def on_load(self, how: tuple[str, int, bool], offset: int) -> None:
        type_, bits, is_signed = how
        [base] = self.pop(1)
        place = "load" if base.below is None else "frame"
        if base.below is not None and offset <= base.below:
            base, offset = self.of_stack(base.below - offset), 0
        cast = f"({type_})(int{bits}_t)" if is_signed else f"({type_})" if type_ != f"u{bits}" else ""
        self.push(f"{cast}{place}{bits}({self.address(base, offset)})", type_, base, reads=frozenset([MEMORY]))

    def on_store(self, bits: int, offset: int) -> None:
        base, value = self.pop(2)
        if base.below is not None and offset <= base.below:
            base, offset = self.of_stack(base.below - offset), 0
        if number_of(base) is not None:
            refuse(f"{self.name()} writes constant data")
        self.settle(MEMORY)
        cast = "" if value.type == f"u{bits}" else f"({'uint8_t' if bits == 8 else 'uint16_t' if bits == 16 else 'u32'})"
        self.emit(f"store{bits}({self.address(base, offset)}, {cast}{value.text if cast else bare(value.text)});")

    def on_memory_copy(self, to_memory: int, of_memory: int) -> None:
        self.bulk("copy")

    def on_memory_fill(self, memory: int) -> None:
        self.bulk("fill")

    def bulk(self, call: str) -> None:
        values = self.pop(3)
        self.settle(MEMORY)
        self.emit(f"{call}({', '.join(bare(it.text) for it in values)});")

    # Calls. The first word is where the module's stack ends for the one that is called.

    def on_call(self, callee: int) -> None:
        if callee in self.file.guards:
            self.stack += [constant(0, it) for it in self.module.types[self.module.type_of[callee]].results]
            return
        self.call(self.file.names[callee], self.module.type_of[callee], self.file.needs_stack(callee), [])

    def on_call_indirect(self, type_: int, table: int) -> None:
        self.call(f"by_table_{type_}", type_, self.file.table_needs_stack(type_), self.pop(1))

    def call(self, name: str, type_: int, needs_stack: bool, more: list[Value]) -> None:
        self.called.add(name)
        params, results = self.module.types[type_]
        values = self.pop(len(params)) + more
        self.settle(MEMORY)
        stack = [bare(self.of_stack(self.state.pointer).text)] if needs_stack else []
        text = f"{name}({', '.join([*stack, *(bare(it.text) for it in values)])})"
        if not results:
            self.emit(f"{text};")
            return
        variable = self.new("t")
        self.emit(f"const {results[0]} {variable} = {text};")
        self.stack.append(Value(variable, results[0], is_name=True))

    # Blocks and jumps.

    def enter(self, kind: str, results: list[str]) -> Block:
        """Opens a block. What stands on the stack is in variables, since the block may change what it reads."""
        self.settle()
        label = self.new({"loop": "again", "block": "after", "if": "done"}[kind])
        result = Value(f"{label}_value", results[0], is_name=True) if results else None
        if result:
            self.variables.append(result)
        block = Block(kind, label, result, len(self.stack), self.state, [], self.at)
        self.blocks.append(block)
        return block

    def on_block(self, results: list[str]) -> None:
        self.enter("block", results)
        if len(self.blocks) <= MOST_BRACES:
            self.emit("{")

    def on_loop(self, results: list[str]) -> None:
        lost = self.lost.get(self.at, set())
        known = {local: UNKNOWN if local in lost else below for local, below in self.state.locals.items()}
        self.state = self.state._replace(locals=known | {local: UNKNOWN for local in lost})
        block = self.enter("loop", results)
        self.emit(f"{block.label}: for (;;) {{")

    def begin_again(self, block: Block) -> None:
        """Notes which locals are other pointers now than when the loop began."""
        met = self.met([block.state, self.state]).locals
        lost = {local for local, below in met.items() if below == UNKNOWN != block.state.locals.get(local)}
        self.lost[block.at] = self.lost.get(block.at, set()) | lost

    def on_if_(self, results: list[str]) -> None:
        [condition] = self.pop(1)
        condition = self.settled(condition) if len(condition.text) > LONGEST else condition
        self.enter("if", results)
        self.emit(f"if ({bare(condition.text)}) {{")

    def hand_over(self, block: Block) -> None:
        """Gives the block's variable what stands uppermost, where the block's end is reached."""
        block.states.append(self.state)
        if block.result:
            self.emit(f"{block.result.text} = {bare(self.stack[-1].text)};")

    def on_else_(self) -> None:
        block = self.blocks[-1]
        if self.is_live:
            self.hand_over(block)
        del self.stack[block.height :]
        self.emit("} else {")
        block.kind, self.state, self.is_live = "else", block.state, True

    def on_end(self) -> None:
        block = self.blocks[-1]
        if block.kind == "function":
            if self.is_live:
                self.emit(self.leave())
            return
        if self.is_live:
            self.hand_over(block)
            if block.kind == "loop":
                self.emit("break;")
        if block.kind == "if":
            block.states.append(block.state)
        del self.stack[block.height :]
        if block.kind != "block" or len(self.blocks) <= MOST_BRACES:
            self.emit("}")
        self.blocks.pop()
        self.is_live = bool(block.states)
        if block.label in self.jumped_to and block.kind != "loop":
            self.emit(f"{block.label}:;")
        if self.is_live:
            self.state = self.met(block.states)
        if block.result:
            self.stack.append(block.result)

    def met(self, states: list[State]) -> State:
        """What holds whichever of these it was."""
        if len({it.pointer for it in states}) > 1:
            refuse(f"{self.name()} moves the stack in one of two ways")
        known = {}
        for local in set().union(*(it.locals for it in states)):
            told = {it.locals.get(local, UNKNOWN) for it in states}
            known[local] = told.pop() if len(told) == 1 else UNKNOWN
        return State(states[0].pointer, known)

    def leave(self) -> str:
        if self.state.pointer != 0:
            refuse(f"{self.name()} does not give its frame back")
        return f"return {bare(self.stack[-1].text)};" if self.type.results else "return;"

    def jump(self, depth: int) -> str:
        """The statements that leave to that block, of values that stand there already."""
        block = self.blocks[-1 - depth]
        if block.kind == "function":
            return self.leave()
        if block.kind == "loop":
            self.begin_again(block)
            # The innermost loop begins again by a word of C.
            if not any(it.kind == "loop" for it in self.blocks[len(self.blocks) - depth :]):
                return "continue;"
        else:
            block.states.append(self.state)
        self.jumped_to.add(block.label)
        given = f"{block.result.text} = {bare(self.stack[-1].text)}; " if block.result and block.kind != "loop" else ""
        return f"{given}goto {block.label};"

    def on_br(self, depth: int) -> None:
        self.emit(self.jump(depth))
        self.is_live = False

    def on_br_if(self, depth: int) -> None:
        [condition] = self.pop(1)
        number = number_of(condition)
        if number == 0:
            return
        if number is not None:
            self.on_br(depth)
            return
        jump = self.jump(depth)
        self.emit(f"if ({bare(condition.text)}) {{ {jump} }}" if jump.count(";") > 1 else f"if ({bare(condition.text)}) {jump}")

    def on_br_table(self, depths: list[int], otherwise: int) -> None:
        [place] = self.pop(1)
        if any(self.blocks[-1 - depth].result for depth in [*depths, otherwise]):
            refuse(f"{self.name()} hands a value over by a table")
        self.emit(f"switch ({bare(place.text)}) {{")
        for depth in sorted(set(depths) - {otherwise}):
            cases = " ".join(f"case {at}:" for at, it in enumerate(depths) if it == depth)
            self.emit(f"{cases} {self.jump(depth)}")
        self.emit(f"default: {self.jump(otherwise)}")
        self.emit("}")
        self.is_live = False

    def on_return_(self) -> None:
        self.emit(self.leave())
        self.is_live = False
