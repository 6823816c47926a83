"""Reads a module of WebAssembly with a 64-bit memory: its sections, and each function as a list of instructions. What it does
not know, or what a C file without a memory of its own cannot have, is an error."""
from __future__ import annotations

import sys
from collections.abc import Callable
from typing import Any, NamedTuple, NoReturn

MAGIC = b"\0asm\1\0\0\0"
TYPES = {0x7F: "u32", 0x7E: "u64"}
FUNCTION_TYPE, EMPTY_BLOCK, FUNCTION = 0x60, 0x40, 0
# The bits of the limits of a memory.
HAS_MAXIMUM, IS_64_BIT = 1, 4


def refuse(why: str) -> NoReturn:
    sys.exit(f"wasm_to_c: {why}")


class Instruction(NamedTuple):
    name: str
    operands: tuple[Any, ...] = ()


class FunctionType(NamedTuple):
    params: list[str]
    results: list[str]


class Global(NamedTuple):
    is_written: bool
    start: int


class Reader:
    """Reads numbers, texts and lists from bytes."""

    def __init__(self, data: bytes) -> None:
        self.data, self.at = data, 0

    def is_at_end(self) -> bool:
        return self.at >= len(self.data)

    def byte(self) -> int:
        if self.is_at_end():
            refuse("the module ends in the middle")
        self.at += 1
        return self.data[self.at - 1]

    def groups(self) -> tuple[int, int, int]:
        """A number of LEB128 without its sign, how many bits it has, and its last byte."""
        value, bits, last = 0, 0, 0x80
        while last >= 0x80:
            last = self.byte()
            value |= (last & 0x7F) << bits
            bits += 7
        return value, bits, last

    def unsigned(self) -> int:
        return self.groups()[0]

    def signed(self) -> int:
        value, bits, last = self.groups()
        return value - (1 << bits) if last & 0x40 else value

    def bytes(self) -> bytes:
        size = self.unsigned()
        self.at += size
        if self.at > len(self.data):
            refuse("the module ends in the middle")
        return self.data[self.at - size : self.at]

    def text(self) -> str:
        return self.bytes().decode()

    def list(self, read: Callable[[], Any]) -> list[Any]:
        return [read() for _ in range(self.unsigned())]

    def type(self) -> str:
        code = self.byte()
        return TYPES.get(code) or refuse(f"a value of the type {code:#x}")

    def only(self, wanted: int, what: str) -> None:
        if self.unsigned() != wanted:
            refuse(what)


# The instructions by their codes: the name, and what is read behind the code: "u" and "s" a number without and with a sign, "m"
# the alignment and the offset of an access, "b" the type of a block, "t" the places of a jump by a table.
CODES: dict[int, tuple[str, str]] = {
    0x00: ("unreachable", ""), 0x01: ("nop", ""), 0x02: ("block", "b"), 0x03: ("loop", "b"), 0x04: ("if", "b"), 0x05: ("else", ""), 0x0B: ("end", ""),
    0x0C: ("br", "u"), 0x0D: ("br_if", "u"), 0x0E: ("br_table", "tu"), 0x0F: ("return", ""), 0x10: ("call", "u"), 0x11: ("call_indirect", "uu"),
    0x1A: ("drop", ""), 0x1B: ("select", ""), 0x20: ("local.get", "u"), 0x21: ("local.set", "u"), 0x22: ("local.tee", "u"), 0x23: ("global.get", "u"),
    0x24: ("global.set", "u"), 0x41: ("u32.const", "s"), 0x42: ("u64.const", "s"), 0xA7: ("u32.wrap", ""), 0xAC: ("u64.extend_s", ""), 0xAD: ("u64.extend_u", ""),
    0xC0: ("u32.extend8_s", ""), 0xC1: ("u32.extend16_s", ""), 0xC2: ("u64.extend8_s", ""), 0xC3: ("u64.extend16_s", ""), 0xC4: ("u64.extend32_s", ""),
}
BULK_CODE = 0xFC
BULK_CODES = {10: ("memory.copy", "uu"), 11: ("memory.fill", "u")}
COMPARISONS = "eqz eq ne lt_s lt_u gt_s gt_u le_s le_u ge_s ge_u".split()
ARITHMETIC = "clz ctz popcnt add sub mul div_s div_u rem_s rem_u and or xor shl shr_s shr_u rotl rotr".split()
for first, names in ((0x45, COMPARISONS), (0x67, ARITHMETIC)):
    CODES |= {first + at + more: (f"{type_}.{name}", "") for type_, more in (("u32", 0), ("u64", len(names))) for at, name in enumerate(names)}
# The type, how many bits are read, and whether they have a sign.
LOADS = {
    0x28: ("u32", 32, False), 0x29: ("u64", 64, False), 0x2C: ("u32", 8, True), 0x2D: ("u32", 8, False), 0x2E: ("u32", 16, True), 0x2F: ("u32", 16, False),
    0x30: ("u64", 8, True), 0x31: ("u64", 8, False), 0x32: ("u64", 16, True), 0x33: ("u64", 16, False), 0x34: ("u64", 32, True), 0x35: ("u64", 32, False),
}
# How many bits are written.
STORES = {0x36: 32, 0x37: 64, 0x3A: 8, 0x3B: 16, 0x3C: 8, 0x3D: 16, 0x3E: 32}


class Code(NamedTuple):
    """A function: the types of its locals, those of its parameters first, and its instructions."""

    locals: list[str]
    instructions: list[Instruction]


class Module:
    def __init__(self, data: bytes) -> None:
        if not data.startswith(MAGIC):
            refuse("no module of WebAssembly")
        self.types: list[FunctionType] = []
        self.type_of: list[int] = []
        self.globals: list[Global] = []
        self.exports: dict[str, int] = {}
        self.table: dict[int, int] = {}
        self.data: list[tuple[int, bytes]] = []
        self.names: dict[int, str] = {}
        self.bodies: list[bytes] = []
        # The number of the global that is the stack pointer.
        self.stack_pointer = -1
        known = [self.custom, self.read_types, self.imports, self.functions, self.tables, self.memories, self.read_globals, self.read_exports]
        known += [self.start, self.elements, self.code, self.read_data, self.data_count]
        reader = Reader(data[len(MAGIC) :])
        while not reader.is_at_end():
            number = reader.byte()
            if number >= len(known):
                refuse(f"a section of the number {number}")
            known[number](Reader(reader.bytes()))
        self.codes = [self.read_code(index) for index in range(len(self.bodies))]

    def custom(self, reader: Reader) -> None:
        """The names of the functions. What else is said in such a section changes nothing."""
        is_of_names = reader.text() == "name"
        while is_of_names and not reader.is_at_end():
            is_of_functions, part = reader.byte() == 1, Reader(reader.bytes())
            if is_of_functions:
                self.names = dict(part.list(lambda: (part.unsigned(), part.text())))

    def read_types(self, reader: Reader) -> None:
        def one() -> FunctionType:
            if reader.byte() != FUNCTION_TYPE:
                refuse("a type of something else than functions")
            return FunctionType(reader.list(reader.type), reader.list(reader.type))

        self.types = reader.list(one)
        if any(len(it.results) > 1 for it in self.types):
            refuse("a function with several results")

    def imports(self, reader: Reader) -> None:
        reader.only(0, "an import")

    def functions(self, reader: Reader) -> None:
        self.type_of = reader.list(reader.unsigned)

    def tables(self, reader: Reader) -> None:
        """Only the elements count."""

    def limits(self, reader: Reader) -> int:
        flags = reader.byte()
        reader.unsigned()
        if flags & HAS_MAXIMUM:
            reader.unsigned()
        return flags

    def memories(self, reader: Reader) -> None:
        if not all(flags & IS_64_BIT for flags in reader.list(lambda: self.limits(reader))):
            refuse("a memory that is no 64-bit one")

    def read_globals(self, reader: Reader) -> None:
        def one() -> Global:
            reader.type()
            return Global(reader.byte() == 1, self.constant(reader))

        self.globals = reader.list(one)

    def read_exports(self, reader: Reader) -> None:
        exports = reader.list(lambda: (reader.text(), reader.byte(), reader.unsigned()))
        self.exports = {name: index for name, kind, index in exports if kind == FUNCTION}

    def start(self, reader: Reader) -> None:
        refuse("a function that runs at the start")

    def elements(self, reader: Reader) -> None:
        def one() -> None:
            reader.only(0, "elements of another kind")
            start = self.constant(reader)
            self.table.update(enumerate(reader.list(reader.unsigned), start))

        reader.list(one)

    def code(self, reader: Reader) -> None:
        self.bodies = reader.list(reader.bytes)

    def read_data(self, reader: Reader) -> None:
        def one() -> tuple[int, bytes]:
            reader.only(0, "data of another kind")
            return self.constant(reader), reader.bytes()

        self.data = reader.list(one)

    def data_count(self, reader: Reader) -> None:
        """The data tell it too."""

    def constant(self, reader: Reader) -> int:
        first, last = self.instruction(reader), self.instruction(reader)
        if not first.name.endswith(".const") or last.name != "end":
            refuse(f"a constant by {first.name} and {last.name}")
        return first.operands[0]

    def instruction(self, reader: Reader) -> Instruction:
        code = reader.byte()
        if code in LOADS or code in STORES:
            reader.unsigned()
            name = "load" if code in LOADS else "store"
            return Instruction(name, (LOADS.get(code) or STORES[code], reader.unsigned()))
        number = reader.unsigned() if code == BULK_CODE else code
        name, operands = (BULK_CODES if code == BULK_CODE else CODES).get(number) or refuse(f"the instruction {code:#x} {number:#x}")
        read = {"u": reader.unsigned, "s": reader.signed, "t": lambda: reader.list(reader.unsigned), "b": lambda: self.block_results(reader)}
        return Instruction(name, tuple(read[it]() for it in operands))

    def block_results(self, reader: Reader) -> list[str]:
        """The types of what a block leaves."""
        if reader.data[reader.at] == EMPTY_BLOCK or reader.data[reader.at] in TYPES:
            code = reader.byte()
            return [] if code == EMPTY_BLOCK else [TYPES[code]]
        of_block = self.types[reader.signed()]
        if of_block.params:
            refuse("a block that takes values")
        return of_block.results

    def read_code(self, index: int) -> Code:
        reader = Reader(self.bodies[index])
        more = reader.list(lambda: [(count := reader.unsigned(), reader.type())])
        named = [type_ for [(count, type_)] in more for _ in range(count)]
        instructions = []
        while not reader.is_at_end():
            instructions.append(self.instruction(reader))
        return Code(self.types[self.type_of[index]].params + named, instructions)
