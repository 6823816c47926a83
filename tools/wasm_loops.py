"""Makes fewer steps of a loop that looks at each byte of so many. The compiler of the module makes such a loop where others make one
of vectors: it ors together whether each byte is another one, or finds the least. Each is read whatever was found before."""
from __future__ import annotations

import dataclasses
import re
from typing import Union

LOAD = r"\(u32\)load8\({at}(?: \+ UINT64_C\((\d+)\))?\)"
BEGIN, END = "for (;;) {", ["break;", "}"]
MOST_LINES = 24
GIVEN = re.compile(r"(?:const u\d+ )?([lt]\d+) = ([^;]*);")
# A byte, by its place in a round and what it is less by; or a local, as it was before the round.
Part = Union[tuple[int, int], str]


@dataclasses.dataclass(frozen=True)
class Loop:
    """A loop over so many bytes from a base on, so many in a round. Its index begins at zero, and `at` is their sum. What the locals
    are before the loop, the lines of a round, and of all but the index and `at` what they get there, in order."""

    at: str
    base: str
    index: str
    count: int
    size: int
    begun: dict[str, str]
    body: list[str]
    given: list[tuple[str, str]]


def begun(before: list[str]) -> dict[str, str]:
    """What the lines before give to locals, as far back as none of them is reached from elsewhere."""
    given: dict[str, str] = {}
    for line in reversed(before):
        if not (found := GIVEN.fullmatch(line)):
            break
        given.setdefault(found[1], found[2])
    return given


def loop_of(before: list[str], body: list[str]) -> Loop | None:
    """The loop whose body these lines are, after those, or nothing if it is another."""
    last = re.fullmatch(r"if \((l\d+) != UINT64_C\((\d+)\)\) continue;", body[-1])
    step = re.fullmatch(r"(l\d+) = \1 \+ UINT64_C\((\d+)\);", body[-2])
    lines = [(found[1], found[2]) for line in body[:-2] if (found := GIVEN.fullmatch(line))]
    if not last or not step or last[1] != step[1] or len(lines) < len(body) - 2:
        return None
    index, count, size, given_before = step[1], int(step[2]), int(last[2]), begun(before)
    place = next((it for it, (_, text) in enumerate(lines) if re.fullmatch(rf"l\d+ \+ {index}", text)), None)
    if place is None or given_before.get(index) != "UINT64_C(0)" or size % count:
        return None
    (at, text), given = lines[place], lines[:place] + lines[place + 1 :]
    base = text.split()[0]
    # None of the three is another, or changes otherwise; the sum is not read before it is made; and what is called may do more.
    changed, early = {name for name, _ in given}, " ".join(text for _, text in lines[:place])
    is_other = len({at, base, index}) < 3 or {at, base, index} & changed or re.search(rf"\b{at}\b", early)
    if is_other or not given or any(re.search(r"\b(f|by_table)_", text) for _, text in given):
        return None
    return Loop(at, base, index, count, size, given_before, body, given)


def expression(lines: list[tuple[str, str]], name: str) -> str:
    """What the variable gets, by the lines that give it a value once, with that of the temporaries that stand in it."""
    given = dict(lines)
    text = given.get(name, "")
    while found := re.search(r"\bt\d+\b", text):
        if found[0] not in given:
            return ""
        text = text.replace(found[0], f"({given[found[0]]})")
    return text


def searched(loop: Loop) -> list[str] | None:
    """The lines in place of a loop that ors together whether a byte is among so many. Nothing if it is any other loop."""
    at, told = loop.at, loop.given[-1][0]
    text, is_byte = expression(loop.given, told), rf"\(u32\)\({LOAD.format(at=at)} == (\d+)u\)"
    loads = re.findall(is_byte, text)
    offsets, bytes_ = [int(offset or 0) for offset, _ in loads], {int(byte) for _, byte in loads}
    rest = re.sub(r"[()]", "", re.sub(is_byte, "@", text))
    is_such = len(bytes_) == 1 and rest == " | ".join([told, *"@" * loop.count]) and offsets == list(range(offsets[0], offsets[0] + loop.count))
    if not is_such or max(bytes_) > 0xFF or sum(name.startswith("l") for name, _ in loop.given) != 1:
        return None
    [byte] = bytes_
    line = f"{told} = {told} | has_byte({loop.base} + UINT64_C({offsets[0]}), {loop.size}, {byte}u);"
    return [line, f"{at} = {loop.base} + UINT64_C({loop.size - loop.count});", f"{loop.index} = UINT64_C({loop.size});"]


def parts(text: str, at: str, known: dict[str, frozenset[Part]]) -> frozenset[Part] | None:
    """Of what the expression is the least, if it is that of bytes and of locals, none of which is more than a byte."""
    def of(name: str) -> frozenset[Part]:
        return known.get(name, frozenset([name]))

    if found := re.fullmatch(LOAD.format(at=at), text):
        return frozenset([(int(found[1] or 0), 0)])
    if found := re.fullmatch(r"([lt]\d+) & 255u", text):
        return of(found[1])
    if found := re.fullmatch(r"\(([lt]\d+) < ([lt]\d+)\) \? \1 : \2", text):
        return of(found[1]) | of(found[2])
    found = re.fullmatch(r"\(([lt]\d+) - (\d+)u\) & 255u", text)
    [only, *others] = of(found[1]) if found else [""]
    return frozenset([(only[0], int(found[2]))]) if found and not others and isinstance(only, tuple) and only[1] == 0 else None


def least(loop: Loop) -> list[str] | None:
    """The lines in place of a loop that finds the least of so many bytes, or of each less a number. Nothing if it is any other loop.
    Its last round stays, for what it leaves in other locals."""
    known: dict[str, frozenset[Part]] = {}
    for name, text in loop.given:
        if (found := parts(text, loop.at, known)) is None:
            return None
        known[name] = found
    # What a round takes of the one before.
    kept = sorted({it for its in known.values() for it in its if isinstance(it, str)})
    lines, rest = [], loop.size - loop.count
    for name in kept:
        less = next((it[1] for it in known.get(name, ()) if isinstance(it, tuple)), 0)
        begins = re.fullmatch(r"(\d+)u", loop.begun.get(name, ""))
        wanted: set[Part] = {name, *((place, less) for place in range(loop.count))}
        if {*known.get(name, ())} != wanted or not begins or int(begins[1]) > 0xFF:
            return None
        lines.append(f"{name} = least_byte({loop.base}, {rest}, {less}, {name});")
    return [*lines, f"{loop.index} = UINT64_C({rest});", *loop.body[:-1]] if lines else None


def by_words(lines: list[str]) -> list[str]:
    """The lines of a function, with fewer steps in place of each such loop."""
    kept: list[str] = []
    at = 0
    while at < len(lines):
        body = lines[at + 1 : at + 1 + MOST_LINES] if lines[at] == BEGIN else []
        end = next((it for it in range(3, len(body) - 1) if body[it : it + 2] == END), 0)
        loop = loop_of(kept, body[:end]) if end else None
        instead = searched(loop) or least(loop) if loop else None
        if instead:
            kept += instead
            at += end + 3
        else:
            kept.append(lines[at])
            at += 1
    return kept
