"""Reads the terms of a definition, such as `row App (codes "a/b") (codes "c") None (at_least 2 (text 0 (codes "MZ") ∷ []) ∷ [])`:
names with what they take, lists, texts and numbers."""
import re
from typing import NamedTuple

TOKEN = re.compile(r'\s*(?P<told>"[^"]*"|∷|\+\+|\[\]|[()]|0x[0-9A-F]+|\d+|[\w.]+)\s*')
# What ends a name's list of what it takes.
ENDS = ("", ")", "∷", "++")


class Call(NamedTuple):
    """A name with what it takes, without the module and the underscores of the name."""

    name: str
    takes: tuple = ()


class Unread(Exception):
    """What stands where no term can, and in which line of the text, counted from 0."""


class Reader:
    def __init__(self, text):
        self.text, self.at = text, 0

    def peek(self):
        """The next token, or nothing at the end."""
        found = TOKEN.match(self.text, self.at)
        if not found and self.at < len(self.text):
            raise Unread(self.text[self.at :].split("\n")[0])
        return found["told"] if found else ""

    def take(self, wanted=None):
        token = self.peek()
        if token == "" or wanted not in (None, token):
            raise Unread(self.text[self.at :].split("\n")[0] or "the end")
        self.at = TOKEN.match(self.text, self.at).end()
        return token

    def term(self):
        """A name with what it takes, or a list of such."""
        left = self.applied()
        if self.peek() == "∷":
            self.take()
            return (left, *self.rest())
        if self.peek() == "++":
            self.take()
            return (*left, *self.rest())
        return left

    def rest(self):
        begun, found = self.text[self.at :].split("\n")[0], self.term()
        if isinstance(found, (Call, int)):
            raise Unread(f"{begun} (a list ends in [])")
        return found

    def applied(self):
        if not re.match(r"[^\W\d]", self.peek()):
            return self.atom()
        name, takes = self.take(), []
        while self.peek() not in ENDS:
            takes.append(self.atom())
        if name == "codes":
            if len(takes) != 1 or not isinstance(takes[0], tuple):
                raise Unread("codes, which takes a text")
            return takes[0]
        return Call(name.rpartition(".")[2].replace("_", ""), tuple(takes))

    def atom(self):
        token = self.take()
        if token == "(":
            inside = self.term()
            self.take(")")
            return inside
        if token == "[]":
            return ()
        if token.startswith('"'):
            if not re.fullmatch(r'[ !#-\[\]-~]*', token[1:-1]):
                raise Unread(f"{token}, which has another byte than those from 20 to 7E, or an escape")
            return tuple(token[1:-1].encode())
        if re.fullmatch(r"0x[0-9A-F]+|\d+", token):
            return int(token, 0)
        if token in ENDS:
            raise Unread(token)
        # A constant has its underscores, and a name none.
        return Call(token if token.isupper() else token.replace("_", ""))


def term_of(text):
    """The term that the text is, and nothing else."""
    reader = Reader(text)
    try:
        found = reader.term()
        if reader.peek():
            raise Unread(reader.peek())
    except Unread as fault:
        raise Unread(fault.args[0], text.count("\n", 0, reader.at)) from fault
    return found
