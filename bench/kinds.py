"""What is the same type, and what is a kind of what: bench/aliases.tsv and bench/kinds.tsv, a line each with its source."""
import collections
import os
import sys

HERE = os.path.dirname(os.path.abspath(__file__))
sys.path[:0] = [f"{os.path.dirname(HERE)}/tools"]
from texts import text_of


def table(name):
    """The lines of a table that stands beside this script, without their source, which is the last cell."""
    return [line.split("\t")[:-1] for line in text_of(f"bench/{name}").splitlines()]


class Types:
    """What is the same type, and what is a kind of what."""

    def __init__(self):
        self.same = dict(table("aliases.tsv"))
        self.wider = collections.defaultdict(set)
        for mime_type, wider in table("kinds.tsv"):
            self.wider[mime_type].add(wider)

    def name(self, mime_type):
        return self.same.get(mime_type.lower(), mime_type.lower())

    def kinds(self, mime_type):
        """The type, and those that it is a kind of."""
        found, new = set(), {mime_type}
        while new:
            found |= new
            new = set().union(*(self.wider[it] for it in new)) - found
        return found
