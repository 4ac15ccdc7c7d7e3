"""Scripts, read by the rules of docs/LANGUAGE.md alone: their sections, or the first line with a fault and its lowest kind."""
import re
from typing import NamedTuple

MOST_BYTES, MOST_LINE, MOST_SESSIONS, MOST_STATEMENTS, MOST_ITEMS = 1 << 24, 1 << 16, 16, 100000, 200000
NAME = re.compile(rb"[a-z_][a-z0-9_]{0,31}")
RESERVED = {b"setup", b"fetch", b"install", b"work", b"mark", b"clean", b"force"} | {b"w%d" % worker for worker in range(1, 9)}
SETUP, SESSION, ORDER = b"@setup", b"@session", b"@order"


class ScriptFault(Exception):
    """A line's number and the kind of its fault."""

    def __init__(self, line, kind):
        super().__init__("script fault %d at line %d" % (kind, line))
        self.line, self.kind = line, kind


class Program(NamedTuple):
    """A script's sections: the setup's lines, each session's by its name, and the items of the order, each a tuple of its words."""

    setup: list
    sessions: dict
    order: list


def read_script(script):
    """Reads a script, of bytes."""
    if len(script) > MOST_BYTES:
        raise ScriptFault(0, 2)
    reader = Reader()
    lines = script.split(b"\n")
    if lines[-1] == b"":
        lines.pop()
    for number, line in enumerate(lines, 1):
        kind = reader.take(line[:-1] if line.endswith(b"\r") else line)
        if kind:
            raise ScriptFault(number, kind)
    return Program(reader.setup, reader.sessions, reader.order)


class Reader:
    """Takes one line after another. `section` is where a statement goes: a list, or none where there is no place for one."""

    def __init__(self):
        self.setup, self.sessions, self.order = [], {}, []
        self.section, self.has_setup, self.has_order = None, False, False
        self.statements, self.turns = 0, {}

    def take(self, line):
        """The lowest kind of fault of a line, none where it has none."""
        try:
            line.decode("utf-8")
        except UnicodeDecodeError:
            return 1
        if len(line) > MOST_LINE:
            return 3
        bare = line.strip(b" \t")
        if not bare or bare.startswith(b"--"):
            return None
        if not bare.startswith(b"@"):
            return self.statement(line)
        word, *rest = [it for it in re.split(rb"[ \t]", bare.lower()) if it]
        takes = {SETUP: 0, SESSION: 1, ORDER: len(rest)}
        if word not in takes or len(rest) > takes[word]:
            return 4
        return {SETUP: self.begin_setup, SESSION: self.begin_session, ORDER: self.items}[word](rest)

    def statement(self, line):
        if self.section is None:
            return 5
        if self.statements == MOST_STATEMENTS:
            return 9
        self.statements += 1
        self.section.append(line)
        return None

    def begin_setup(self, rest):
        if self.has_setup or self.sessions or self.has_order:
            return 5
        self.has_setup, self.section = True, self.setup
        return None

    def begin_session(self, rest):
        if self.has_order:
            return 5
        name = rest[0] if rest else b""
        if not NAME.fullmatch(name) or name in RESERVED:
            return 6
        if name.decode() in self.sessions:
            return 7
        if len(self.sessions) == MOST_SESSIONS:
            return 8
        self.section = self.sessions[name.decode()] = []
        return None

    def items(self, words):
        self.has_order, self.section = True, None
        found = items_of(words)
        if found is None or any(len(it) == 1 and it[0] != "clean" and it[0] not in self.sessions for it in found):
            return 10
        for it in found:
            self.turns[it[0]] = self.turns.get(it[0], 0) + (it[0] in self.sessions)
        if any(count > len(self.sessions.get(name, ())) for name, count in self.turns.items() if count):
            return 11
        self.order += found
        return 12 if len(self.order) > MOST_ITEMS else None


def items_of(words):
    """The items of an order's words, none where one of them is no item."""
    items, left = [], list(reversed(words))
    while left:
        word, value = left.pop(), None
        if word in (b"fetch", b"install", b"work", b"mark"):
            value = left.pop() if left else b""
            if not (NAME.fullmatch(value) if word == b"mark" else re.fullmatch(rb"[1-8]", value)):
                return None
        items.append((word.decode(),) if value is None else (word.decode(), value.decode()))
    return items
