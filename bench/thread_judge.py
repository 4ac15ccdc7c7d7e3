"""Judges the transcript of a run, with threads or without: whether its lines are those of the plain machine (model_machine.py) in the order
in which they stand, and whether threads may have made them so.

A transcript is legal where each entry is the one that the machine gives for its event, each statement stands once and in its session's
order, and the setup stands before all else. With threads, each hold of the lock adds what it may and no more: a worker's step is
installed together with a clean-up behind it, an idle worker writes nothing, and nobody marks a view."""
import collections
import random
import re
from typing import NamedTuple

from model_machine import SETUP, Machine, Settings, Stop, transcript

WORKER_LINE = re.compile(r"w([0-9]+) (fetch|idle|busy|install|moved|empty|release)\b")
STATEMENT_LINE = re.compile(r"([a-z_][a-z0-9_]*) ([0-9]+) (ok|begin|commit|rollback|rows|tasks|fault)\b")
MARK_LINE = re.compile(r"mark ([a-z_][a-z0-9_]*) ")
MOST_WORKERS = 8
CALLS = {"fetch": "fetch", "idle": "fetch", "busy": "fetch", "install": "install", "moved": "install", "empty": "install", "release": "release"}


class Illegal(Exception):
    """The first line that can't stand where it does, from 1, and why."""

    def __init__(self, line, why):
        super().__init__("line %d: %s" % (line, why))
        self.line = line


class Words(NamedTuple):
    """What the words of a run say of its transcript."""

    threads: bool
    workers: int
    turns: int
    settings: Settings


def read_words(words):
    """Reads words that are not refused. A value follows `=`, or is the next word."""
    values, left = {}, list(words)
    while left:
        name, has_value, value = left.pop(0).partition("=")
        values[name] = value if has_value or name == "--threads" else left.pop(0)
    number = lambda name, usual: int(values.get(name, usual))
    settings = Settings(number("--combine", 16), number("--log-limit", 1 << 30), values.get("--policy", "oldest"))
    return Words("--threads" in values, number("--workers", 2), number("--turns", 10000), settings)


class Holds:
    """What threads add: at each entry, whether a hold of the lock may have added it behind those before."""

    def __init__(self, words):
        self.words = words
        self.owes_clean = False
        self.turns = collections.Counter()

    def check(self, kind, worker):
        """Refuses an entry of a kind of line, and of a worker where it has one."""
        if self.owes_clean != (kind == "clean"):
            raise Stop("a clean-up stands right behind each installed step" if self.owes_clean else "no thread cleans up by itself")
        self.owes_clean = kind == "install"
        if kind in ("idle", "busy", "empty", "mark"):
            raise Stop("no thread adds this line")
        if worker and worker > self.words.workers:
            raise Stop("there are %d workers" % self.words.workers)
        self.turns[worker] += worker is not None and kind == "fetch"
        if worker and self.turns[worker] > self.words.turns:
            raise Stop("worker %d has had its %d turns" % (worker, self.words.turns))

    def check_end(self, machine):
        if self.owes_clean:
            raise Stop("a clean-up stands right behind each installed step")
        for worker in machine.claims:
            raise Stop("worker %d never came back with its step" % worker)


class Verdict(NamedTuple):
    """What a legal transcript has: its entries by their kind, and how often a session's statement follows another session's."""

    counts: collections.Counter
    switches: int


def lines_of(text):
    """The lines of a transcript, each of which ends with a line feed."""
    lines = text.decode("utf-8").split("\n")
    if lines.pop() != "":
        raise Illegal(len(lines) + 1, "the line has no end")
    return lines


def event_of(lines, at):
    """The kind of the entry that begins at a line, and whose it is: a session, a worker, or a mark's view. Lines of force are a session's."""
    front = at
    while front < len(lines) and lines[front].startswith("force "):
        front += 1
    line = lines[front] if front < len(lines) else ""
    statement, worker, mark = STATEMENT_LINE.match(line), WORKER_LINE.match(line), MARK_LINE.match(line)
    if statement and not worker:
        return "turn", statement[1]
    if front == at and worker:
        return worker[2], int(worker[1])
    if front == at and mark:
        return "mark", mark[1]
    if front == at and line.startswith("clean "):
        return "clean", None
    raise Stop("no entry has this line: %s" % line)


def given(machine, kind, whose):
    """The lines that the machine gives for an event."""
    if kind == "turn":
        if whose not in machine.sessions:
            raise Stop("there is no session %s" % whose)
        if whose != SETUP and machine.left(SETUP):
            raise Stop("the setup is not answered")
        return machine.turn(whose)
    if machine.left(SETUP):
        raise Stop("the setup is not answered")
    if kind in CALLS and not 1 <= whose <= MOST_WORKERS:
        raise Stop("there is no worker %d" % whose)
    if kind in CALLS:
        return getattr(machine, CALLS[kind])(whose)
    return machine.clean() if kind == "clean" else machine.mark(whose)


def judge(machine, words, text):
    """Takes a machine through a transcript, to its end. Raises Illegal at the first line that can't stand there."""
    lines, at, holds = lines_of(text), 0, Holds(words)
    counts, switches, before = collections.Counter(), 0, None
    try:
        while at < len(lines):
            kind, whose = event_of(lines, at)
            if words.threads and (kind, whose) != ("turn", SETUP):
                holds.check(kind, whose if kind in CALLS else None)
            wanted = given(machine, kind, whose)
            compare(lines, at, wanted)
            at += len(wanted)
            counts[kind] += 1
            counts["force"] += sum(line.startswith("force ") for line in wanted)
            counts["conflict"] += kind == "turn" and " fault 15 " in wanted[-1]
            switches += kind == "turn" and before not in (None, SETUP, whose)
            before = whose if kind == "turn" else before
        holds.check_end(machine)
        for session in machine.sessions:
            if machine.left(session):
                raise Stop("session %s has statements that are not answered" % session)
    except Stop as stop:
        raise Illegal(at + 1, str(stop)) from None
    return Verdict(counts, switches)


def compare(lines, at, wanted):
    """Holds the lines from a place on against those that the machine gives."""
    for place, line in enumerate(wanted, at):
        if place >= len(lines) or lines[place] != line:
            raise Illegal(place + 1, "%s, and not %s" % (lines[place] if place < len(lines) else "nothing", line))


def judge_fixed(machine, text):
    """Holds the transcript of a run without threads against the only one that it can have."""
    lines, wanted = lines_of(text), transcript(machine)
    compare(lines, 0, wanted)
    if len(lines) > len(wanted):
        raise Illegal(len(wanted) + 1, "%s, and not nothing" % lines[len(wanted)])


# Transcripts that threads may leave, made by the machine itself: what the judge is tried on


def simulated(program, words, random_):
    """A legal transcript of a run with threads, in some order."""
    machine, lines, turns = Machine(program, words.settings), [], collections.Counter()
    while machine.left(SETUP):
        lines += machine.turn(SETUP)
    while True:
        sessions = [name for name in program.sessions if machine.left(name)]
        workers = [it for it in range(1, words.workers + 1) if it in machine.claims or turns[it] < words.turns]
        actors = sessions + [it for it in workers if it in machine.claims or has_work(machine)]
        if not actors:
            return lines
        actor = random_.choice(actors)
        if actor in sessions:
            lines += machine.turn(actor)
        elif actor in machine.claims:
            installed = machine.install(actor)
            lines += installed + (machine.clean() if " install " in installed[0] else [])
        else:
            turns[actor] += 1
            lines += machine.fetch(actor)


def has_work(machine):
    claimed = [view for view, _, _ in machine.claims.values()]
    return any(machine.waiting(view, machine.last) for view in range(len(machine.points)) if view not in claimed)


# Ways to tamper with a transcript: each gives lines that are no longer legal, or nothing where it has no place in these


def some(random_, places):
    """One of these places, none where there is none."""
    places = list(places)
    return random_.choice(places) if places else None


def changed(pattern, change):
    """Changes one of the lines that a pattern fits, by what it found."""

    def tamper(random_, lines):
        at = some(random_, (at for at, line in enumerate(lines) if re.search(pattern, line)))
        if at is None:
            return None
        return lines[:at] + [re.sub(pattern, change, lines[at], count=1)] + lines[at + 1 :]

    return tamper


def lost(pattern):
    """Loses one of the lines that a pattern fits."""

    def tamper(random_, lines):
        at = some(random_, (at for at, line in enumerate(lines) if re.search(pattern, line)))
        return None if at is None else lines[:at] + lines[at + 1 :]

    return tamper


def twice(pattern):
    """Writes one of the lines that a pattern fits twice."""

    def tamper(random_, lines):
        at = some(random_, (at for at, line in enumerate(lines) if re.search(pattern, line)))
        return None if at is None else lines[: at + 1] + lines[at:]

    return tamper


def added(line):
    """Adds a line at the end."""
    return lambda random_, lines: lines + [line]


def entry_bounds(lines):
    """The entries of sessions but the setup: whose each is, and from where to where it goes."""
    found, begin = [], 0
    for at, line in enumerate(lines):
        statement = STATEMENT_LINE.match(line)
        if not line.startswith(("| ", "force ")):
            end = at + 1
            while end < len(lines) and lines[end].startswith("| "):
                end += 1
            if statement and statement[1] != SETUP:
                found.append((statement[1], begin, end))
            begin = end
    return found


def lost_statement(random_, lines):
    entry = some(random_, entry_bounds(lines))
    return None if entry is None else lines[: entry[1]] + lines[entry[2] :]


def statement_twice(random_, lines):
    entry = some(random_, entry_bounds(lines))
    return None if entry is None else lines[: entry[2]] + lines[entry[1] : entry[2]] + lines[entry[2] :]


def exchanged(fits):
    """Exchanges two entries of sessions of which one follows the other at once."""

    def tamper(random_, lines):
        entries = entry_bounds(lines)
        pairs = [(one, other) for one, other in zip(entries, entries[1:]) if one[2] == other[1] and fits(one, other, lines)]
        pair = some(random_, pairs)
        if pair is None:
            return None
        (_, begin, middle), (_, _, end) = pair
        return lines[:begin] + lines[middle:end] + lines[begin:middle] + lines[end:]

    return tamper


def of_one_session(one, other, lines):
    return one[0] == other[0]


def of_two_commits(one, other, lines):
    has_number = lambda entry: re.search(r"^[a-p] [0-9]+ (ok [0-9]+ )?commit [0-9]+$", lines[entry[2] - 1])
    return one[0] != other[0] and has_number(one) and has_number(other)


def before_the_setup(random_, lines):
    """The first entry behind the setup stands before its last line."""
    last = max((at for at, line in enumerate(lines) if line.startswith("setup ")), default=None)
    first = next((entry for entry in entry_bounds(lines)), None)
    if last is None or first is None or lines[last + 1 : first[1]]:
        return None
    return lines[:last] + lines[first[1] : first[2]] + lines[last:first[1]] + lines[first[2] :]


def late_fetch(random_, lines):
    """A fetch stands behind what its worker does next."""
    fetches = [at for at, line in enumerate(lines[:-1]) if " fetch " in line and WORKER_LINE.match(line)]
    at = some(random_, fetches)
    if at is None:
        return None
    worker = lines[at].split()[0] + " "
    next_ = next((it for it in range(at + 1, len(lines)) if lines[it].startswith(worker)), None)
    return None if next_ is None else lines[:at] + lines[at + 1 : next_ + 1] + [lines[at]] + lines[next_ + 1 :]


def cut(random_, lines):
    return lines[:-1] if lines else None


def older_snapshot(random_, lines):
    """A query's rows are those that an earlier query of the same statement saw."""
    heads = [(at, line) for at, line in enumerate(lines) if " rows " in line]
    pairs = [(one, other) for (one, _), (other, _) in zip(heads, heads[1:]) if lines[one].split()[2:] != lines[other].split()[2:]]
    pair = some(random_, pairs)
    if pair is None:
        return None
    rows = lambda at: int(lines[at].split()[-1])
    one, other = pair
    head = " ".join(lines[other].split()[:2] + ["rows %d" % rows(one)])
    return lines[:other] + [head] + lines[one + 1 : one + 1 + rows(one)] + lines[other + 1 + rows(other) :]


def one_more(found):
    return "%s%d" % (found[1], int(found[2]) + 1)


TAMPERS = {
    "a lost clean-up": lost(r"^clean "),
    "a clean-up of its own": twice(r"^clean "),
    "a clean-up at another floor": changed(r"^(clean )([0-9]+)", one_more),
    "a clean-up with other versions": changed(r"^(clean .* versions )([0-9]+)", one_more),
    "a clean-up with other deltas": changed(r"^(clean .* deltas )([0-9]+)", one_more),
    "an idle line": added("w1 idle"),
    "an empty line of a worker": added("w1 empty"),
    "a mark": added("mark lines none"),
    "a mark of no view": added("mark x unknown"),
    "a mark of the setup": added("mark setup unknown"),
    "a line of nobody": added("done"),
    "a blank line": added(""),
    "a release without a step": added("w1 release"),
    "a step forced too far": changed(r"^(force .* )([0-9]+)$", one_more),
    "a step forced from another point": changed(r"^(force [a-z_]+ )([0-9]+)", one_more),
    "a lost force line": lost(r"^force "),
    "a step forced twice": twice(r"^force "),
    "a changed value": changed(r"^(\| (?:.* )?)([0-9]+)$", one_more),
    "a lost row": lost(r"^\| "),
    "a row twice": twice(r"^\| "),
    "another number of rows": changed(r"( rows )([0-9]+)$", one_more),
    "another commit number": changed(r"( commit )([0-9]+)$", one_more),
    "another snapshot": changed(r"( begin )([0-9]+)$", one_more),
    "another number of changed rows": changed(r"( ok )([0-9]+)", one_more),
    "a leading zero": changed(r"^([a-p] )([0-9]+)", lambda found: found[1] + "0" + found[2]),
    "another place": changed(r"^([a-p] )([0-9]+)", one_more),
    "a conflict that commits": changed(r"fault 15 .*", "commit 1"),
    "a commit that conflicts": changed(r"^([a-p] [0-9]+) commit [0-9]+$", r"\1 fault 15 write conflict sale (1) commit 1"),
    "a conflict with another commit": changed(r"( fault 15 .* commit )([0-9]+)$", one_more),
    "a store fault": changed(r"^([a-p] [0-9]+) commit [0-9]+$", r"\1 fault 17 store fault"),
    "a statement that is lost": lost_statement,
    "a statement answered twice": statement_twice,
    "two statements of a session exchanged": exchanged(of_one_session),
    "two commits exchanged": exchanged(of_two_commits),
    "a session before the setup": before_the_setup,
    "a setup that is cut": lost(r"^setup "),
    "a fetch behind its install": late_fetch,
    "a lost fetch": lost(r"^w[1-8] fetch "),
    "a lost install": lost(r"^w[1-8] (install|moved) "),
    "a fetch by two workers": twice(r"^w[1-8] fetch "),
    "a fetch that goes too far": changed(r"^(w[1-8] fetch .* )([0-9]+)$", one_more),
    "a fetch of another view": changed(r"^(w[1-8] fetch) [a-z_]+", r"\1 nothing"),
    "a worker that is not there": changed(r"^w[1-8] fetch", "w9 fetch"),
    "an installed step that came too late": changed(r"^(w[1-8]) moved (.*) at [0-9]+$", r"\1 install \2"),
    "a step too late that came in time": changed(r"^(w[1-8]) install (.*)$", r"\1 moved \2 at 1"),
    "moved to another point": changed(r"^(w[1-8] moved .* at )([0-9]+)$", one_more),
    "the rows of an older query": older_snapshot,
    "a cut": cut,
}


def text_of(lines):
    return "".join(line + "\n" for line in lines).encode()


def refuses(machine, words, lines):
    """Whether the judge refuses these lines."""
    try:
        judge(machine, words, text_of(lines))
    except Illegal:
        return True
    return False


def selfcheck(plans, seed):
    """Tries the judge on transcripts of the machine's own: each has to be legal as it is, and none tampered with. Gives what is wrong,
    and how many transcripts were tampered with in each way."""
    wrong, tried, random_ = [], collections.Counter(), random.Random(seed)
    for number, (program, words) in enumerate(plans):
        lines = simulated(program, words, random_)
        try:
            judge(Machine(program, words.settings), words, text_of(lines))
        except Illegal as illegal:
            wrong.append("script %d: a legal transcript is refused: %s" % (number, illegal))
            continue
        if not refuses(Machine(program, words.settings), words, lines + ["x" * 3]):
            wrong.append("script %d: a line too many is not refused" % number)
        for name, tamper in TAMPERS.items():
            other = tamper(random_, lines)
            if other is None or other == lines:
                continue
            tried[name] += 1
            if not refuses(Machine(program, words.settings), words, other):
                wrong.append("script %d: %s is not refused" % (number, name))
    wrong += ["no transcript has a place for %s" % name for name in TAMPERS if not tried[name]]
    return wrong, tried
