"""The plain machine that the program's transcripts are held against. It keeps every committed state whole, computes each view by its
definition over the state that is asked for, and keeps by hand what maintenance is about: how far each view is, which commits wait to
reach it, what workers have claimed, and how long the journal is.

A Machine answers one event after another with the lines that the transcript has to have: `turn`, `fetch`, `install`, `release`, `mark` and
`clean`. `transcript` is what a run without threads prints."""
import bisect
import functools
from typing import NamedTuple

from model_language import MOST_ROWS, Column, Comparison, Not, Query, Refused, Schema, Word
from model_language import bind, key_text, read_statement, row_line

POLICIES = ("oldest", "most", "first")
SETUP = "setup"
EMPTY_JOURNAL = 9


class Settings(NamedTuple):
    combine: int = 16
    limit: int = 1 << 30
    policy: str = "oldest"


# Sizes of records, as docs/JOURNAL.md lays them out


def name_size(name):
    return 1 + len(name)


def value_size(value):
    return 9 if isinstance(value, int) else 3 + len(value.encode())


def table_size(table):
    return 3 + name_size(table.name) + sum(name_size(name) + 1 for name, _ in table.columns) + len(table.key)


def condition_size(condition):
    if condition is None:
        return 1
    if isinstance(condition, Comparison):
        sides = (condition.left, condition.right)
        return 2 + sum(3 if isinstance(it, Column) else 17 if isinstance(it, int) else value_size(it) for it in sides)
    if isinstance(condition, Not):
        return 1 + condition_size(condition.part)
    return 2 + sum(map(condition_size, condition.parts))


def view_size(view):
    items = sum(1 + name_size(name) + (2 if column else 0) for _, column, name in view.items)
    return 13 + name_size(view.name) + len(view.tables) + condition_size(view.condition) + items + 2 * len(view.groups)


def commit_size(actions):
    return 13 + sum(7 + sum(map(value_size, it.row)) for it in actions)


MARK_SIZE = 10


# The machine


class Open(NamedTuple):
    """A live transaction: its snapshot, the database that it sees, and its actions."""

    snapshot: int
    database: list
    actions: list


class Stop(Exception):
    """An event that can't come now, and why."""


@functools.lru_cache(maxsize=100000)
def tree_of(line):
    """The tree of a line, or its fault."""
    try:
        return read_statement(line)
    except Refused as fault:
        return fault


class Machine:
    """The state between two events. `snapshots[n]` is the database after commit n: for each table its rows by key."""

    def __init__(self, program, settings=Settings(), opened=None):
        """The machine before the first event, over a new journal or over the one that another machine has left."""
        self.program, self.settings = program, settings
        self.sessions = {SETUP: program.setup, **program.sessions}
        self.places = dict.fromkeys(self.sessions, 0)
        self.live, self.claims = {}, {}
        self.schema = opened.schema.copy() if opened else Schema()
        self.snapshots = list(opened.snapshots) if opened else [[]]
        self.actions = list(opened.actions) if opened else [[]]
        self.gained = list(opened.gained) if opened else [0]
        self.marks = list(opened.marks) if opened else []
        self.points = list(self.marks)
        self.tasks = [list(tasks) for tasks in opened.tasks] if opened else []
        self.length = opened.length if opened else EMPTY_JOURNAL
        self.shown = {}

    @property
    def last(self):
        return len(self.snapshots) - 1

    def left(self, session):
        """Whether a session has a statement left."""
        return self.places[session] < len(self.sessions[session])

    def is_done(self):
        return not any(map(self.left, self.sessions))

    # Rows

    def table_rows(self, table, number):
        return sorted(self.snapshots[number][table.number].values())

    def view_rows(self, view, number):
        """A view by its definition over a committed state. What was computed once is kept."""
        if (view.number, number) not in self.shown:
            self.shown[view.number, number] = view.rows(self.snapshots[number])
        return self.shown[view.number, number]

    # The journal

    def write(self, size):
        """Adds a record of so many bytes to the journal, or refuses it where the journal would be too long."""
        need = self.length + size + 5
        if need > self.settings.limit:
            raise Refused("18 journal full need %d limit %d" % (need, self.settings.limit))
        self.length = need

    # Maintenance

    def waiting(self, view, upto):
        """The commits up to one that wait to reach a view."""
        tasks = self.tasks[view]
        return tasks[bisect.bisect_right(tasks, self.points[view]) : bisect.bisect_right(tasks, upto)]

    def step_end(self, waiting):
        """Where the next step ends: it takes as many of the commits that wait as it may, and passes no live snapshot."""
        inside = [it.snapshot for it in self.live.values() if it.snapshot >= waiting[0]]
        ends = [end for end in waiting[: self.settings.combine] if all(end <= snapshot for snapshot in inside)]
        return ends[-1] if ends else waiting[0]

    def force(self, views, upto):
        """Brings views up to date as far as a snapshot; gives the lines that say so."""
        lines = []
        for view in sorted(views):
            waiting = self.waiting(view, upto)
            while waiting:
                end = self.step_end(waiting)
                lines.append("force %s %d %d" % (self.schema.views[view].name, self.points[view], end))
                self.points[view] = end
                waiting = self.waiting(view, upto)
        return lines

    def chosen(self, views):
        """The view that a worker takes up, of those that have something to do."""
        waiting = {view: self.waiting(view, self.last) for view in views}
        if self.settings.policy == "oldest":
            return min(views, key=lambda view: (waiting[view][0], view))
        if self.settings.policy == "most":
            return max(views, key=lambda view: (self.actions_on(view, waiting[view]), -view))
        return min(views)

    def actions_on(self, view, commits):
        tables = self.schema.views[view].tables
        return sum(action.table in tables for commit in commits for action in self.actions[commit])

    def fetch(self, worker):
        if worker in self.claims:
            return ["w%d busy" % worker]
        claimed = [view for view, _, _ in self.claims.values()]
        views = [view for view in range(len(self.points)) if view not in claimed and self.waiting(view, self.last)]
        if not views:
            return ["w%d idle" % worker]
        view = self.chosen(views)
        self.claims[worker] = (view, self.points[view], self.step_end(self.waiting(view, self.last)))
        return ["w%d fetch %s %d %d" % (worker, self.schema.views[view].name, *self.claims[worker][1:])]

    def install(self, worker):
        if worker not in self.claims:
            return ["w%d empty" % worker]
        view, low, high = self.claims.pop(worker)
        named = (worker, self.schema.views[view].name, low, high)
        if self.points[view] != low:
            return ["w%d moved %s %d %d at %d" % (*named, self.points[view])]
        self.points[view] = high
        return ["w%d install %s %d %d" % named]

    def release(self, worker):
        if worker not in self.claims:
            raise Stop("worker %d has no step to give up" % worker)
        del self.claims[worker]
        return ["w%d release" % worker]

    def mark(self, name):
        found = self.schema.by_name.get(name)
        if found is None or not found.is_view:
            return ["mark %s unknown" % name]
        if self.marks[found.number] == self.points[found.number]:
            return ["mark %s none" % name]
        try:
            self.write(MARK_SIZE)
        except Refused as fault:
            return ["mark %s fault %s" % (name, fault)]
        self.marks[found.number] = self.points[found.number]
        return ["mark %s %d" % (name, self.points[found.number])]

    def clean(self):
        """A clean-up: it keeps the rows of the state at the floor, and what each later commit brought."""
        floor = min([self.last] + [it.snapshot for it in self.live.values()] + self.points)
        versions = sum(map(len, self.snapshots[floor])) + sum(self.gained[floor + 1 :])
        return ["clean %d versions %d deltas %d" % (floor, versions, sum(map(len, self.actions[floor + 1 :])))]

    # Statements

    def turn(self, session):
        """Answers a session's next statement."""
        if not self.left(session):
            raise Stop("session %s has no statement left" % session)
        line = self.sessions[session][self.places[session]]
        self.places[session] += 1
        forced = []
        try:
            bound = self.bound(session, line)
            if isinstance(bound, Query):
                snapshot = self.live[session].snapshot if session in self.live else self.last
                forced = self.force({it.number for it in bound.relations if it.is_view}, snapshot)
            reply = self.answer(session, bound)
        except Refused as fault:
            reply = ["fault %s" % fault]
        return forced + ["%s %d %s" % (session, self.places[session], reply[0])] + reply[1:]

    def bound(self, session, line):
        tree = tree_of(line)
        if isinstance(tree, Refused):
            raise tree
        return bind(self.schema, tree, session == SETUP, session in self.live)

    def answer(self, session, bound):
        if isinstance(bound, Word):
            return getattr(self, "answer_" + bound.word)(session)
        if isinstance(bound, Query):
            return rows_reply(self.query(session, bound))
        if hasattr(bound, "apply"):
            return self.change(session, bound)
        return self.create(bound)

    def answer_begin(self, session):
        self.live[session] = self.opened()
        return ["begin %d" % self.last]

    def answer_rollback(self, session):
        del self.live[session]
        return ["rollback"]

    def answer_commit(self, session):
        number = self.commit(session)
        return ["commit %d" % number if number else "commit"]

    def answer_tasks(self, session):
        found = [(view.name, commit) for view in self.schema.views for commit in self.waiting(view.number, self.last)]
        return ["tasks %d" % len(found)] + ["| %s | %d" % task for task in found]

    def opened(self):
        """A new transaction."""
        return Open(self.last, list(self.snapshots[-1]), [])

    def query(self, session, query):
        """A query's answer, over the session's own database where it has written something."""
        own = self.live.get(session)
        number = own.snapshot if own else self.last
        if own and own.actions:
            return query.answer(lambda it: it.rows(own.database) if it.is_view else sorted(own.database[it.number].values()))
        return query.answer(lambda it: self.view_rows(it, number) if it.is_view else self.table_rows(it, number))

    def change(self, session, change):
        own = self.live.get(session) or self.opened()
        rows = dict(own.database[change.table.number])
        actions, count = change.apply(rows)
        own.database[change.table.number] = rows
        own.actions.extend(actions)
        if session in self.live:
            return ["ok %d" % count]
        self.live[session] = own
        try:
            number = self.commit(session)
        finally:
            self.live.pop(session, None)
        return ["ok %d commit %d" % (count, number) if number else "ok %d commit" % count]

    def create(self, definition):
        if definition.is_view:
            definition.created = self.last
            self.write(view_size(definition))
            self.points.append(self.last)
            self.marks.append(self.last)
            self.tasks.append([])
        else:
            self.write(table_size(definition))
            self.snapshots = [snapshot + [{}] for snapshot in self.snapshots]
        self.schema.add(definition)
        return ["ok"]

    def commit(self, session):
        """Commits a session's transaction: its number, none where it has no action. It stays live where the journal is full."""
        own = self.live[session]
        if not own.actions:
            del self.live[session]
            return None
        written = {(it.table, self.schema.tables[it.table].key_of(it.row)) for it in own.actions}
        try:
            self.check_conflict(own.snapshot, written)
            merged, gained = self.merged(own, written)
        except Refused:
            del self.live[session]
            raise
        self.write(commit_size(own.actions))
        del self.live[session]
        self.snapshots.append(merged)
        self.actions.append(list(own.actions))
        self.gained.append(gained)
        changed = {table for table, _ in written}
        for view in self.schema.views:
            if changed & set(view.tables):
                self.tasks[view.number].append(self.last)
        return self.last

    def check_conflict(self, snapshot, written):
        """The first committer wins: the first key, by table and key, that a later commit has written too, and the last such commit."""
        later = {}
        for number in range(snapshot + 1, len(self.actions)):
            for it in self.actions[number]:
                later[it.table, self.schema.tables[it.table].key_of(it.row)] = number
        both = sorted(written & set(later))
        if both:
            table, key = both[0]
            raise Refused("15 write conflict %s %s commit %d" % (self.schema.tables[table].name, key_text(key), later[both[0]]))

    def merged(self, own, written):
        """The next committed state, and how many rows it has that the last one lacks."""
        before, after, gained = self.snapshots[-1], list(self.snapshots[-1]), 0
        for number in {table for table, _ in written}:
            after[number] = dict(before[number])
        for table, key in written:
            row = own.database[table].get(key)
            gained += row is not None and row != before[table].get(key)
            if row is None:
                after[table].pop(key, None)
            else:
                after[table][key] = row
        for number, rows in enumerate(after):
            if len(rows) > MOST_ROWS:
                raise Refused("16 table full at commit %s" % self.schema.tables[number].name)
        return after, gained


def rows_reply(rows):
    return ["rows %d" % len(rows)] + [row_line(row) for row in rows]


# Runs without threads


def transcript(machine):
    """The lines of a run without threads: the setup, the order's items, and then rounds over the sessions."""
    lines = []
    while machine.left(SETUP):
        lines += machine.turn(SETUP)
    for item in machine.program.order:
        lines += item_lines(machine, item)
    while not machine.is_done():
        for session in machine.program.sessions:
            if machine.left(session):
                lines += machine.turn(session)
    return lines


def item_lines(machine, item):
    """The lines of one item of the order."""
    word, value = item[0], item[-1]
    if word == "clean":
        return machine.clean()
    if word == "mark":
        return machine.mark(value)
    if word == "fetch":
        return machine.fetch(int(value))
    if word == "install":
        return machine.install(int(value))
    if word == "work":
        return machine.fetch(int(value)) + machine.install(int(value))
    return machine.turn(word)
