"""The systems that bench/lazy runs side by side, and how each keeps a view. A system takes a script of its own SQL on standard input.

Beside lazyview, whose views are lazy, sqlite3 and PostgreSQL keep a view in up to five ways: `plain`, a view that is not stored; `triggers`, a
table that triggers change with each row; `noted`, a table as well, but triggers only note by how much what changed, and a statement brings that in
before the query; `renewed`, where triggers note which groups changed, and these are computed anew before the query, as is done where nobody
knows a formula for the difference; `refresh`, a materialized view that is refreshed before the query."""
import contextlib
import os
import pwd
import shutil
import subprocess
import tempfile
import time
from typing import NamedTuple

SECONDS = 120
# what stands on a line of its own before the rows of an answer, and before a time
MARK, CLOCK = "answer", "clock"


class Fault(Exception):
    """A system's refusal."""


class Strategy(NamedTuple):
    """How a system keeps a view: what makes it, before or behind the fill, and what comes before each query."""

    name: str
    before: list
    behind: list
    at_query: list


# The three views, by the SQL that all systems take

DEFINITIONS = {
    "per_item": "select item, sum(qty) as total, count(*) as n from sale group by item",
    "lines": "select s.no, i.id, i.price, s.qty from sale s, item i where s.item = i.id",
    "near": "select x.item, sum(y.qty) as total, count(*) as n from sale x, sale y where x.item = y.item group by x.item",
}
# the tables that stand for the views where triggers keep them
STORED = {
    "per_item": ["create table per_item (item integer primary key, total integer, n integer)"],
    "lines": ["create table lines (no integer primary key, id integer, price integer, qty integer)", "create index lines_id on lines (id)"],
    "near": ["create table near (item integer primary key, total integer, n integer)"],
}
NOTES = {
    "per_item": "create table noted (item integer, qty integer, n integer)",
    "lines": "create table noted (id integer primary key)",
    "near": "create table noted (item integer, qty integer)",
}
# What triggers do, by the table and the kind of change: at once, or as a note. The workloads change no other tables.
PLUS = (
    "insert into per_item values (new.item, new.qty, 1)"
    " on conflict (item) do update set total = per_item.total + excluded.total, n = per_item.n + 1"
)
MINUS = "update per_item set total = total - old.qty, n = n - 1 where item = old.item; delete from per_item where item = old.item and n = 0"
AT_ONCE = {
    "per_item": [("sale", "insert", PLUS), ("sale", "delete", MINUS), ("sale", "update", PLUS + "; " + MINUS)],
    "lines": [("item", "update", "update lines set price = new.price where id = new.id")],
    "near": [("sale", "update", "update near set total = total + (new.qty - old.qty) * (select count(*) from sale where item = new.item)"
              " where item = new.item")],
}
GAINED, GONE = "insert into noted values (new.item, new.qty, 1)", "insert into noted values (old.item, -old.qty, -1)"
AS_NOTES = {
    "per_item": [("sale", "insert", GAINED), ("sale", "delete", GONE), ("sale", "update", GAINED + "; " + GONE)],
    "lines": [("item", "update", "insert into noted values (new.id) on conflict (id) do nothing")],
    "near": [("sale", "update", "insert into noted values (new.item, new.qty - old.qty)")],
}
BRING_IN = {
    "per_item": [
        "insert into per_item select item, sum(qty), sum(n) from noted where true group by item on conflict (item) do update"
        " set total = per_item.total + excluded.total, n = per_item.n + excluded.n",
        "delete from per_item where n = 0",
    ],
    "lines": ["update lines set price = (select price from item where item.id = lines.id) where id in (select id from noted)"],
    "near": [
        "update near set total = total + (select sum(qty) from noted where noted.item = near.item)"
        " * (select count(*) from sale where sale.item = near.item) where item in (select item from noted)"
    ],
}
# Of the join, `noted` computes the rows anew whose item is noted. Of the views with groups, this does so.
RENEWED = {
    "per_item": "select item, sum(qty) as total, count(*) as n from sale where item in (select item from noted) group by item",
    "near": "select x.item, sum(y.qty) as total, count(*) as n from sale x, sale y where x.item = y.item and x.item in (select item from noted) group by x.item",
}
NOTED_ITEM = "create table noted (item integer primary key)"
COMES, GOES = ("insert into noted values (%s.item) on conflict (item) do nothing" % row for row in ("new", "old"))
AS_ITEMS = [("sale", "insert", COMES), ("sale", "delete", GOES), ("sale", "update", COMES + "; " + GOES)]


def strategies(view, trigger, has_refresh):
    """The ways of a system whose triggers are made by `trigger`."""
    definition = DEFINITIONS[view]
    fill = ["insert into %s %s" % (view, definition)]
    triggers = lambda kinds: [line for table, kind, body in kinds for line in trigger(table, kind, body)]
    bring_in = lambda lines: ["begin"] + lines + ["delete from noted", "commit"]
    found = [
        Strategy("plain", ["create view %s as %s" % (view, definition)], [], []),
        Strategy("triggers", STORED[view], fill + triggers(AT_ONCE[view]), []),
        Strategy("noted", STORED[view] + [NOTES[view]], fill + triggers(AS_NOTES[view]), bring_in(BRING_IN[view])),
    ]
    if view in RENEWED:
        renew = ["delete from %s where item in (select item from noted)" % view, "insert into %s %s" % (view, RENEWED[view])]
        found.append(Strategy("renewed", STORED[view] + [NOTED_ITEM], fill + triggers(AS_ITEMS), bring_in(renew)))
    if has_refresh:
        stored = ["create materialized view %s as %s" % (view, definition)]
        found.append(Strategy("refresh", [], stored, ["refresh materialized view %s" % view]))
    return found


# The systems


class Lazyview:
    """The program: its script has a setup and one session, and its answers are row lines."""

    name, is_ours = "lazyview", True

    def __init__(self, program):
        self.command = [program]

    def strategies(self, view):
        return [Strategy("lazy", ["create view %s as %s" % (view, DEFINITIONS[view])], [], [])]

    def script(self, work, strategy, rounds, end=()):
        setup = ["@setup"] + work.tables + strategy.before
        lines = setup + ["@session a", "begin"] + work.fill + ["commit"] + work.first([], []) + work.changed(rounds, [], []) + list(end)
        return "\n".join(lines) + "\n"

    def run(self, script):
        return ran(self.command, script)

    def seconds(self, work, strategy, runs):
        """The time of the rounds: that of a script with them, less that of the same one without; each the least of some runs in turn."""
        scripts = [self.script(work, strategy, rounds) for rounds in (len(work.rounds), 0)]
        taken = [[self.run(script)[1] for script in scripts] for _ in range(2 * runs)]
        return max(min(with_them for with_them, _ in taken) - min(without for _, without in taken), 1e-6)

    def answers(self, text):
        """The rows of each query behind a change, as texts."""
        found = []
        for line in text.split("\n"):
            if line.startswith("| "):
                found[-1].append(tuple(line[2:].split(" | ")))
            elif " rows " in line:
                found.append([])
            elif " fault " in line:
                raise Fault(line)
        return [sorted(rows) for rows in found]


class Other:
    """What sqlite3 and PostgreSQL have in common: indexes, a mark before each answer, and rows with a bar between the values."""

    is_ours, has_refresh = False, False

    def strategies(self, view):
        return strategies(view, self.trigger, self.has_refresh)

    def script(self, work, strategy, rounds, end=()):
        asked = strategy.at_query + [self.mark]
        lines = [self.table(it) for it in work.tables] + work.indexes + strategy.before
        lines += ["begin"] + work.fill + ["commit"] + strategy.behind + self.settled
        lines += work.first(strategy.at_query, [self.mark]) + [self.clock] + work.changed(rounds, strategy.at_query, [self.mark]) + [self.clock]
        lines += asked + list(end) if end else []
        return "".join(line + ("\n" if line.startswith("\\") else ";\n") for line in lines)

    def seconds(self, work, strategy, runs):
        """The time of the rounds, between two looks at the clock; the least of some runs."""
        script = self.script(work, strategy, len(work.rounds))
        texts = [self.run(script)[0] for _ in range(runs)]
        clocks = [[float(line.split("|")[1]) for line in text.split("\n") if line.startswith(CLOCK + "|")] for text in texts]
        return max(min(end - begin for begin, end in clocks), 1e-6)

    def answers(self, text):
        found = []
        for line in text.split("\n"):
            if line == MARK:
                found.append([])
            elif found and line and not line.startswith(CLOCK + "|"):
                found[-1].append(tuple(line.split("|")))
        return [sorted(rows) for rows in found]


class Sqlite(Other):
    name, command = "sqlite3", ["sqlite3", "-batch", "-bail", ":memory:"]
    mark = "select '%s'" % MARK
    clock = "select '%s', (julianday('now') - 2440587.5) * 86400.0" % CLOCK
    settled = []

    def table(self, text):
        # an `integer` key is the row's own number there, which is the fastest that it has
        return text.replace(" int", " integer")

    def trigger(self, table, kind, body):
        return ["create trigger kept_%s_%s after %s on %s begin %s; end" % (table, kind, kind, table, body)]

    def run(self, script):
        return ran(self.command, script)


class Postgres(Other):
    """A server of its own in a folder, that syncs nothing and hears on a socket there."""

    name = "postgresql"
    mark = "\\echo %s" % MARK
    clock = "select '%s', extract(epoch from clock_timestamp())" % CLOCK
    settled = ["analyze"]
    has_refresh = True

    def __init__(self, folder, user):
        self.folder, self.user = folder, user

    def table(self, text):
        return text

    def trigger(self, table, kind, body):
        name = "kept_%s_%s" % (table, kind)
        function = "create function %s() returns trigger language plpgsql as $$ begin %s; return null; end $$" % (name, body)
        return [function, "create trigger %s after %s on %s for each row execute function %s()" % (name, kind, table, name)]

    def run(self, script):
        command = ["psql", "-X", "-q", "-A", "-t", "-v", "ON_ERROR_STOP=1", "-h", self.folder, "-U", "postgres", "postgres"]
        fresh = "drop schema public cascade;\ncreate schema public;\nset client_min_messages = warning;\n"
        return ran(command, "set client_min_messages = warning;\n" + fresh + script, self.user)


def ran(command, script, user=None):
    """What a run prints, and the seconds that it takes by the clock."""
    begin = time.perf_counter()
    done = subprocess.run(command, input=script.encode(), stdout=subprocess.PIPE, stderr=subprocess.PIPE, timeout=SECONDS, user=user, cwd="/")
    took = time.perf_counter() - begin
    if done.returncode != 0 or done.stderr:
        raise Fault("%s: status %d, %s" % (command[0], done.returncode, done.stderr.decode("utf-8", "replace").strip()[:300]))
    return done.stdout.decode(), took


@contextlib.contextmanager
def postgres():
    """A PostgreSQL server while it is wanted; none where it is not installed or does not start."""
    # the server refuses to be run by root
    user = "postgres" if os.geteuid() == 0 else None
    folder = tempfile.mkdtemp(prefix="lazy")
    found = started(folder, user)
    try:
        yield found
    finally:
        if found:
            call(user, "pg_ctl", "-D", os.path.join(folder, "data"), "-m", "immediate", "-w", "stop")
        shutil.rmtree(folder, ignore_errors=True)


def call(user, *words):
    subprocess.run(words, user=user, cwd="/", check=True, stdout=subprocess.DEVNULL, stderr=subprocess.DEVNULL, timeout=SECONDS)


def started(folder, user):
    """A server in a folder, or none."""
    if any(shutil.which(it) is None for it in ("initdb", "pg_ctl", "psql")):
        print("PostgreSQL is not installed, and left out")
        return None
    data = os.path.join(folder, "data")
    settings = {"listen_addresses": "", "unix_socket_directories": folder, "fsync": "off", "synchronous_commit": "off", "full_page_writes": "off"}
    options = " ".join("-c %s='%s'" % it for it in settings.items())
    try:
        if user:
            os.chown(folder, pwd.getpwnam(user).pw_uid, -1)
        call(user, "initdb", "-D", data, "-A", "trust", "-U", "postgres", "--no-sync")
        call(user, "pg_ctl", "-D", data, "-o", options, "-l", os.path.join(folder, "log"), "-w", "start")
    except (subprocess.SubprocessError, KeyError) as fault:
        print("PostgreSQL does not start, and is left out: %s" % fault)
        return None
    return Postgres(folder, user)
