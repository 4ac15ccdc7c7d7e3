"""Generated scripts of one session, with the records that they have to leave in a journal.

A Maker answers the text of one statement after another and keeps in a State what it has to write: rows, transactions, how far each view
is maintained, and marks. It stops short of what a journal does not show: the replies of queries."""
import operator

from journal_format import AND, COLUMN, COMBINE, COMPARISON, COUNT, DELETE, INSERT, INT, LITERAL, MOST_COLUMNS, MOST_COMPARISONS
from journal_format import NOT, NUMBER, OR, PLAIN, SUM, TEXT, TRUE, Action, Commit, Mark, State, Table, View, comparisons, key_of

MOST = 2**63 - 1
SIGN_TEXTS = {1: "=", 2: "<>", 3: "<", 4: "<=", 5: ">", 6: ">="}
TESTS = {"=": operator.eq, "<>": operator.ne, "<": operator.lt, ">=": operator.ge}
KIND_TEXTS = {INT: "int", TEXT: "text"}
WORDS = ["", "a", "b", "it's", "''", "żółw", "| 1", "--", "x y", "\t", "😀", "y" * 256]
COLUMN_NAMES = ["id", "price", "name", "qty", "body", "_", "no2", "of_the_longest_name_that_fits_32"]


def literal(value):
    return "'%s'" % value.decode().replace("'", "''") if isinstance(value, bytes) else str(value)


def tuple_text(row):
    return "(%s)" % ", ".join(map(literal, row))


def number(random_):
    return random_.choice([random_.randint(-3, 9)] * 12 + [MOST, -MOST - 1])


def value_of(random_, kind):
    return number(random_) if kind == INT else random_.choice(WORDS).encode()


# Tables and views


def random_table(random_, name):
    names = random_.sample(COLUMN_NAMES, random_.randint(1, 5))
    columns = tuple((column, random_.choice([INT, INT, TEXT])) for column in names)
    return Table(name, columns, tuple(random_.sample(range(len(columns)), random_.choice([1, 1, 2]) if len(columns) > 1 else 1)))


def columns_of(state, tables, kind=None):
    """The columns of the aliases, or those of one kind."""
    found = [(alias, place) for alias, table in enumerate(tables) for place in range(len(state.tables[table].columns))]
    return [(alias, place) for alias, place in found if kind in (None, state.tables[tables[alias]].columns[place][1])]


def random_side(random_, columns, kind):
    if columns and random_.random() < 0.6:
        return (COLUMN, random_.choice(columns))
    wide = random_.choice([0, 0, 0, 10**37, -(10**38 - 1)])
    return (NUMBER, number(random_) + wide // 2) if kind == INT else (LITERAL, random_.choice(WORDS).encode())


def random_condition(random_, state, tables, layers=2):
    kind = random_.choice([COMPARISON, COMPARISON, AND, OR, NOT]) if layers else COMPARISON
    part = lambda: random_condition(random_, state, tables, layers - 1)
    if kind == NOT:
        return (NOT, part())
    if kind in (AND, OR):
        return (kind, tuple(part() for _ in range(random_.choice([2, 2, 3]))))
    of_kind = random_.choice([INT, TEXT])
    columns = columns_of(state, tables, of_kind)
    return (COMPARISON, random_.randint(1, 6), random_side(random_, columns, of_kind), random_side(random_, columns, of_kind))


def random_items(random_, state, tables):
    """The items of a view without a group, or of a grouped one and its group columns."""
    columns = columns_of(state, tables)
    if random_.random() < 0.5:
        keys = [(alias, place) for alias, table in enumerate(tables) for place in state.tables[table].key]
        others = [column for column in columns if column not in keys]
        listed = keys + random_.sample(others, random_.randint(0, len(others)))
        random_.shuffle(listed)
        return [(PLAIN, column) for column in listed], ()
    groups = random_.sample(columns, random_.randint(1, min(2, len(columns))))
    sums = [(SUM, column) for column in columns_of(state, tables, INT) if random_.random() < 0.4]
    items = [(PLAIN, column) for column in groups] + sums + [(COUNT,)]
    random_.shuffle(items)
    return items, tuple(groups)


def random_view(random_, state, name):
    tables = tuple(random_.randrange(len(state.tables)) for _ in range(random_.choice([1, 1, 2, 2, 3])))
    items, groups = random_items(random_, state, tables)
    condition = random_.choice([(TRUE,), random_condition(random_, state, tables)])
    if len(items) > MOST_COLUMNS or len(comparisons(condition)) > MOST_COMPARISONS:
        return random_view(random_, state, name)
    named = tuple(item + ("n%d" % place,) for place, item in enumerate(items))
    return View(name, state.last(), tables, condition, named, bool(groups), groups)


def table_text(table):
    columns = ", ".join("%s %s" % (name, KIND_TEXTS[kind]) for name, kind in table.columns)
    return "create table %s (%s, primary key (%s))" % (table.name, columns, ", ".join(table.columns[place][0] for place in table.key))


def view_text(state, view):
    column = lambda it: "a%d.%s" % (it[0], state.tables[view.tables[it[0]]].columns[it[1]][0])
    item_text = {PLAIN: lambda it: column(it[1]), SUM: lambda it: "sum(%s)" % column(it[1]), COUNT: lambda it: "count(*)"}
    items = ", ".join("%s as %s" % (item_text[item[0]](item), item[-1]) for item in view.items)
    tables = ", ".join("%s a%d" % (state.tables[table].name, alias) for alias, table in enumerate(view.tables))
    condition = "" if view.condition[0] == TRUE else " where " + condition_text(view.condition, column)
    groups = " group by " + ", ".join(map(column, view.groups)) if view.groups else ""
    return "create view %s as select %s from %s%s%s" % (view.name, items, tables, condition, groups)


def condition_text(condition, column):
    if condition[0] == COMPARISON:
        side = lambda it: column(it[1]) if it[0] == COLUMN else literal(it[1])
        return "%s %s %s" % (side(condition[2]), SIGN_TEXTS[condition[1]], side(condition[3]))
    within = lambda part: "(%s)" % condition_text(part, column) if part[0] in (AND, OR) else condition_text(part, column)
    if condition[0] == NOT:
        return "not " + within(condition[1])
    return {AND: " and ", OR: " or "}[condition[0]].join(map(within, condition[1]))


# Statements


class Open:
    """A transaction: the rows that it sees, its actions, and how many changes it made."""

    def __init__(self, rows):
        self.rows, self.actions, self.changes = [dict(of_table) for of_table in rows], [], 0

    def take(self, number, table, kind, row):
        self.actions.append(Action(number, self.changes, kind, row))
        if kind == INSERT:
            self.rows[number][key_of(table, row)] = row
        else:
            del self.rows[number][key_of(table, row)]


class Maker:
    """Makes statements and items of the order one after another. No table passes so many rows by much."""

    def __init__(self, random_, state=None, most_rows=8):
        self.random, self.state, self.most_rows = random_, state or State(), most_rows
        self.points = list(self.state.marks)
        self.open = None

    def make(self, definition):
        """The text of a CREATE."""
        text = table_text(definition) if isinstance(definition, Table) else view_text(self.state, definition)
        self.state.apply(definition)
        if isinstance(definition, View):
            self.points.append(definition.created)
        return text

    def commit(self, actions):
        if actions:
            self.state.apply(Commit(self.state.last() + 1, tuple(actions)))

    def changed(self, change):
        """Makes a change in the open transaction, or in one of its own: what it does to it is answered as a text."""
        open_ = self.open or Open(self.state.rows)
        open_.changes += 1
        text, is_accepted = change(open_)
        if not is_accepted:
            open_.changes -= 1
        if not self.open:
            self.commit(open_.actions)
        return text

    def insert(self, number):
        table, random_ = self.state.tables[number], self.random
        listed = [tuple(value_of(random_, kind) for _, kind in table.columns) for _ in range(random_.choice([1, 1, 2, 3]))]
        text = "insert into %s values %s" % (table.name, ", ".join(map(tuple_text, listed)))

        def change(open_):
            keys = [key_of(table, row) for row in listed]
            if len(set(keys)) < len(keys) or any(key in open_.rows[number] for key in keys):
                return text, False
            for row in listed:
                open_.take(number, table, INSERT, row)
            return text, True

        return self.changed(change)

    def condition(self, table):
        """A condition on one column, or none, as its text and a test of a row."""
        place = self.random.choice(list(table.key) + list(range(len(table.columns))))
        name, kind = table.columns[place]
        sign, other = self.random.choice(list(TESTS)), value_of(self.random, kind)
        if self.random.random() < 0.1:
            return "", lambda row: True
        return " where %s %s %s" % (name, sign, literal(other)), lambda row: TESTS[sign](row[place], other)

    def update(self, number):
        table = self.state.tables[number]
        places = [place for place in range(len(table.columns)) if place not in table.key]
        if not places:
            return self.delete(number)
        place = self.random.choice(places)
        name, kind = table.columns[place]
        if kind == INT and self.random.random() < 0.7:
            by = self.random.randint(1, 5)
            value, new = "%s + %d" % (name, by), lambda old: old + by
        else:
            fixed = value_of(self.random, kind)
            value, new = literal(fixed), lambda old: fixed
        where, test = self.condition(table)
        text = "update %s set %s = %s%s" % (table.name, name, value, where)

        def change(open_):
            found = [row for _, row in sorted(open_.rows[number].items()) if test(row)]
            if any(isinstance(row[place], int) and new(row[place]) > MOST for row in found):
                return text, False
            for row in found:
                open_.take(number, table, DELETE, row)
                open_.take(number, table, INSERT, row[:place] + (new(row[place]),) + row[place + 1 :])
            return text, True

        return self.changed(change)

    def delete(self, number):
        table = self.state.tables[number]
        where, test = self.condition(table)

        def change(open_):
            for row in [row for _, row in sorted(open_.rows[number].items()) if test(row)]:
                open_.take(number, table, DELETE, row)
            return "delete from %s%s" % (table.name, where), True

        return self.changed(change)

    def transaction(self):
        """BEGIN, or what ends a transaction."""
        if not self.open:
            self.open = Open(self.state.rows)
            return "begin"
        word = self.random.choice(["commit"] * 4 + ["rollback"])
        if word == "commit":
            self.commit(self.open.actions)
        self.open = None
        return word

    def read_view(self, number):
        """A query of a view, which brings it up to date."""
        self.points[number] = max([self.points[number]] + self.state.pending(number, self.points[number]))
        return "select * from %s" % self.state.views[number].name

    def statement(self):
        kind = self.random.random()
        if kind < 0.15 or (self.open and kind < 0.3):
            return self.transaction()
        if self.state.views and kind < 0.36:
            return self.read_view(self.random.randrange(len(self.state.views)))
        number = self.random.randrange(len(self.state.tables))
        rows = (self.open.rows if self.open else self.state.rows)[number]
        if len(rows) >= self.most_rows:
            return self.delete(number)
        return self.random.choice([self.insert, self.insert, self.insert, self.update, self.delete] if rows else [self.insert])(number)

    def item(self):
        """An item of the order that is no statement."""
        kind = self.random.choice(["work", "mark", "mark", "clean"])
        if kind == "clean" or (kind == "mark" and not self.state.views):
            return kind if kind == "clean" else "mark nothing"
        if kind == "work":
            return self.work()
        return self.mark(self.random.randrange(len(self.state.views)))

    def work(self):
        """A step of the view with the oldest task, or of none."""
        waiting = [(self.state.pending(number, point), number) for number, point in enumerate(self.points)]
        waiting = [(commits, number) for commits, number in waiting if commits]
        if waiting:
            commits, number = min(waiting, key=lambda it: it[0][0])
            self.points[number] = commits[:COMBINE][-1]
        return "work %d" % self.random.randint(1, 8)

    def mark(self, number):
        if self.points[number] > self.state.marks[number]:
            self.state.apply(Mark(number, self.points[number]))
        return "mark %s" % self.state.views[number].name


# Scripts


class Script:
    """A script of a setup and of one session, a, whose statements come as the order says."""

    def __init__(self):
        self.setup, self.statements, self.order = [], [], []

    def turn(self, maker):
        self.statements.append(maker.statement())
        self.order.append("a")
        if maker.random.random() < 0.2:
            self.order.append(maker.item())

    def text(self):
        lines = (["@setup"] if self.setup else []) + self.setup + ["@session a"] + self.statements
        lines += ["@order " + " ".join(self.order[at : at + 1000]) for at in range(0, len(self.order), 1000)]
        return ("\n".join(lines) + "\n").encode()


def random_script(random_, turns):
    """A script with tables and views of its own, and the records that it leaves."""
    maker, script = Maker(random_), Script()
    for number in range(random_.randint(1, 4)):
        script.setup.append(maker.make(random_table(random_, "t%d" % number)))
        script.setup += [maker.statement() for _ in range(random_.choice([0, 0, 5]))]
        script.setup += [maker.transaction() for _ in range(1 if maker.open else 0)]
    for number in range(random_.randint(0, 4)):
        script.setup.append(maker.make(random_view(random_, maker.state, "v%d" % number)))
        script.setup.append(maker.insert(random_.randrange(len(maker.state.tables))))
    for _ in range(turns):
        script.turn(maker)
    return script, maker.state.records
