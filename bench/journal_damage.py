"""Journals that are not as they were written: kinds of damage, records with something odd in them, and journals at and past each limit."""
import struct

from journal_format import AND, COLUMN, COMPARISON, COUNT, DELETE, INSERT, INT, LITERAL, MAGIC, NOT, NUMBER, OR, PLAIN, SUM, TEXT, TRUE
from journal_format import Action, Commit, Mark, Table, View, decode, encode, framed, journal, pieces

# Damage to bytes: each takes a journal that is good, with one record or more


def any_place(random_, list_):
    """A place in a list, often the last one: what stands behind a damaged record says that it was damaged."""
    return random_.choice([random_.randrange(len(list_)), len(list_) - 1])


def any_record(random_, list_):
    """The place of a record of any kind, as likely a rare one as a frequent one."""
    kinds = [piece[5] for piece in list_]
    kind = random_.choice(sorted(set(kinds)))
    return random_.choice([place for place, other in enumerate(kinds) if other == kind])


def cut(random_, data):
    return data[: random_.randint(0, len(data) - 1)]


def byte(random_, data):
    at = random_.randrange(len(data))
    new = random_.choice([data[at] ^ 1 << random_.randrange(8), (data[at] + 1) % 256, (data[at] - 1) % 256, random_.randrange(256)])
    return data[:at] + bytes([new]) + data[at + 1 :]


def noise(random_, data):
    """Random bytes in place of some, or between them."""
    at, count = random_.randrange(len(data)), random_.randint(1, 40)
    return data[:at] + random_.randbytes(count) + data[at + random_.choice([0, count, len(data)]) :]


def nothing_but_noise(random_, data):
    front = random_.choice([b"", MAGIC, MAGIC + b"\x01", MAGIC + b"\x01" + struct.pack("<I", random_.randint(1, 40))])
    return front + random_.randbytes(random_.randint(0, 200))


def behind(random_, data):
    return data + random_.randbytes(random_.randint(1, 100))


def of_pieces(change):
    """A kind of damage that changes the list of gates with their frames."""

    def damage(random_, data):
        list_ = pieces(data)
        change(random_, list_)
        return MAGIC + b"".join(list_) + b"\x00"

    damage.__name__ = change.__name__
    return damage


@of_pieces
def frames_swapped(random_, list_):
    one, other = random_.randrange(len(list_)), random_.randrange(len(list_))
    list_[one], list_[other] = list_[other], list_[one]


@of_pieces
def frame_repeated(random_, list_):
    list_.insert(random_.randint(0, len(list_)), random_.choice(list_))


@of_pieces
def frame_lost(random_, list_):
    del list_[random_.randrange(len(list_))]


@of_pieces
def length(random_, list_):
    at = random_.randrange(len(list_))
    size = len(list_[at]) - 5
    new = random_.choice([0, size - 1, size + 1, size + random_.randint(2, 200), random_.randrange(size), 2**32 - 1, 2**31])
    list_[at] = list_[at][:1] + struct.pack("<I", new) + list_[at][5:]


@of_pieces
def gate(random_, list_):
    at = random_.randrange(len(list_))
    list_[at] = bytes([random_.choice([0, 2, 255])]) + list_[at][1:]


def last_gate(random_, data):
    return data[:-1] + random_.choice([b"\x01", b"\x02", b"\x01" + random_.randbytes(random_.randint(1, 30))])


@of_pieces
def payload(random_, list_):
    """Bytes of a payload are lost, added or changed, and its frame has their number."""
    at = random_.choice([any_place, any_record])(random_, list_)
    old = list_[at][5:]
    place, lost = random_.randint(0, len(old)), random_.choice([0, 1, 1, 2, 8])
    list_[at] = framed(old[:place] + random_.randbytes(random_.choice([0, 1, 1, 2, 8])) + old[place + lost :])


@of_pieces
def record(random_, list_):
    """A record has something odd in it."""
    at = random_.choice([any_place, any_record])(random_, list_)
    list_[at] = framed(encode(odd(random_, decode(list_[at][5:]))))


DAMAGES = [
    cut,
    byte,
    byte,
    noise,
    nothing_but_noise,
    behind,
    frames_swapped,
    frame_repeated,
    frame_lost,
    length,
    gate,
    last_gate,
    payload,
    payload,
    record,
    record,
    record,
]
# those of any bytes
AT_LAST = [cut, byte, byte, noise]

# Odd records

NAMES = ["", "9a", "A", "select", "x" * 32, "x" * 33, "t0", "v0", "id", "n0", "é", "_", "a b"]
NUMBERS = [0, 1, 7, -1, 2**63 - 1, -(2**63)]
TEXTS = [b"", b"a", b"y" * 256, b"y" * 257, b"a\nb", b"\r\0", b"\xff", b"\xed\xa0\x80", b"\xc0\x80", "😀".encode(), b"\xf4\x90\x80\x80"]


def odd(random_, record):
    return {Table: odd_table, View: odd_view, Commit: odd_commit, Mark: odd_mark}[type(record)](random_, record)


def one_changed(random_, list_, change):
    """A list in which one is changed, or the empty one."""
    at = random_.randrange(len(list_) or 1)
    return tuple(change(it) if place == at else it for place, it in enumerate(list_))


def one_more(random_, list_):
    return list_ + (random_.choice(list_),) if list_ else list_


def one_less(random_, list_):
    at = random_.randrange(len(list_) or 1)
    return list_[:at] + list_[at + 1 :]


def odd_table(random_, table):
    columns, key = table.columns, table.key
    wider = columns + tuple(("c%d" % place, INT) for place in range(random_.choice([16, 17]) - len(columns)))
    return random_.choice(
        [
            table._replace(name=random_.choice(NAMES)),
            table._replace(columns=one_changed(random_, columns, lambda it: (random_.choice(NAMES), it[1]))),
            table._replace(columns=one_changed(random_, columns, lambda it: (it[0], random_.randint(0, 3)))),
            table._replace(columns=one_more(random_, columns)),
            table._replace(columns=one_less(random_, columns)),
            table._replace(columns=wider),
            table._replace(key=one_more(random_, key)),
            table._replace(key=one_less(random_, key)),
            table._replace(key=(random_.randint(0, len(columns)),)),
            table._replace(key=tuple(range(len(columns) + random_.randint(-1, 1)))),
        ]
    )


def odd_side(random_):
    column = (random_.randint(0, 2), random_.randint(0, 3))
    number = random_.choice(NUMBERS + [2**127 - 1, -(2**127)])
    return random_.choice([(COLUMN, column), (NUMBER, number), (LITERAL, random_.choice(TEXTS))])


def odd_condition(random_):
    compared = (COMPARISON, random_.randint(0, 7), odd_side(random_), odd_side(random_))
    number = (COMPARISON, 1, (NUMBER, 1), (NUMBER, 1))
    both = (random_.choice([AND, OR]), (number,) * random_.randint(1, 18))
    nested = (NOT, random_.choice([number, (TRUE,)]))
    for _ in range(random_.randint(127, 131)):
        nested = random_.choice([(NOT, nested), (AND, ((TRUE,), nested))])
    return random_.choice([(TRUE,), compared, compared, number, both, (AND, ((TRUE,), (OR, ((TRUE,), number)))), nested])


def odd_view(random_, view):
    items, groups = view.items, view.groups
    column = (random_.randint(0, len(view.tables)), random_.randint(0, 3))
    kinds = [(PLAIN, column, "extra"), (SUM, column, "extra"), (COUNT, "extra"), (SUM, column, "n0"), (PLAIN, column, "select")]
    item = random_.choice(kinds)
    many = items + tuple((PLAIN, items[0][1], "m%d" % place) for place in range(random_.choice([16, 17]) - len(items)) if len(items[0]) > 2)
    return random_.choice(
        [
            view._replace(name=random_.choice(NAMES)),
            view._replace(created=max(0, view.created + random_.choice([-1, 1]))),
            view._replace(tables=one_changed(random_, view.tables, lambda it: random_.randint(0, 4))),
            view._replace(tables=view.tables + view.tables[:1] * random_.randint(1, 4)),
            view._replace(tables=view.tables[:-1]),
            view._replace(condition=odd_condition(random_)),
            view._replace(condition=odd_condition(random_)),
            view._replace(items=items + (item,)),
            view._replace(items=one_less(random_, items)),
            view._replace(items=many),
            view._replace(items=one_changed(random_, items, lambda it: it[:-1] + (random_.choice(NAMES),))),
            view._replace(items=one_changed(random_, items, lambda it: item)),
            view._replace(grouped=not view.grouped),
            view._replace(groups=groups + (column,)),
            view._replace(groups=one_less(random_, groups)),
            view._replace(groups=(groups * 17)[: random_.choice([16, 17])]),
        ]
    )


def odd_row(random_, row):
    value = random_.choice(NUMBERS + TEXTS)
    wide = (row * 17)[: random_.choice([16, 17])]
    return random_.choice([one_changed(random_, row, lambda it: value), row + (value,), row[:-1], (), wide])


def odd_action(random_, action):
    return random_.choice(
        [
            action._replace(table=random_.choice([0, 1, 3, 4, 255])),
            action._replace(statement=random_.choice([0, 1, action.statement + 1, 2**32 - 1])),
            action._replace(kind=random_.choice([0, 1, 2, 3])),
            action._replace(row=odd_row(random_, action.row)),
            action._replace(row=odd_row(random_, action.row)),
        ]
    )


def odd_commit(random_, commit):
    actions = list(commit.actions)
    random_.shuffle(actions)
    kind = random_.random()
    if kind < 0.15:
        return commit._replace(number=random_.choice([0, commit.number - 1, commit.number + 1, 2**64 - 1]))
    if kind < 0.4:
        some = random_.choice([(), tuple(actions), commit.actions[:-1], commit.actions[1:], commit.actions * 2])
        return commit._replace(actions=some)
    return commit._replace(actions=one_changed(random_, commit.actions, lambda it: odd_action(random_, it)))


def odd_mark(random_, mark):
    return random_.choice(
        [
            mark._replace(view=random_.choice([0, 1, 2, 4, 255])),
            mark._replace(upto=max(0, mark.upto + random_.choice([-2, -1, 1, 2]))),
            mark._replace(upto=random_.choice([0, 2**64 - 1])),
        ]
    )


# Journals at and past each limit, with what the rules say of each

ITEM = Table("item", (("id", INT), ("price", INT)), (0,))
SAMPLE = journal([ITEM, Commit(1, (Action(0, 1, INSERT, (1, 10)),))])


def changed(at, new, data=SAMPLE):
    return data[:at] + bytes(new) + data[at + len(new) :]


# the bytes, and the offset at which they are bad or none
FILES = [
    ("no bytes", b"", None),
    ("the sample", SAMPLE, None),
    ("the sample cut to 3 bytes", SAMPLE[:3], 0),
    ("the sample cut to 8 bytes", SAMPLE[:8], 8),
    ("the sample cut to 50 bytes", SAMPLE[:50], 34),
    ("the same with a closed gate", changed(33, [0], SAMPLE[:50]), None),
    ("the sample cut to 76 bytes", SAMPLE[:76], 76),
    ("another first byte", changed(0, [0]), 0),
    ("a first gate of 2", changed(8, [2]), None),
    ("a frame of length 0", changed(9, [0, 0, 0, 0]), 9),
    ("a frame with a byte more", changed(9, [21]), 9),
    ("a frame with 4 GB more", changed(12, [255]), 9),
    ("a record of kind 9", changed(13, [9]), 9),
    ("a commit of number 2", changed(39, [2]), 34),
    ("a statement of number 0", changed(52, [0]), 34),
    ("a delete of a row that is not there", changed(56, [2]), 34),
    ("bytes behind", SAMPLE + b"\xff\xff\xff", None),
]

NOTE = Table("note", (("id", INT), ("body", TEXT), ("n", INT)), (0,))
FIRST = Commit(1, (Action(0, 1, INSERT, (1, b"a", 5)),))
KEPT = View("kept", 1, (0,), (TRUE,), ((PLAIN, (0, 0), "id"), (PLAIN, (0, 1), "body")), False, ())
SUMS = View("sums", 1, (0,), (TRUE,), ((PLAIN, (0, 1), "body"), (SUM, (0, 2), "total"), (COUNT, "n")), True, ((0, 1),))
YES = (COMPARISON, 1, (NUMBER, 1), (NUMBER, 1))


def of_columns(count):
    return Table("wide", tuple(("c%d" % place, INT) for place in range(count)), (0,))


def of_items(count):
    return KEPT._replace(items=tuple((PLAIN, (0, 0), "n%d" % place) for place in range(count)))


def under(condition, layers):
    for _ in range(layers):
        condition = (NOT, condition)
    return condition


def inserts(*rows, statement=1, number=2):
    return Commit(number, tuple(Action(0, statement, INSERT, row) for row in rows))


def many_rows(count):
    """As many rows in one table: one stands there, and one goes and comes."""
    return Commit(2, (Action(0, 1, DELETE, (1, b"a", 5)),) + tuple(Action(0, 2, INSERT, (key, b"", 0)) for key in range(count)))


# records behind a table note, with one row from commit 1, of which the last one does or does not apply
GOOD = {
    "a name of 32 bytes": [NOTE._replace(name="x" * 32)],
    "16 columns": [of_columns(16)],
    "a key of all columns": [of_columns(16)._replace(key=tuple(reversed(range(16))))],
    "32 tables": [NOTE._replace(name="t%d" % place) for place in range(31)],
    "32 views": [KEPT._replace(name="v%d" % place) for place in range(32)],
    "a table behind a view": [KEPT, NOTE._replace(name="more")],
    "4 aliases": [KEPT._replace(tables=(0,) * 4, items=tuple((PLAIN, (alias, 0), "n%d" % alias) for alias in range(4)))],
    "16 items": [of_items(16)],
    "16 comparisons": [KEPT._replace(condition=(OR, (YES,) * 16))],
    "130 layers": [KEPT._replace(condition=under(YES, 130))],
    "130 layers over nothing": [KEPT._replace(condition=under((TRUE,), 130))],
    "255 parts": [KEPT._replace(condition=(AND, ((TRUE,),) * 255))],
    "a text of 256 bytes in a condition": [KEPT._replace(condition=(COMPARISON, 2, (COLUMN, (0, 1)), (LITERAL, b"y" * 256)))],
    "numbers of 128 bits": [KEPT._replace(condition=(COMPARISON, 3, (NUMBER, -(2**127)), (NUMBER, 2**127 - 1)))],
    "a grouped view": [SUMS],
    "a group column twice": [SUMS._replace(groups=((0, 1), (0, 1)))],
    "a group column listed twice": [SUMS._replace(items=SUMS.items + ((PLAIN, (0, 1), "again"),))],
    "no sum": [SUMS._replace(items=SUMS.items[::2])],
    "numbers of 64 bits": [inserts((2**63 - 1, b"", -(2**63)), (-(2**63), b"", 2**63 - 1))],
    "a text of 256 bytes": [inserts((2, b"y" * 256, 0))],
    "a text of odd letters": [inserts((2, "\r\0\u2028😀'".encode(), 0))],
    "a row that goes and comes": [Commit(2, (Action(0, 1, DELETE, (1, b"a", 5)), Action(0, 1, INSERT, (1, b"a", 5))))],
    "statements with gaps": [inserts((2, b"", 0), statement=7)],
    "a mark": [KEPT, inserts((2, b"", 0)), Mark(0, 2)],
    "65,535 rows": [many_rows(65535)],
}
NOT_GOOD = {
    "a name of 33 bytes": [NOTE._replace(name="x" * 33)],
    "a name of no bytes": [NOTE._replace(name="")],
    "a keyword": [NOTE._replace(name="drop")],
    "an upper case letter": [NOTE._replace(name="Note2")],
    "a digit first": [NOTE._replace(name="2note")],
    "a table's name again": [NOTE],
    "a view's name for a table": [KEPT, NOTE._replace(name="kept")],
    "a column that is a keyword": [NOTE._replace(name="more", columns=(("key", INT),))],
    "two columns of one name": [NOTE._replace(name="more", columns=(("id", INT), ("id", TEXT)))],
    "no columns": [of_columns(0)],
    "17 columns": [of_columns(17)],
    "a column of kind 3": [NOTE._replace(name="more", columns=(("id", 3),))],
    "no key": [of_columns(2)._replace(key=())],
    "a key column twice": [of_columns(2)._replace(key=(1, 1))],
    "a key column out of range": [of_columns(2)._replace(key=(2,))],
    "33 tables": [NOTE._replace(name="t%d" % place) for place in range(32)],
    "33 views": [KEPT._replace(name="v%d" % place) for place in range(33)],
    "a view of a later commit": [KEPT._replace(created=2)],
    "a view of an earlier commit": [KEPT._replace(created=0)],
    "no aliases": [KEPT._replace(tables=())],
    "5 aliases": [KEPT._replace(tables=(0,) * 5, items=tuple((PLAIN, (alias, 0), "n%d" % alias) for alias in range(5)))],
    "a view of no table": [KEPT._replace(tables=(1,))],
    "no items": [KEPT._replace(items=())],
    "17 items": [of_items(17)],
    "two items of one name": [KEPT._replace(items=((PLAIN, (0, 0), "id"), (PLAIN, (0, 1), "id")))],
    "a key column that is not listed": [KEPT._replace(items=KEPT.items[1:])],
    "a column out of range": [KEPT._replace(items=KEPT.items + ((PLAIN, (0, 3), "n"),))],
    "an alias out of range": [KEPT._replace(items=KEPT.items + ((PLAIN, (1, 0), "n"),))],
    "17 comparisons": [KEPT._replace(condition=(OR, (YES,) * 17))],
    "131 layers": [KEPT._replace(condition=under(YES, 131))],
    "131 layers over nothing": [KEPT._replace(condition=under((TRUE,), 131))],
    "one part": [KEPT._replace(condition=(AND, (YES,)))],
    "a sign of 7": [KEPT._replace(condition=(COMPARISON, 7) + YES[2:])],
    "a number beside a text": [KEPT._replace(condition=(COMPARISON, 1, (COLUMN, (0, 1)), (NUMBER, 1)))],
    "two literals of two kinds": [KEPT._replace(condition=(COMPARISON, 1, (LITERAL, b""), (NUMBER, 1)))],
    "a column of a condition out of range": [KEPT._replace(condition=(COMPARISON, 1, (COLUMN, (0, 3)), (NUMBER, 1)))],
    "a text of 257 bytes in a condition": [KEPT._replace(condition=(COMPARISON, 1, (LITERAL, b"y" * 257), (LITERAL, b"")))],
    "grouped without group columns": [KEPT._replace(grouped=True)],
    "group columns, and not grouped": [SUMS._replace(grouped=False)],
    "a sum without a group": [KEPT._replace(items=KEPT.items + ((SUM, (0, 2), "total"),))],
    "a count without a group": [KEPT._replace(items=KEPT.items + ((COUNT, "n"),))],
    "no count": [SUMS._replace(items=SUMS.items[:2])],
    "two counts": [SUMS._replace(items=SUMS.items + ((COUNT, "m"),))],
    "a sum of texts": [SUMS._replace(items=SUMS.items + ((SUM, (0, 1), "m"),))],
    "a column that is not in the group": [SUMS._replace(items=SUMS.items + ((PLAIN, (0, 0), "m"),))],
    "a group column that is not listed": [SUMS._replace(groups=((0, 1), (0, 0)))],
    "a group column out of range": [SUMS._replace(groups=((0, 1), (0, 3)))],
    "17 group columns": [SUMS._replace(groups=((0, 1),) * 17)],
    "a commit of number 3": [inserts((2, b"", 0), number=3)],
    "a commit of number 1": [inserts((2, b"", 0), number=1)],
    "no actions": [Commit(2, ())],
    "a statement of number 0": [inserts((2, b"", 0), statement=0)],
    "statements that fall": [Commit(2, (Action(0, 2, INSERT, (2, b"", 0)), Action(0, 1, INSERT, (3, b"", 0))))],
    "a commit on no table": [Commit(2, (Action(1, 1, INSERT, (2, b"", 0)),))],
    "a kind of action 3": [Commit(2, (Action(0, 1, 3, (2, b"", 0)),))],
    "a row that is too short": [inserts((2, b""))],
    "a row that is too wide": [inserts((2, b"", 0, 0))],
    "a text for a number": [inserts((2, b"", b""))],
    "a number for a text": [inserts((2, 3, 0))],
    "a text of 257 bytes": [inserts((2, b"y" * 257, 0))],
    "a text with a line feed": [inserts((2, b"a\n", 0))],
    "a text that is not UTF-8": [inserts((2, b"\xed\xa0\x80", 0))],
    "a key that is there": [inserts((1, b"b", 0))],
    "a key twice": [inserts((2, b"", 0), (2, b"", 0))],
    "a delete of another row": [Commit(2, (Action(0, 1, DELETE, (1, b"a", 6)),))],
    "a delete twice": [Commit(2, (Action(0, 1, DELETE, (1, b"a", 5)),) * 2)],
    "a mark of no view": [inserts((2, b"", 0)), Mark(0, 2)],
    "a mark at the creation": [KEPT, inserts((2, b"", 0)), Mark(0, 1)],
    "a mark twice": [KEPT, inserts((2, b"", 0)), Mark(0, 2), Mark(0, 2)],
    "a mark of a later commit": [KEPT, inserts((2, b"", 0)), Mark(0, 3)],
    "65,536 rows": [many_rows(65536)],
}


def a_million_layers():
    head = encode(KEPT)[: len(b"\x02\x04kept") + 8 + len(b"\x01\x00")]
    return journal([NOTE, FIRST])[:-1] + framed(head + bytes([NOT]) * 10**6) + b"\x00"


def limit_files():
    """The name of each, its bytes, and the offset at which the rules say that it is bad, or none."""
    yield from FILES
    yield "a million layers", a_million_layers(), len(journal([NOTE, FIRST]))
    for is_good, cases in ((True, GOOD), (False, NOT_GOOD)):
        for name, records in cases.items():
            data = journal([NOTE, FIRST] + records)
            yield name, data, None if is_good else len(data) - 5 - len(encode(records[-1]))
