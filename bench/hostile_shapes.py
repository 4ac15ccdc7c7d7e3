"""Scripts of a given size that ask for as much work as a script can: long lines, deep conditions, many tuples, many sections, no sense at all.

A shape gives a script of about so many bytes, and what a run of it has to print, none where that is not written down here. `random_script`
gives small scripts of pieces that belong together only sometimes."""
import itertools
import random

MOST_LINE, MOST_STATEMENTS, MOST_ITEMS = 1 << 16, 100000, 200000
SETUP = "@setup\ncreate table t (k int, primary key (k))\ncreate table note (k int, body text, primary key (k))\n@session a\n"
HEAD = ["setup 1 ok", "setup 2 ok"]
DEEPEST = 64


def whole(lines, replies):
    """A script of these lines, and a transcript with these replies."""
    out = HEAD + ["a %d %s" % (place, reply) for place, reply in enumerate(replies, 1)]
    return (SETUP + "".join(line + "\n" for line in lines)).encode(), "".join(line + "\n" for line in out).encode()


def repeated(size, line, reply):
    """The same line, as often as it fits and a script may have it."""
    count = min((size - len(SETUP)) // (len(line.encode()) + 1), MOST_STATEMENTS - 2)
    return whole([line] * count, [reply] * count)


def padded(line, piece):
    """A line filled up with a piece to the most bytes that it may have."""
    return line + piece * ((MOST_LINE - len(line)) // len(piece))


def syntax(byte):
    return "fault 1 syntax at byte %d" % byte


def comments(size, seed):
    return (padded("-- ", "x") + "\n").encode() * (size // (MOST_LINE + 1)), b""


def blank_lines(size, seed):
    return b"\n" * size, b""


def carriage_returns(size, seed):
    return b"\r\n" * (size // 2), b""


def one_line(size, seed):
    return b"x" * size, None


def a_byte_too_many(size, seed):
    return b"-" * 2 + b"\n" * ((1 << 24) - 1), None


def zero_bytes(size, seed):
    return repeated(size, padded("", "\0"), syntax(1))


def longest_lines(size, seed):
    return repeated(size, padded("rollback -- ", "x"), "fault 10 no transaction")


def long_conditions(size, seed):
    return repeated(size, padded("select k from t where k = 1", " or k = 1"), "fault 6 limit comparisons 16")


def long_lists(size, seed):
    end = " from t"
    return repeated(size, padded("select k", ",k")[: MOST_LINE - len(end)].rstrip(",") + end, "fault 6 limit list 64")


def parentheses(size, seed):
    line = "delete from t where %sk = 1%s" % ("(" * DEEPEST, ")" * DEEPEST)
    return repeated(size, line, "ok 0 commit")


def parentheses_in_long_lines(size, seed):
    unit = "(" * DEEPEST + "k = 1" + ")" * DEEPEST
    return repeated(size, padded("delete from t where " + unit, " or " + unit), "fault 6 limit comparisons 16")


def nots(size, seed):
    return repeated(size, "delete from t where " + "not " * DEEPEST + "k = 1", "ok 0 commit")


def parentheses_too_deep(size, seed):
    return repeated(size, padded("delete from t where ", "("), syntax(len("delete from t where ") + DEEPEST + 1))


def open_text(size, seed):
    return repeated(size, padded("insert into note values (1, '", "x"), syntax(len("insert into note values (1, '")))


def quotes(size, seed):
    begin = "insert into note values (1, '"
    return repeated(size, padded(begin, "''"), syntax(len(begin)))


def digits(size, seed):
    return repeated(size, padded("delete from t where k = ", "9"), syntax(len("delete from t where k = ") + 1))


def long_names(size, seed):
    name = "n" * (MOST_LINE - len("select  from t"))
    return repeated(size, "select %s from t" % name, "fault 2 unknown name %s" % name)


def signs(size, seed):
    return repeated(size, padded("select ", "<>"), syntax(8))


def many_tuples(size, seed):
    """1,000 tuples in a line, and a DELETE of their rows."""
    insert = "insert into t values " + ", ".join("(%d)" % k for k in range(1000))
    count = (size - len(SETUP)) // (len(insert) + len("delete from t") + 2)
    replies = [reply for k in range(count) for reply in ("ok 1000 commit %d" % (2 * k + 1), "ok 1000 commit %d" % (2 * k + 2))]
    return whole([insert, "delete from t"] * count, replies)


def many_tuples_cleaned(size, seed):
    """The same with a clean-up behind each DELETE, so that no version of a row is kept."""
    script, out = many_tuples(size - size // 300, seed)
    lines = out.decode().splitlines()
    pairs = range(len(HEAD), len(lines), 2)
    found = HEAD + [line for at in pairs for line in lines[at : at + 2] + ["clean %d versions 0 deltas 0" % (at - len(HEAD) + 2)]]
    order = "@order" + " a a clean" * 4000 + "\n"
    items = order * (len(pairs) // 4000) + "@order" + " a a clean" * (len(pairs) % 4000) + "\n"
    return script + items.encode(), "".join(line + "\n" for line in found).encode()


def long_texts(size, seed):
    """Texts of 256 bytes, as many as fit in a line."""
    wide, rows = 240, min(62000, size // 270)
    parts = [range(first, min(first + wide, rows)) for first in range(0, rows, wide)]
    lines = ["insert into note values " + ", ".join("(%d, '%s')" % (k, "y" * 256) for k in part) for part in parts]
    return whole(lines, ["ok %d commit %d" % (len(part), number) for number, part in enumerate(parts, 1)])


def statements(size, seed):
    count = min((size - len(SETUP)) // 168, MOST_STATEMENTS - 2)
    line = "show tasks --" + "x" * 154
    return whole([line] * count, ["tasks 0"] * count)


def a_statement_too_many(size, seed):
    return (SETUP + "rollback\n" * (MOST_STATEMENTS - 1)).encode(), None


def order_items(size, seed):
    """Turns of a session, each with a clean-up behind it, up to 200,000 items."""
    count = min(size // 84, MOST_ITEMS // 2 - 2, MOST_STATEMENTS - 2)
    lines = ["rollback"] * count
    script, out = whole(lines, ["fault 10 no transaction"] * count)
    items = ("@order" + " a clean" * 4000 + "\n") * (count // 4000) + "@order" + " a clean" * (count % 4000) + "\n"
    replies = out.decode().splitlines()[len(HEAD) :]
    found = HEAD + [line for reply in replies for line in (reply, "clean 0 versions 0 deltas 0")]
    return script + items.encode(), "".join(line + "\n" for line in found).encode()


def an_item_too_many(size, seed):
    return b"@session a\nrollback\n" + b"@order" + b"\n@order".join([b" clean" * 10000] * 20) + b" clean\n", None


def order_lines(size, seed):
    return b"@session a\nrollback\n" + b"@order\n" * ((size - 20) // 7), b"a 1 fault 10 no transaction\n"


def sections(size, seed):
    return b"@session a\n" * (size // 11), None


def random_bytes(size, seed):
    return random.Random(seed).randbytes(size), None


def random_text(size, seed):
    """Letters and signs all over, in lines of a session."""
    random_ = random.Random(seed)
    block = bytes(random_.choice(b"abckt0123 (),;.*+-=<>'\t") for _ in range(65536))
    lines = (block[begin : begin + 400] for begin in itertools.cycle(range(0, 65000, 331)))
    return b"@session a\n" + b"".join(line + b"\n" for line in itertools.islice(lines, size // 401)), None


def large_answers(size, seed):
    """A short script whose answers are four times the size."""
    rows = 4000
    fill = ["insert into note values " + ", ".join("(%d, '%s')" % (k, "x" * 200) for k in range(first, first + 200)) for first in range(0, rows, 200)]
    answer = "rows %d\n" % rows + "\n".join("| %d | '%s'" % (k, "x" * 200) for k in range(rows))
    count = max(4 * size // len(answer), 1)
    replies = ["ok 200 commit %d" % number for number in range(1, len(fill) + 1)] + [answer] * count
    return whole(fill + ["select * from note"] * count, replies)


PIECES = [
    b"@setup", b"@session a", b"@session b", b"@session  B ", b"@SESSION c_1", b"@session w1", b"@session", b"@order", b"@order a", b"@order a b a",
    b"@order work 1 clean", b"@order mark v fetch 2 install 2", b"@order fetch 9", b"@order mark", b"@setup x", b"@ setup", b"  @order a", b"@end",
    b"begin", b"commit", b"rollback", b"show tasks",
    b"create table t (k int, n int, primary key (k))", b"create view v as select k, n from t where n > 1",
    b"insert into t values (1, 2)", b"insert into t values (2, 3), (3, 4)", b"update t set n = n + 1 where k < 3",
    b"delete from t where k = 2", b"select * from v", b"select * from t order by n desc;", b"select k fron t",
    b"", b"   ", b"-- x", b"\t-- @setup", b"'", b"\xff", b"\xc3\xa9", b"\0",
]


def random_script(seed):
    """A script of a few lines in some order, with line ends of both kinds. The first lines are mostly those of a whole script."""
    random_ = random.Random(seed)
    likely = random_.random() < 0.7
    lines = [b"@setup", PIECES[22], PIECES[23]] if likely else []
    for name in (b"a", b"b")[: random_.randint(0, 2)] if likely else ():
        lines += [b"@session " + name] + random_.choices(PIECES[18:32], k=random_.randint(0, 8))
    lines += random_.choices(PIECES[7:11], k=random_.randint(0, 3)) if likely else []
    for _ in range(random_.choice([0, 0, 0, 0, 1, 2]) if likely else random_.randint(1, 12)):
        lines.insert(random_.randint(0, len(lines)), random_.choice(PIECES))
    return b"".join(line + random_.choice([b"\n", b"\n", b"\r\n", b"\r\r\n"]) for line in lines)[: -1 if random_.random() < 0.2 else None]


SHAPES = {
    "comments of 65,536 bytes": comments,
    "empty lines": blank_lines,
    "carriage returns": carriage_returns,
    "one line": one_line,
    "16 MB and a byte": a_byte_too_many,
    "lines of 65,536 zero bytes": zero_bytes,
    "lines of 65,536 bytes": longest_lines,
    "conditions of 65,536 bytes": long_conditions,
    "lists of 32,000 columns": long_lists,
    "64 parentheses on each line": parentheses,
    "64 parentheses 450 times on each line": parentheses_in_long_lines,
    "64 NOTs on each line": nots,
    "65,000 parentheses on each line": parentheses_too_deep,
    "texts without an end": open_text,
    "65,000 quotes on each line": quotes,
    "numbers of 65,000 digits": digits,
    "names of 65,000 letters": long_names,
    "32,000 signs on each line": signs,
    "1,000 tuples on each line": many_tuples,
    "1,000 tuples on each line, and clean-ups": many_tuples_cleaned,
    "texts of 256 bytes, 62,000 rows": long_texts,
    "100,000 statements": statements,
    "100,001 statements": a_statement_too_many,
    "200,000 order items": order_items,
    "200,001 order items": an_item_too_many,
    "order lines without items": order_lines,
    "the same section again and again": sections,
    "random bytes": random_bytes,
    "random letters and signs": random_text,
    "answers of four times the size": large_answers,
}
