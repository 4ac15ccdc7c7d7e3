"""Generated scripts of sixteen sessions, for runs with threads. Keys are few, so that sessions get in each other's way, and views join,
group and filter the same tables. `plan_of(seed)` gives all that one test runs."""
import random
from typing import NamedTuple, Optional

MOST = 2**63 - 1
NAMES = "abcdefghijklmnop"
TABLES = {
    "item": "create table item (id int, price int, name text, primary key (id))",
    "sale": "create table sale (no int, item int, qty int, primary key (no))",
    "stock": "create table stock (shop int, item int, n int, primary key (shop, item))",
}
VIEWS = {
    "lines": "select s.no, i.id, i.price, s.qty from sale s join item i on s.item = i.id",
    "per_item": "select s.item, sum(s.qty) as total, count(*) as n from sale s, item i where s.item = i.id group by s.item",
    "cheap": "select id, price, name from item where price < 40",
    "pairs": "select x.no, y.no as other, y.qty from sale x, sale y where x.item = y.item and x.no <= y.no",
    "per_shop": "select shop, sum(n) as pieces, count(*) as kinds from stock where n > 0 group by shop",
    "wanted": "select k.shop, k.item, s.no, s.qty from stock k, sale s where k.item = s.item and (s.qty > k.n or not k.shop = 1)",
    "names": "select name, count(*) as n, sum(price) as prices from item group by name",
    "three": "select i.id, s.no, k.shop, k.item from item i, sale s, stock k where i.id = s.item and k.item = i.id",
    "near": "select x.item, sum(y.qty) as total, count(*) as n from sale x, sale y where x.item = y.item group by x.item",
    "apart": "select s.no, s.qty, i.id from sale s, item i where s.qty > i.price",
}
# a column of each view by which queries ask for some of its rows
COLUMNS = {
    "lines": "qty", "per_item": "total", "cheap": "price", "pairs": "qty", "per_shop": "pieces", "wanted": "qty", "names": "n", "three": "no",
    "near": "total", "apart": "qty",
    "item": "price", "sale": "qty", "stock": "n",
}
ODD = [
    "select nope from item",
    "selct * from item",
    "create table t (k int, primary key (k))",
    "update item set id = 3",
    "insert into item values (1, 99999999999999999999, 'x')",
    "select * from item where name = 3",
    "select id from item i, item j",
    "insert into sale values (1, 2)",
]
WORDS = ["tea", "cup", "", "it's", "| 1", "żółw"]


class Plan(NamedTuple):
    """A run without threads that leaves a journal, where there is one, and the run with threads over it."""

    earlier: Optional[bytes]
    script: bytes
    words: list


class Statements:
    """Makes statements for a session, of the tables and these views."""

    def __init__(self, random_, views):
        self.random, self.views, self.is_open = random_, views, False
        # how much a session writes, reads and opens transactions
        self.weights = random_.choice([(6, 2, 3), (8, 1, 1), (2, 6, 3), (4, 4, 1), (3, 3, 6)])

    def make(self):
        changes, queries, words = self.weights
        kind = self.random.choices(["change", "query", "word", "tasks", "odd"], [changes, queries, words, 0.3, 0.3])[0]
        return getattr(self, kind)()

    def word(self):
        word = self.random.choice(["commit"] * 6 + ["rollback", "begin"] if self.is_open else ["begin"] * 8 + ["commit"])
        self.is_open = word == "begin"
        return word

    def tasks(self):
        return "show tasks"

    def odd(self):
        return self.random.choice(ODD)

    def query(self):
        name = self.random.choice(self.views * 2 + list(TABLES))
        column, number = COLUMNS[name], self.random.randint(0, 9)
        return self.random.choice([
            "select * from %s" % name,
            "select * from %s" % name,
            "select * from %s where %s > %d" % (name, column, number),
            "select %s from %s where not %s = %d order by %s desc" % (column, name, column, number, column),
            "select a.%s, b.id from %s a join item b on b.id = a.%s order by b.id desc, a.%s" % (column, name, column, column),
        ])

    def change(self):
        kinds = [self.new_sales] * 3 + [self.new_items, self.new_stock] + [self.update] * 3 + [self.delete]
        return self.random.choice(kinds)()

    def new_sales(self):
        number = lambda: self.random.randint(0, 59)
        rows = ["(%d, %d, %d)" % (number(), self.item(), self.random.randint(-3, 9)) for _ in range(self.random.choice([1, 1, 1, 3]))]
        return "insert into sale values " + ", ".join(rows)

    def new_items(self):
        name = self.random.choice(WORDS).replace("'", "''")
        return "insert into item values (%d, %d, '%s')" % (self.item(), self.random.randint(0, 60), name)

    def new_stock(self):
        return "insert into stock values (%d, %d, %d)" % (self.random.randint(1, 3), self.item(), self.random.randint(-1, 9))

    def item(self):
        return self.random.randint(0, 9)

    def update(self):
        amount = self.random.choice([1, 2, -3, 0, 5, 5, MOST - 40])
        plus = "%s %d" % ("-" if amount < 0 else "+", abs(amount))
        return self.random.choice([
            "update item set price = price %s where id = %d" % (plus, self.item()),
            "update item set price = %d where price > %d" % (self.random.randint(0, 60), self.random.randint(30, 60)),
            "update sale set qty = qty %s, item = %d where no < %d" % (plus, self.item(), self.random.randint(0, 9)),
            "update sale set qty = qty %s where no = %d" % (plus, self.random.randint(0, 59)),
            "update stock set n = n %s where shop = %d and item >= %d" % (plus, self.random.randint(1, 3), self.item()),
        ])

    def delete(self):
        return self.random.choice([
            "delete from sale where no = %d" % self.random.randint(0, 59),
            "delete from sale where qty < %d and item = %d" % (self.random.randint(-3, 3), self.item()),
            "delete from item where id = %d" % self.item(),
            "delete from stock where item = %d" % self.item(),
        ])


def setup_of(random_, views, fills):
    lines = list(TABLES.values()) + ["create view %s as %s" % (view, VIEWS[view]) for view in views]
    if fills:
        lines.append("insert into item values " + ", ".join("(%d, %d, '%s')" % (k, 7 * k, "tea" if k % 2 else "cup") for k in range(6)))
        lines.append("insert into sale values " + ", ".join("(%d, %d, %d)" % (k, k % 7, k % 5) for k in range(0, 40, 2)))
    # a transaction of the setup that stays live, now and then
    return lines + random_.choice([[], [], [], ["begin", "select * from sale"]])


def script_text(setup, sessions, order):
    lines = ["@setup"] + setup if setup else []
    for name, statements in sessions.items():
        lines += ["@session %s" % name] + statements
    return "\n".join(lines + (["@order " + " ".join(order)] if order else [])).encode() + b"\n"


def sessions_of(random_, names, views, most):
    makers = {name: Statements(random_, views) for name in names}
    return {name: [maker.make() for _ in range(random_.randint(1, most))] for name, maker in makers.items()}


def order_of(random_, views):
    """Items of an order, which a run with threads checks and does not follow."""
    items = ["clean", "work 1", "fetch 2", "mark %s" % views[0]]
    return random_.sample(items + list(NAMES[:4]), 3) if random_.random() < 0.2 else []


def earlier_script(random_, views):
    """A script of one session, at whose end some views are marked and others are behind."""
    statements = [Statements(random_, views).make() for _ in range(30)]
    items = ["work %d" % random_.randint(1, 3) for _ in range(random_.randint(0, 6))] + ["mark %s" % view for view in views[::2]]
    order = ["a"] * random_.randint(0, len(statements)) + items
    return script_text(setup_of(random_, views, True), {"a": statements}, order)


def words_of(random_):
    words = ["--threads"]
    words += ["--workers", str(random_.randint(0, 8))] if random_.random() < 0.9 else []
    words += ["--combine=%d" % random_.choice([1, 2, 3, 16, 64])] if random_.random() < 0.6 else []
    words += ["--policy", random_.choice(["oldest", "most", "first"])] if random_.random() < 0.7 else []
    words += ["--turns", str(random_.choice([0, 1, 3, 50, 10000]))] if random_.random() < 0.4 else []
    words += ["--log-limit", str(random_.randint(1500, 9000))] if random_.random() < 0.15 else []
    return words


def plan_of(seed):
    """The scripts and words of a seed."""
    random_ = random.Random(seed)
    views = random_.sample(list(VIEWS), random_.randint(1, 6))
    words, most = words_of(random_), random_.choice([6, 25, 60])
    if seed % 3 == 0 and len(views) > 1:
        earlier, setup = earlier_script(random_, views[1:]), ["create view %s as %s" % (views[0], VIEWS[views[0]])]
    else:
        earlier, setup = None, setup_of(random_, views, random_.random() < 0.8)
    sessions = sessions_of(random_, NAMES, views, most)
    return Plan(earlier, script_text(setup, sessions, order_of(random_, views)), words)
