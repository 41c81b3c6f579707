"""The shop of ./demo: which lines it tells pubd, a transaction at a time."""
import random

# How many pieces come where too few are left.
DELIVERY = 100
ARTICLES = "pen", "ink", "paper"
# The tables, as a subscriber has to make them.
TABLES = [
    "CREATE TABLE orders (id integer PRIMARY KEY, article text, quantity integer)",
    "CREATE TABLE stock (article text PRIMARY KEY, pieces integer)",
]


class Transaction:
    """Its lines but the last one, whether this is a commit, and after how many bytes of the stream its connection is cut, if it is."""

    def __init__(self, lines, commits=True, cut=None):
        self.lines, self.commits, self.cut = ["begin T", *lines], commits, cut
        self.last = "commit T" if commits else "abort T"


class Shop:
    def __init__(self, seed=1):
        self.by, self.orders, self.turn = random.Random(seed), 0, 0
        self.stock = dict.fromkeys(ARTICLES, DELIVERY)

    def opening(self):
        return Transaction([f"insert T public.stock ('{article}',{pieces})" for article, pieces in self.stock.items()])

    def next(self):
        """An order; of six one is called off, of one a second article is taken back, and within one the connection is cut."""
        self.turn += 1
        scene = self.turn % 6
        if scene == 3:
            return self.called_off()
        if scene == 4:
            return self.taken_back()
        return Transaction(self.order(), cut=60 if scene == 0 else None)

    def order(self):
        article, quantity = self.by.choice(ARTICLES), self.by.randint(1, 9)
        if self.stock[article] < quantity:
            self.stock[article] += DELIVERY
        self.orders += 1
        self.stock[article] -= quantity
        return [
            f"insert T public.orders ({self.orders},'{article}',{quantity})",
            f"update T public.stock ('{article}') ('{article}',{self.stock[article]})",
        ]

    def called_off(self):
        """Nothing of it stays, so its number is the next one's."""
        orders, stock = self.orders, dict(self.stock)
        lines = self.order()
        self.orders, self.stock = orders, stock
        return Transaction(lines, commits=False)

    def taken_back(self):
        kept = self.order()
        undone = self.called_off().lines[1:2]
        return Transaction([*kept, "savepoint T", *undone, "rollback T 1"])
