"""Steps of sessions by chance: transactions beside one another, with savepoints, refusals, long values and messages."""

NAMES = "T", "U", "V"
DEEPEST = 4


class Workload:
    """What is to be done next, as long as it is asked; what came of it is told back. `row_at` finds the row that a transaction sees."""

    def __init__(self, by, catalogue, row_at):
        self.by, self.catalogue, self.row_at = by, catalogue, row_at
        # The depth of savepoints of each transaction in progress.
        self.depths = {}

    def next(self):
        """The name of a transaction, and its step; None is a message outside of transactions."""
        by = self.by
        if by.random() < 0.04:
            return None, ("note", by.choice(["n", "an other"]), by.choice(["", "x", "it's", "é" * 40]))
        name = by.choice(NAMES)
        if name not in self.depths:
            return name, ("begin",)
        return name, self.step(name)

    def step(self, name):
        by, dice = self.by, self.by.random()
        table = by.choice(self.catalogue.tables)
        if dice < 0.3:
            return "insert", table, table.row(by)
        if dice < 0.55:
            return self.update(name, table)
        if dice < 0.67:
            return "delete", table, self.key(table)
        if dice < 0.69:
            return "truncate", by.sample(self.catalogue.tables, by.randint(1, len(self.catalogue.tables)))
        if dice < 0.73:
            return "message", by.choice(["m", "prefix"]), by.choice(["", "content", "€" * 30])
        if dice < 0.79 and self.depths[name] < DEEPEST:
            return ("savepoint",)
        if dice < 0.86 and self.depths[name]:
            # Seldom one that isn't open.
            return by.choice(["rollback", "release"]), by.randint(1, self.depths[name] + (by.random() < 0.1))
        if dice < 0.96:
            return ("commit",)
        return ("abort",)

    def key(self, table):
        return [table.value(self.by, name) for name in table.key]

    def update(self, name, table):
        """Mostly of the same key. A value stays as often as not, so that long ones are left out."""
        key, row = self.key(table), table.row(self.by)
        old = self.row_at(name, table, key) or row
        same_key = self.by.random() < 0.7
        kept = [self.by.random() < 0.6 or (same_key and column in table.key) for column, _ in table.columns]
        return "update", table, key, [was if keep else new for was, new, keep in zip(old, row, kept)]

    def told(self, name, step, is_done):
        """Whether the step was done."""
        word = step[0]
        if not is_done or name is None:
            return
        if word == "begin":
            self.depths[name] = 0
        elif word in ("commit", "abort"):
            del self.depths[name]
        elif word == "savepoint":
            self.depths[name] += 1
        elif word in ("rollback", "release"):
            self.depths[name] = step[1] - 1

    def ends(self):
        """The steps by which what is in progress ends."""
        for name in [*self.depths]:
            yield name, (self.by.choice(["commit", "commit", "abort"]),)
