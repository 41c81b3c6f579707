"""Files of filters: what each is of some rows, or why it is none."""
import json
import re
import uuid

import published
from case import Case, line_of, refused, values

OID = 16384


def table_of(columns):
    """The configuration of a table of columns such as `k:text v:int4`."""
    names = [column.split(":") for column in columns.split(" ")]
    listed = ", ".join(f"[{json.dumps(name)}, '{kind}']" for name, kind in names)
    head = f"[[table]]\noid = {OID}\nschema = 'public'\nname = 'filtered'\nidentity = 'full'\n"
    return head + f"key = [{json.dumps(names[0][0])}]\ncolumns = [{listed}]\n", [kind for _, kind in names]


def value_of(kind, value):
    if value == "null":
        return None
    if kind == "text":
        return re.fullmatch("'(.*)'", value)[1]
    if kind == "uuid":
        return uuid.UUID(value[1:-1])
    return {"true": True, "false": False}[value] if kind == "bool" else (kind, int(value))


def row_of(kinds, values):
    """The body of an insert of values such as `'a';null`, one for each column."""
    return published.insert(OID, [value_of(*it) for it in zip(kinds, values.split(";"), strict=True)]).hex()


def expanded(text):
    """`[N*PIECE]` stands for N times the piece, `\\t` for a tab, and `\\n` for a line end."""
    text = re.sub(r"\[(\d+)\*([^]]*)\]", lambda found: found[2] * int(found[1]), text)
    return text.replace("\\t", "\t").replace("\\n", "\n")


def came(answer):
    """What came of the filter, as its line should begin."""
    if refused(answer):
        at, told = answer.removeprefix("! ").split(" ", 1)
        return f"! {told.partition(':')[0]} {at} "
    return f"= {''.join(truth.word[0].lower() for truth in values(answer))} "


def read(file):
    table, kinds, rows = "", [], []
    for number, line in enumerate(file.read_text().split("\n"), 1):
        if line.startswith("table "):
            (table, kinds), rows = table_of(line.removeprefix("table ")), []
        elif line.startswith("row "):
            rows.append(row_of(kinds, line.removeprefix("row ")))
        elif line and not line.startswith("#"):
            text = expanded(line.split(" ", 2 if line.startswith("= ") else 3)[-1])
            yield Case(number, [line_of("filter", table, ",".join(rows), text)], came, line.startswith)
