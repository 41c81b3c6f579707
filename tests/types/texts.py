"""Texts of each type by chance: of values that are likely and of those at its limits, written in ways that PostgreSQL takes, and others."""
# Those that are asked; the texts of one stand under its word alone.
TYPES = (
    *("numeric", "numeric(10,2)", "numeric(5,5)", "numeric(7)", "varchar", "varchar(5)", "char(5)", "char", "bytea"),
    *("date", "time", "timestamp", "timestamptz"),
)


def blanks(by):
    return by.choice(["", "", "", "", " ", "  ", "\t"])


def among_blanks(text):
    return lambda by: blanks(by) + text(by) + blanks(by)


def digits(by, count):
    return "".join(by.choice("0123456789") for _ in range(count))


def number(by):
    whole = digits(by, by.choice([1, 1, 2, 3, 5, 8, 12, 17, 20, 25]))
    if by.random() < 0.3:
        whole = by.choice(["0", "1", "9", "99", "999", "10", "100", "00"]) + whole[: by.randrange(3)]
    dice = by.random()
    fraction = "." + digits(by, by.choice([1, 2, 3, 3, 6, 12])) if dice < 0.6 else "." if dice < 0.63 else ""
    whole = "" if fraction and by.random() < 0.05 else whole
    exponent = by.choice("eE") + by.choice(["", "+", "-"]) + str(by.choice([0, 1, 2, 3, 5, 10, 20, by.randrange(60)]))
    return by.choice(["", "", "", "-", "+"]) + whole + fraction + (exponent if by.random() < 0.25 else "")


def decimal(by):
    return by.choice([number(by)] * 12 + ["NaN", "nan", "Infinity", "-inf", "+infinity", "x", "", "1e", "1.2.3", "--1", "1 2"])


def characters(by):
    return "".join(by.choice("ab  c\\\"'ä€😀\tZ,{}") for _ in range(by.randrange(12))) + by.choice(["", "", "   "])


def bytes_text(by):
    dice = by.random()
    if dice < 0.5:
        return "\\x" + digits_of_hex(by, 2 * by.randrange(9) + (by.random() < 0.05))
    if dice < 0.6:
        return "\\x" + by.choice(["zz", "0g", " 00", " ", "0", "00 0a", "0 0"])
    parts = ["a", "b", "ä", "\\\\", f"\\{by.randrange(256):03o}", "\\101", " ", *["\\", "\\8", "\\400"] * (by.random() < 0.1)]
    return "".join(by.choice(parts) for _ in range(by.randrange(8)))


def digits_of_hex(by, count):
    return "".join(by.choice("0123456789abcdefABCDEF") for _ in range(count))


YEARS = 1, 99, 100, 400, 1582, 1600, 1900, 1970, 1999, 2000, 2004, 2024, 4713, 4714, 9999, 10000, 294276, 294277, 5874897, 5874898


def day(by):
    year = by.choice([*YEARS, by.randrange(1, 3000), by.randrange(1, 3000), by.randrange(1, 6000000)])
    month, day = by.choice([1, 2, 2, 3, 11, 12, by.randrange(14)]), by.choice([1, 28, 29, 30, 31, by.randrange(33)])
    years = by.choice(["%04d", "%04d", "%04d", "%03d", "%05d"]) % year
    return f"{years}-{by.choice(['%02d', '%02d', '%d']) % month}-{by.choice(['%02d', '%02d', '%d']) % day}"


def era(by):
    return by.choice([*[""] * 6, " BC", " BC", " bc", " AD", "  BC", "BC"])


def time(by):
    hour = by.choice([0, 23, 24, by.randrange(24), by.randrange(24), by.randrange(26)])
    minute = by.choice([0, 59, by.randrange(60), by.randrange(60), 60])
    second = by.choice([0, 59, 60, by.randrange(60), by.randrange(60), 61])
    fraction = by.choice(["", "", "." + digits(by, by.randrange(1, 7)), ".000000", ".999999", ".5", ".50"])
    clock = by.choice(["%02d:%02d"] * 8 + ["%d:%02d", "%02d:%d"]) % (hour, minute)
    return clock + by.choice(["", *[f":{second:02}{fraction}"] * 4])


ZONES = "", "+00", "+00", "+05", "-05", "+5", "+05:30", "-03:30", "Z", "z", "+14", "-12", "+15:59", "-15:59"
NAMED = "infinity", "-infinity", "Infinity", "epoch", "x", ""


def date(by):
    return by.choice([day(by) + era(by)] * 20 + [*NAMED, "2024-01"])


def moment(zones):
    def text(by):
        zone, ending = by.choice(zones), era(by)
        # A letter has to end its word.
        ending = f" {ending}" if zone[-1:].isalpha() and ending else ending
        whole = day(by) + by.choice([" ", " ", " ", "T"]) + time(by) + zone + ending
        return by.choice([whole] * 20 + [day(by) + era(by)] * 3 + [*NAMED])

    return text


TEXTS = {
    "numeric": among_blanks(decimal),
    **{word: characters for word in ("varchar", "char")},
    "bytea": bytes_text,
    "date": among_blanks(date),
    "time": among_blanks(lambda by: by.choice([time(by)] * 20 + ["x", ""])),
    "timestamp": among_blanks(moment([""])),
    "timestamptz": among_blanks(moment(ZONES)),
}
