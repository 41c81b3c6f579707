"""Rows a second of PostgreSQL and of pubd, from the table of SPEED."""
import re
import textwrap

from svg import FAINT, INK, PALE, Picture

WIDE, LEFT, RIGHT, TOP, ROW, BAR = 870, 246, 630, 64, 46, 15
COLOURS = {"PostgreSQL": "#94a3b8", "pubd": "#2563eb"}


def table(top):
    """The loads, each with its subscribers, both numbers, and how many times the one is of the other."""
    loads, load = {}, None
    section = (top / "docs/SPEED.md").read_text().partition("## Beside PostgreSQL")[2].partition("\n## ")[0]
    for line in section.splitlines():
        cells = [cell.strip() for cell in line.strip("|").split("|")]
        if len(cells) == 5 and re.fullmatch(r"[\d,]+", cells[1]):
            first, comma, who = cells[0].rpartition(", ")
            load = first if comma else load
            loads.setdefault(load, []).append((who, *(int(cell.replace(",", "")) for cell in cells[1:3]), cells[3]))
    return loads


def picture(top):
    loads = table(top)
    rows = sum(map(len, loads.values()))
    it = Picture(WIDE, TOP + rows * ROW + len(loads) * 58 + 6, "Rows a second of PostgreSQL 15 and of pubd")
    it.text(20, 34, "Rows a second of all subscribers together", 17, INK, "start", bold=True)
    x = 470
    for name, colour in COLOURS.items():
        it.box(x, 21, 16, 14, colour, colour, round_by=2)
        it.text(x + 22, 33, name, 14, PALE, "start")
        x += 120
    it.text(WIDE - 24, 34, "times (least to greatest)", 13, PALE, "end")
    y = TOP
    for load, lines in loads.items():
        y = panel(it, y, load, lines)
    return it


def panel(it, y, load, lines):
    """The bars of a load from its top, all in one scale that begins at nothing; answers where it ends."""
    most = max(number for _, *both, _ in lines for number in both)
    step = next(step for step in (100_000, 200_000, 500_000, 1_000_000, 2_000_000, 5_000_000) if most / step <= 5)
    it.text(20, y + 18, load, 15, INK, "start", bold=True)
    y += 34
    end = y + len(lines) * ROW
    for mark in range(0, most + 1, step):
        x = LEFT + (RIGHT - LEFT) * mark / most
        it.line([(x, y - 6), (x, end - 4)], FAINT, 1)
        it.text(x, end + 10, f"{mark / 1e6:g} million" if mark else "0", 12, PALE)
    for who, *both, times in lines:
        words = textwrap.wrap(who, 30)
        for at, line in enumerate(words):
            it.text(LEFT - 12, y + 29 - 9 * len(words) + 18 * at, line, 14, INK, "end")
        for at, (number, colour) in enumerate(zip(both, COLOURS.values())):
            long = (RIGHT - LEFT) * number / most
            it.box(LEFT, y + at * (BAR + 1), long, BAR, colour, colour, round_by=2)
            it.text(LEFT + long + 8, y + at * (BAR + 1) + 12, f"{number:,}", 12.5, PALE, "start", halo=True)
        it.text(WIDE - 24, y + 21, times, 14, INK, "end", bold=True)
        y += ROW
    return end + 24
