"""Rows that another hand has changed: bytes, names, kinds and bodies that no command would leave."""
from .siblings import grids

NO_NAMES = ["A", "", "-a", "a b", "a\nb", "\u00e9", "x" * 65, "a\0b", "b'; --"]


def some(dice, rows):
    """A row, as its kind and name."""
    return dice.choice(sorted(rows))


def a_byte(dice, rows):
    row = some(dice, rows)
    return rows | {row: grids.edit_byte(dice, rows[row].removesuffix(b"\n").split(b"\n"))}


def a_number(dice, rows):
    row = some(dice, rows)
    return rows | {row: grids.edit_number(dice, rows[row].removesuffix(b"\n").split(b"\n"))}


def a_line(dice, rows):
    row = some(dice, rows)
    return rows | {row: grids.edit_line(dice, rows[row].removesuffix(b"\n").split(b"\n"))}


def a_certificate(dice, rows):
    """A number of a certificate, where there is one."""
    bases = [row for row in sorted(rows) if row[0] == 3]
    if not bases:
        return rows
    row = dice.choice(bases)
    lines = rows[row].removesuffix(b"\n").split(b"\n")
    return rows | {row: b"\n".join(lines[:8]) + b"\n" + grids.edit_number(dice, lines[8:])}


def line_ends(dice, rows):
    """Bodies with the line ends of another system."""
    row = some(dice, rows)
    return rows | {row: rows[row].replace(b"\n", b"\r\n")}


def no_row(dice, rows):
    gone = some(dice, rows)
    return {row: body for row, body in rows.items() if row != gone}


def no_name(dice, rows):
    row = some(dice, rows)
    return rows | {(row[0], dice.choice(NO_NAMES)): rows[row]}


def no_kind(dice, rows):
    row = some(dice, rows)
    return rows | {(dice.choice((0, 5, 7, 255, 256, -1)), row[1]): rows[row]}


def other_body(dice, rows):
    """A row has the body of another, mostly of its kind."""
    row = some(dice, rows)
    like = [other for other in rows if other[0] == row[0]] if dice.random() < 0.7 else list(rows)
    return rows | {row: rows[dice.choice(sorted(like))]}


def other_name(dice, rows):
    """A row once more, under another name."""
    row = some(dice, rows)
    return rows | {(row[0], dice.choice(("a", "b", "c-1", "0"))): rows[row]}


EDITS = [a_byte, a_number, a_number, a_line, line_ends, no_row, no_row, no_row, no_name, no_kind, other_body, other_body]
EDITS += [other_name, *[a_certificate] * 6]


def tampered(dice, rows):
    """The rows with an edit or two, and the kind of a row that is another now."""
    before = rows
    for _ in range(dice.choice((1, 1, 2))):
        rows = dice.choice(EDITS)(dice, rows) if rows else rows
    changed = {row[0] for row, _ in before.items() ^ rows.items()}
    return rows, dice.choice(sorted(changed)) if changed else None
