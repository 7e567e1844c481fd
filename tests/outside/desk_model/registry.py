"""Records and their references, over rows: a dictionary from the number of a kind and a name to a body."""
from . import bodies
from .siblings import Refused
from .words import KINDS, is_name


def number(kind):
    return KINDS.index(kind) + 1


def get(rows, kind, name):
    """The record of a kind and a name."""
    if (number(kind), name) not in rows:
        raise Refused(f"Unknown kind {kind} name {name}", 6)
    return tested(rows, kind, name)


def tested(rows, kind, name):
    """The record of a row that is there."""
    record = bodies.READ[kind](rows[number(kind), name])
    if record is None or not is_name(name):
        raise Refused(f"BadRecord kind {kind} name {name}", 6)
    return record


def names(rows, kind):
    """The names of a kind, in ascending order of bytes."""
    return sorted((name for k, name in rows if k == number(kind)), key=str.encode)


def add(rows, kind, name, record):
    """Adds a record, and says whether it is new."""
    body = bodies.WRITTEN[kind](record)
    if kind != "dataset":
        before, referred = KINDS[number(kind) - 2], bodies.REFERS[kind](record)
        if (number(before), referred) not in rows:
            raise Refused(f"Unknown kind {before} name {referred}", 6)
    kept = rows.get((number(kind), name))
    if kept not in (None, body):
        raise Refused(f"Conflict kind {kind} name {name}", 6)
    rows[number(kind), name] = body
    return "stored" if kept is None else "unchanged"


def listed(rows):
    """The kind, the name and the length of each record."""
    found = [(kind, name) for kind in KINDS for name in names(rows, kind)]
    for kind, name in found:
        if not is_name(name):
            raise Refused(f"BadRecord kind {kind} name {name}", 6)
    return [(kind, name, len(rows[number(kind), name])) for kind, name in found]


def remove(rows, kind, name):
    """Takes a record out that no other refers to."""
    if (number(kind), name) not in rows:
        raise Refused(f"Unknown kind {kind} name {name}", 6)
    if kind != KINDS[-1]:
        after = KINDS[number(kind)]
        for other in names(rows, after):
            if bodies.REFERS[after](tested(rows, after, other)) == name:
                raise Refused(f"InUse kind {kind} name {name} by {other}", 6)
    del rows[number(kind), name]
