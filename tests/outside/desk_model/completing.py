"""Completion of a matrix: the looks, and the certificate of the reduced rules."""
import functools

from .siblings import Refused, certificates, completions


@functools.lru_cache(maxsize=None)
def run(rows, order, pairs):
    """The looks and the certificate, or the line of the refusal."""
    model = completions.Model(order, rows)
    end, rules = model.run(pairs)
    if end[0] == "unfinished":
        return "Unfinished looked {} left {} {}".format(*end[1:])
    if end[0] == "exponent":
        return "Exponent pair {} {}".format(*end[1:])
    lines = certificates.made_by(model, model.reduced(rules))
    return end[1], certificates.read("".join(f"{line}\n" for line in lines).encode())


def complete(rows, order, pairs):
    """The looks and the certificate."""
    found = run(rows, order, pairs)
    if isinstance(found, str):
        raise Refused(found, 5)
    return found
