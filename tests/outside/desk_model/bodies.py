"""Records: the body that is written of each kind, and the record that a body is."""
import re

from . import csv_text, kinds
from .siblings import Refused, certificates, datasets, grids

NUMBER = rb"(?:0|[1-9][0-9]*)"
NUMBERS = rb"%b(?: %b)*" % (NUMBER, NUMBER)
NAME = rb"[a-z0-9_][a-z0-9_-]{0,63}"
TOP, WORD = 2**128, 2**32


def line(*items):
    return " ".join(map(str, items)).encode() + b"\n"


def numbers(text):
    return tuple(map(int, text.split(b" ")))


# Datasets: their one text.


def dataset_text(dataset):
    return datasets.written(*dataset)


# Models: the name of the dataset, the rows, the scale and the base numbers.

MODEL = rb"model 1\ndataset (%b)\nmatrix (%b) (%b)\n((?:%b\n)+)scale (all|rows (%b))\nbase (%b)\nend\n"
MODEL = re.compile(MODEL % (NAME, NUMBER, NUMBER, NUMBERS, NUMBERS, NUMBERS))


def model_text(model):
    dataset, rows, scale, base = model
    lines = [line("model", 1), line("dataset", dataset), line("matrix", len(rows), len(rows[0]))]
    lines += [line(*row) for row in rows]
    lines.append(line("scale", "all") if scale is None else line("scale", "rows", *scale))
    return b"".join([*lines, line("base", *base), line("end")])


def model_of(body):
    """The model that a body is, or None."""
    found = MODEL.fullmatch(body)
    if not found:
        return None
    dataset, height, width, lines, _, scale, base = found.groups()
    rows, base = [numbers(row) for row in lines.splitlines()], numbers(base)
    scale = scale and numbers(scale)
    sizes = len(rows) == int(height) <= 64 and {len(base), *map(len, rows)} == {int(width)} and int(width) <= 64
    if not sizes or max((*base, *(scale or ()))) >= WORD:
        return None
    try:
        return (dataset.decode(), *kinds.model_on(rows, scale, base))
    except Refused:
        return None


# Bases: the name of the model, and the certificate.

BASIS = re.compile(rb"basis 1\nmodel (%b)\n(.*)" % NAME, re.DOTALL)


def certificate_text(certificate):
    matrix, order, moves, rules, starts, joins, paths = certificate
    lines = [line("certificate", 1), line("matrix", len(matrix), len(matrix[0]))]
    lines += [line(*row) for row in matrix] + [line("order", order), line("moves", len(moves))]
    lines += [line(*move) for move in moves] + [rule_table(rules), line("starts", len(starts))]
    lines += [line(*map(len, traces), *traces[0], *traces[1]) for traces in starts] + [line("joins", len(joins))]
    lines += [line(i, j, *map(len, traces), *traces[0], *traces[1]) for i, j, *traces in joins]
    lines += [line("paths", len(paths)), *(line(rule, len(steps), *steps) for rule, steps in paths)]
    return b"".join([*lines, line("end")])


def rule_table(rules):
    return line("rules", len(rules)) + b"".join(line(*left, ">", *right) for left, right in rules)


def basis_text(basis):
    model, certificate = basis
    return line("basis", 1) + line("model", model) + certificate_text(certificate)


def basis_of(body):
    """The basis that a body is, or None."""
    found = BASIS.fullmatch(body)
    try:
        return found and (found[1].decode(), certificates.read(found[2]))
    except certificates.Wrong:
        return None


# Analyses: the four names, the observed table, the sizes of the rings, and the three numbers.

REPORT = rb"analysis (%b)\nbasis (%b)\nmodel (%b)\ndataset (%b)\nobserved (%b)\ntables (%b)\nrings (%b)\n"
REPORT += rb"weight (%b)\nfraction (%b)/(%b)\ndecimals ([01]\.[0-9]{6})\n"
REPORT = re.compile(REPORT % (*[NAME] * 4, NUMBERS, NUMBER, NUMBERS, *[NUMBER] * 3))


def report_text(report):
    names, observed, rings, weight, below, whole = report
    lines = [line(word, name) for word, name in zip(("analysis", "basis", "model", "dataset"), names)]
    lines += [line("observed", *observed), line("tables", sum(rings)), line("rings", *rings), line("weight", weight)]
    return b"".join([*lines, line("fraction", f"{below}/{whole}"), line("decimals", grids.decimals(below, whole))])


def report_of(body):
    """The report that a body is, or None."""
    found = REPORT.fullmatch(body)
    if not found:
        return None
    names = tuple(name.decode() for name in found.groups()[:4])
    observed, rings = numbers(found[5]), numbers(found[7])
    weight, below, whole = (int(found[k]) for k in (8, 9, 10))
    sums = 1 <= weight <= below <= whole < TOP and found[11].decode() == grids.decimals(below, whole)
    sizes = len(observed) <= 64 and max(*observed, *rings, 0) < WORD and int(found[6]) == sum(rings)
    return (names, observed, rings, weight, below, whole) if sums and sizes else None


WRITTEN = {"dataset": dataset_text, "model": model_text, "basis": basis_text, "analysis": report_text}
READ = {"dataset": csv_text.kept, "model": model_of, "basis": basis_of, "analysis": report_of}
# What the record that a record refers to is called in it.
REFERS = {"dataset": lambda record: None, "model": lambda record: record[0], "basis": lambda record: record[0]}
REFERS["analysis"] = lambda record: record[0][1]
