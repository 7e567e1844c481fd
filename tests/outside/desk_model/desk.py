"""The desk: what each command answers, and what it makes of the files and rows."""
from . import bodies, completing, csv_text, exact, given, kinds, registry
from .siblings import Refused, certificates, grids
from .words import request


def check(certificate):
    """Refuses a certificate that isn't valid, at its first wrong line."""
    try:
        certificates.Check(*certificate)
    except certificates.Wrong as wrong:
        raise Refused("Certificate line {} reason {}".format(*wrong.args)) from None


def grid_text(width, rows):
    """A text of rows."""
    return b"".join([bodies.line(len(rows), width), *(bodies.line(*row) for row in rows)])


class Desk:
    """A folder: its files by name, and its rows, None where there is no database yet."""

    def __init__(self, files=()):
        self.files, self.rows = dict(files), None

    def call(self, words):
        """What a command puts, and its status."""
        asked = request(words)
        if asked is None:
            return b"refused Words\n", 2
        command, values, options = asked
        try:
            return getattr(self, f"do_{command}")(*values, **{name[2:]: n for name, n in options.items()}), 0
        except Refused as refused:
            text, status = refused.args
            return text.encode(), status

    # The files and the rows.

    def read(self, *names):
        """The bytes of files, read in this order."""
        for place, name in enumerate(names, 1):
            if name not in self.files:
                raise Refused(f"NoFile file {place}")
        return [self.files[name] for name in names]

    def opened(self):
        """The rows, which are there from the first look-up on."""
        if self.rows is None:
            self.rows = {}
        return self.rows

    def get(self, kind, name):
        return registry.get(self.opened(), kind, name)

    def store(self, kind, name, record, *lines):
        """Stores a record, and says so in the lines."""
        done = registry.add(self.opened(), kind, name, record)
        return b"".join([bodies.line(done, kind, name), *lines])

    # Commands without records.

    def do_moves(self, matrix, moves):
        return self.plain([matrix, moves], None)

    def do_reach(self, matrix, moves, table, limit=100_000):
        return self.plain([matrix, moves, table], limit)

    def do_check(self, file):
        return self.text_of(certificates.answer(*self.read(file)))

    def do_generate(self, seed, workers=1):
        return grids.answer_generate(seed).encode()

    def plain(self, names, limit):
        """The answer of `moves` or `reach`, which have a model of their own."""
        return self.text_of(grids.answer(self.read(*names), limit))

    @staticmethod
    def text_of(answer):
        """The text of an answer, whose refusal is one here too."""
        text, status = answer
        if status:
            raise Refused(text.removeprefix("refused ").rstrip("\n"), status)
        return text.encode()

    # Commands with records.

    def do_dataset(self, name, file):
        dataset = csv_text.read(*self.read(file))
        counts = csv_text.counts(dataset)
        return self.store("dataset", name, dataset, bodies.line("cells", len(counts), "total", sum(counts)))

    def do_model(self, name, dataset, file, matrix=None):
        text, *more = self.read(file, *[matrix] * (matrix is not None))
        rows, scale, base = kinds.read(text, more[0] if more else None, self.get("dataset", dataset))
        sizes = bodies.line("margins", len(rows), "cells", len(base))
        return self.store("model", name, (dataset, rows, scale, base), sizes)

    def do_basis(self, name, model, order="grevlex", pairs=1_000_000):
        rows = self.get("model", model)[1]
        looks, certificate = completing.complete(rows, order, pairs)
        return self.store_basis(name, model, certificate, bodies.line("looks", looks))

    def do_import(self, name, basis, file, limit=100_000):
        width, moves = grids.sheet(*self.read(file), range(1_000_065), 1)
        model, certificate = self.get("basis", basis)
        check(certificate)
        return self.store_basis(name, model, given.beside(certificate, width, moves, limit))

    def store_basis(self, name, model, certificate, *lines):
        rules, moves = bodies.line("rules", len(certificate[3])), bodies.line("moves", len(certificate[2]))
        return self.store("basis", name, (model, certificate), *lines, rules, moves)

    def do_analyse(self, name, basis, limit=2_000_000, workers=1):
        model, certificate = self.get("basis", basis)
        dataset, *fixed = self.get("model", model)
        observed = csv_text.counts(self.get("dataset", dataset))
        if tuple(certificate[0]) != fixed[0]:
            raise Refused(f"BadRecord kind basis name {basis}", 6)
        if len(fixed[2]) != len(observed):
            raise Refused(f"BadRecord kind model name {model}", 6)
        check(certificate)
        report = ((name, basis, model, dataset), observed, *exact.figures(fixed, certificate[2], observed, limit))
        return self.store("analysis", name, report, bodies.report_text(report))

    def do_report(self, name):
        return bodies.report_text(self.get("analysis", name))

    def do_list(self):
        found = registry.listed(self.opened())
        return b"".join([bodies.line("records", len(found)), *(bodies.line(*row) for row in found)])

    def do_export(self, what, name, file):
        text = self.part(what, name)
        if "/" in file:
            raise Refused("Outside", 4)
        self.files[file] = text
        return bodies.line("wrote", what, name, "bytes", len(text))

    def part(self, what, name):
        """The bytes of a dataset, of a model's matrix, or of what a basis holds."""
        if what == "dataset":
            return bodies.dataset_text(self.get("dataset", name))
        if what == "matrix":
            rows = self.get("model", name)[1]
            return grid_text(len(rows[0]), rows)
        certificate = self.get("basis", name)[1]
        if what == "moves":
            return grid_text(len(certificate[0][0]), certificate[2])
        return bodies.rule_table(certificate[3]) if what == "rules" else bodies.certificate_text(certificate)

    def do_remove(self, kind, name):
        registry.remove(self.opened(), kind, name)
        return bodies.line("removed", kind, name)
