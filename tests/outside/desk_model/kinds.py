"""Models: the rows, the scale and the base numbers that a model file says on a dataset."""
import itertools
import tomllib

from .siblings import Refused, grids


def is_toml(value):
    """Whether each whole number within a value has 64 bits, as TOML wants; Python takes wider ones."""
    if isinstance(value, (dict, list)):
        return all(map(is_toml, value.values() if isinstance(value, dict) else value))
    return type(value) is not int or -(2**63) <= value < 2**63


def toml_of(text):
    """The table of a text."""
    try:
        table = tomllib.loads(text.decode("utf-8"))
    except (UnicodeDecodeError, tomllib.TOMLDecodeError):
        table = None
    if table is None or not is_toml(table):
        raise Refused("Toml file 1")
    return table


# The values of keys.


def need(passed, key):
    if not passed:
        raise Refused(f"MissingKey key {key}")


def word_at(table, key):
    """The text at a key."""
    need(isinstance(table.get(key), str), key)
    return table[key].encode()


def is_number(value, lowest, highest):
    return type(value) is int and lowest <= value <= highest


def numbers_at(table, key, lowest):
    """The numbers at a key that may be left out."""
    if key not in table:
        return None
    need(isinstance(table[key], list) and all(is_number(n, lowest, 2**32 - 1) for n in table[key]), key)
    return table[key]


def generators_at(table):
    """The lists of names."""
    given = table.get("generators")
    need(isinstance(given, list) and all(isinstance(names, list) for names in given), "generators")
    need(all(isinstance(name, str) for names in given for name in names), "generators")
    return [[name.encode() for name in names] for names in given]


# The matrix and the measure.


def test_scale(rows, scale):
    """Refuses a scale that isn't one of these rows."""
    if scale is None:
        sums = [sum(column) for column in zip(*rows)]
        wrong = [j for j, total in enumerate(sums) if total != sums[0]]
    else:
        for k in scale:
            if not 1 <= k <= len(rows) or max(rows[k - 1]) > 1:
                raise Refused(f"BadScaleRow row {k}")
        wrong = [j for j in range(len(rows[0])) if sum(rows[k - 1][j] for k in scale) != 1]
    if wrong:
        raise Refused(f"ScaleNotCover cell {wrong[0]}")


def model_on(rows, scale, base):
    """The model of these rows, or the first fault of the matrix or the measure."""
    if not 1 <= len(rows) <= 64:
        raise Refused("TooManyMargins")
    grids.test_design(len(rows[0]), rows)
    test_scale(rows, scale)
    if 0 in base:
        raise Refused(f"BadBase cell {base.index(0)}")
    return tuple(map(tuple, rows)), scale and tuple(scale), tuple(base)


def groups(rows, scale):
    """The group of each cell."""
    cells = range(len(rows[0]))
    return tuple(0 if scale is None else next(g for g, k in enumerate(scale) if rows[k - 1][j]) for j in cells)


# The kinds.


class Dataset:
    """What a model asks of a dataset."""

    def __init__(self, factors, levels, entries):
        self.factors, self.levels = factors, levels
        names = itertools.product(*levels)
        self.cells = [name for name, entry in zip(names, entries) if entry is not None]

    def named(self, names):
        """The places of the named factors, in the dataset's order."""
        return [k for k, factor in enumerate(self.factors) if factor in names]

    def known(self, names):
        if not all(name in self.factors for name in names):
            raise Refused("UnknownFactor")

    def base(self, given):
        """The base numbers, one for each cell."""
        if given is not None and len(given) != len(self.cells):
            raise Refused(f"CellCount matrix {len(given)} data {len(self.cells)}")
        return [1] * len(self.cells) if given is None else given

    def size(self, places):
        """The number of combinations of some factors' levels."""
        found = 1
        for k in places:
            found *= len(self.levels[k])
        return found

    def margin(self, places):
        """One row for each combination of some factors' levels."""
        for names in itertools.product(*(self.levels[k] for k in places)):
            yield [int(tuple(cell[k] for k in places) == names) for cell in self.cells]

    def of_margins(self, generators, given):
        """The model that fixes these margins, its scale the first of them."""
        base = self.base(given)
        if sum(map(self.size, generators)) > 64:
            raise Refused("TooManyMargins")
        rows = [row for places in generators for row in self.margin(places)]
        return model_on(rows, range(1, self.size(generators[0]) + 1), base)


def hierarchical(table, dataset, file):
    generators, base = generators_at(table), numbers_at(table, "base", 1)
    dataset.known([name for names in generators for name in names])
    if not generators:
        raise Refused("EmptyGenerators")
    return dataset.of_margins([dataset.named(names) for names in generators], base)


def quasi_independence(table, dataset, file):
    base = numbers_at(table, "base", 1)
    if len(dataset.factors) != 2:
        raise Refused("NotTwoFactors")
    return dataset.of_margins([[0], [1]], base)


def rasch(table, dataset, file):
    person, item, response = (word_at(table, key) for key in ("person", "item", "response"))
    base = numbers_at(table, "base", 1)
    dataset.known((person, item, response))
    if len({person, item, response}) < 3 or dataset.size(dataset.named([response])) != 2:
        raise Refused("NotBinary")
    pairs = ((person, item), (person, response), (item, response))
    return dataset.of_margins([dataset.named(pair) for pair in pairs], base)


def hardy_weinberg(table, dataset, file):
    classes = table.get("classes")
    need(is_number(classes, 1, 10), "classes")
    pairs = [(i, j) for i in range(classes) for j in range(i, classes)]
    if len(pairs) != len(dataset.cells):
        raise Refused(f"CellCount matrix {len(pairs)} data {len(dataset.cells)}")
    rows = [[pair.count(i) for pair in pairs] for i in range(classes)]
    return model_on(rows, None, [1 if i == j else 2 for i, j in pairs])


def of_matrix(table, dataset, file):
    need(file is not None, "matrix")
    scale, given = numbers_at(table, "scale", 0), numbers_at(table, "base", 1)
    width, rows = grids.sheet(file, range(1, 65), 2)
    if width != len(dataset.cells):
        raise Refused(f"CellCount matrix {width} data {len(dataset.cells)}")
    return model_on(rows, scale, dataset.base(given))


KINDS = {
    "hierarchical": hierarchical,
    "quasi-independence": quasi_independence,
    "rasch": rasch,
    "hardy-weinberg": hardy_weinberg,
    "matrix": of_matrix,
}


def read(text, file, dataset):
    """The rows, the scale and the base numbers that a model file says, with the matrix file beside it."""
    table = toml_of(text)
    kind = word_at(table, "kind").decode()
    if kind not in KINDS:
        raise Refused("UnknownKind")
    return KINDS[kind](table, Dataset(*dataset), file)
