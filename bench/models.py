"""The matrices of some models, each with its name, as lists of rows."""
import itertools


def margins(sizes, groups):
    """The rows of the model whose margins are those of these groups of factors."""
    cells = list(itertools.product(*map(range, sizes)))
    for group in groups:
        for levels in itertools.product(*(range(sizes[factor]) for factor in group)):
            yield [int(all(cell[f] == level for f, level in zip(group, levels))) for cell in cells]


def hardy_weinberg(classes):
    """How often each class occurs in each pair of classes."""
    pairs = list(itertools.combinations_with_replacement(range(classes), 2))
    for k in range(classes):
        yield [pair.count(k) for pair in pairs]


INDEPENDENCE = [(f"{n} x {n} independence", list(margins((n, n), [(0,), (1,)]))) for n in (4, 6, 8)]
HARDY_WEINBERG = ("Hardy-Weinberg, 10 classes", list(hardy_weinberg(10)))
NO_THREE_WAY = ("2 x 2 x 3, no three-way interaction", list(margins((2, 2, 3), [(0, 1), (0, 2), (1, 2)])))
FOUR_CYCLE = ("binary 4-cycle", list(margins((2, 2, 2, 2), [(0, 1), (1, 2), (2, 3), (0, 3)])))
MUTUAL_INDEPENDENCE = ("4 x 4 x 4 mutual independence", list(margins((4, 4, 4), [(0,), (1,), (2,)])))
