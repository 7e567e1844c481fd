"""Random files for a session: datasets, models, matrices and moves, some of them broken."""
import itertools
import json

from . import bodies, completing, csv_text, kinds
from .siblings import Refused, datasets, grids

PAIRS = [[["a", "b"], ["a", "c"], ["b", "c"]], [["a", "b"], ["b", "c"]], [["a"], ["b"], ["c"]]]
RASCH = {"kind": "rasch", "person": "a", "item": "b", "response": "c"}
INDEPENDENCE = {"kind": "hierarchical", "generators": [["a"], ["b"]]}
QUASI = {"kind": "quasi-independence"}
# The sizes of the factors, the combinations that are structural zeros, and models of them.
SHAPES = [
    ((2, 2), (), [INDEPENDENCE, QUASI]),
    ((2, 2), (), [INDEPENDENCE, {"kind": "hierarchical", "generators": [["b"], ["a", "a"], []]}]),
    ((2, 3), (), [INDEPENDENCE, QUASI]),
    ((2, 3), (4,), [INDEPENDENCE, QUASI]),
    ((3, 3), (0, 4, 8), [QUASI, INDEPENDENCE]),
    ((2, 2, 2), (), [{"kind": "hierarchical", "generators": some} for some in PAIRS] + [RASCH]),
    ((1, 3, 2), (), [RASCH, RASCH | {"item": "c", "response": "b"}]),
    ((3,), (), [{"kind": "hardy-weinberg", "classes": 2}, {"kind": "hierarchical", "generators": [[]]}]),
    ((6,), (), [{"kind": "hardy-weinberg", "classes": 3}]),
    ((1,), (), [{"kind": "hardy-weinberg", "classes": 1}]),
]
WRONG = ["x", "", 0, -1, 1.5, True, [], [0], ["a"], [["z"]], [["a", 1]], {"a": 1}, 11, 2**32, [1, 1]]
WRONG += [[1, 2**32], [2**63], "a", "b", "c"]
KEYS = ["kind", "generators", "person", "item", "response", "classes", "scale", "base", "other"]
GARBAGE = ["kind", "= 1", "x = ", 'y = "', "[t", "kind = 'matrix'", "z = [1,, 2]", "u = 01", "v = 1 2"]


# Datasets.


def records_of(dice, sizes, zeros):
    """The records of a dataset of these sizes, in order, a few left out."""
    records = [[*(b"a", b"b", b"c")[: len(sizes)], b"count"]]
    for k, levels in enumerate(itertools.product(*map(range, sizes))):
        entry = b"*" if k in zeros else b"%d" % dice.choice((0, 1, 1, 2, 3))
        records.append([*(b"%d" % level for level in levels), entry])
    return records


def dataset_text(dice, sizes, zeros):
    """The text of a dataset, mostly of these sizes, now and then another or broken."""
    style = dice.random()
    if style < 0.1:
        records, _ = datasets.broken(dice, *dice.choice(datasets.KINDS))
    elif style < 0.2:
        records, _ = datasets.random_records(dice)
    else:
        records = records_of(dice, sizes, zeros)
    return datasets.text_of(dice, records)


# Models.


def toml_value(value):
    """A value as TOML has it."""
    if isinstance(value, dict):
        return "{" + ", ".join(f"{key} = {toml_value(inner)}" for key, inner in value.items()) + "}"
    if isinstance(value, list):
        return "[" + ", ".join(map(toml_value, value)) + "]"
    return json.dumps(value, ensure_ascii=False)


def toml_text(dice, table):
    """The text of a table, its keys in any order, one in twelve with a line of garbage."""
    lines = [dice.choice(("{} = {}", "{}={}", "{} = {} # x")).format(k, toml_value(v)) for k, v in table.items()]
    if dice.random() < 0.08:
        lines.append(dice.choice(GARBAGE))
    dice.shuffle(lines)
    text = dice.choice(("\n", "\n\n", "\r\n")).join(lines).encode() + b"\n"
    return text + b"# \xff\n" if dice.random() < 0.02 else text


def edited(dice, table):
    """A table of which a key is left out, or has another value."""
    key = dice.choice([*table, *table, *KEYS])
    if dice.random() < 0.3:
        return {name: value for name, value in table.items() if name != key}
    return {**table, key: dice.choice(WRONG)}


def model_table(dice, tables, cells):
    """The keys of a model, one in five with an edit."""
    table = dict(dice.choice(tables))
    if dice.random() < 0.2:
        table["base"] = [dice.choice((1, 1, 2, 3, 100, 2**32 - 1)) for _ in range(cells)]
    return edited(dice, table) if dice.random() < 0.2 else table


def matrix_rows(dice, width):
    """The rows of a small matrix, mostly with a row of ones."""
    rows = [[dice.choice((0, 1, 1, 2)) for _ in range(width)] for _ in range(dice.randrange(1, 3))]
    return [[1] * width, *rows][: dice.choice((1, 2, 3))] if dice.random() < 0.8 else rows


# Moves.


def basis_of(model_text, matrix, dataset_text):
    """The moves of a model's completion, or None where there is none of a few looks."""
    try:
        rows = kinds.read(model_text, matrix, csv_text.read(dataset_text))[0]
        _, certificate = completing.complete(rows, "grevlex", 60 if max(map(max, rows)) > 3 else 3000)
        return [list(move) for move in certificate[2]]
    except Refused:
        return None


def edited_moves(dice, moves):
    """The moves with signs changed, in another order, some twice or left out, or one that is no move."""
    moves = [[-z for z in move] if dice.random() < 0.4 else list(move) for move in moves]
    style = dice.random()
    if style < 0.2:
        moves.append(list(dice.choice(moves)))
    elif style < 0.5:
        moves.remove(dice.choice(moves))
    elif style < 0.6:
        dice.choice(moves)[0] += dice.choice((-1, 1))
    elif style < 0.65:
        moves.append([0] * len(moves[0]))
    dice.shuffle(moves)
    return moves


def moves_text(dice, moves, width):
    """The text of a move file."""
    wide = dice.random() < 0.05
    moves = edited_moves(dice, moves) if moves else []
    return grids.text_of(dice, width + wide, [move + [0] * wide for move in moves])


def combined(dice, moves):
    """Moves that span what these span: one is added to another."""
    if len(moves) > 1:
        i, j = dice.sample(range(len(moves)), 2)
        moves = [[a + b for a, b in zip(move, moves[j])] if k == i else move for k, move in enumerate(moves)]
    return moves


# The files that a list of commands reads.


def files(dice):
    """Files by name: datasets `d`, models `m`, a matrix `x`, moves `f`."""
    sizes, zeros, tables = dice.choice(SHAPES)
    found = {f"d{k}": dataset_text(dice, sizes, zeros) for k in (1, 2)}
    cells = grids.math.prod(sizes) - len(zeros)
    tables = [*tables, *tables, {"kind": "matrix"}, {"kind": "matrix", "scale": [1]}]
    if dice.random() < 0.08:
        tables = dice.choice(SHAPES)[2]
    found |= {f"m{k}": toml_text(dice, model_table(dice, tables, cells)) for k in (1, 2, 3)}
    found["x"] = grids.text_of(dice, cells, matrix_rows(dice, cells))
    bases = [basis_of(found[m], found["x"], found[d]) for m in ("m1", "m2") for d in ("d1", "d2")]
    moves = next((basis for basis in bases if basis), [])
    width = len(moves[0]) if moves else cells
    found["f1"] = bodies.line(len(moves), width) + b"".join(bodies.line(*move) for move in moves)
    found["f2"] = moves_text(dice, moves, width)
    found["f3"] = moves_text(dice, combined(dice, moves), width)
    return found
