"""Given moves beside a certificate: for each rule free of margins the least path by the moves."""
from .siblings import Refused


def steps(moves):
    """The steps in their order: by the number of the move, adding it before subtracting it."""
    for k, move in enumerate(moves, 1):
        yield k, move
        yield -k, tuple(-z for z in move)


def next_ring(ring, seen, moves):
    """The tables one step further, each with its least path; the ring is in the order of its paths."""
    found = {}
    for table, path in ring.items():
        for k, move in steps(moves):
            other = tuple(x + z for x, z in zip(table, move))
            if min(other) >= 0 and other not in seen and other not in found:
                found[other] = (*path, k)
    return found


def path(start, end, moves, limit):
    """The least path between two tables, or None; refuses more tables than the limit."""
    ring, seen = {start: ()}, {start}
    while ring:
        if end in ring:
            return ring[end]
        ring = next_ring(ring, seen, moves)
        seen.update(ring)
        if len(seen) > limit:
            raise Refused(f"seen {limit + 1}", 5)
    return None


def test_moves(matrix, width, moves):
    """Refuses moves of another width, and the first that is no move."""
    if width != len(matrix[0]):
        raise Refused(f"WidthDiffers matrix {len(matrix[0])} moves {width}")
    for k, move in enumerate(moves, 1):
        if any(sum(a * z for a, z in zip(row, move)) for row in matrix):
            raise Refused(f"NotAMove row {k}")


def counts(table):
    return " ".join(map(str, table))


def path_of(rule, number, d, moves, limit):
    """The path of a rule by the moves."""
    left, right = (side[d:] for side in rule)
    try:
        found = path(left, right, moves, limit)
    except Refused:
        raise Refused(f"TooLarge rule {number} seen {limit + 1}", 5) from None
    if found is None:
        raise Refused(f"NotBasis rule {number} left {counts(left)} right {counts(right)}")
    return number, found


def beside(certificate, width, moves, limit):
    """The certificate of the given moves."""
    matrix, order, _, rules, starts, joins, _ = certificate
    test_moves(matrix, width, moves)
    d = len(matrix)
    free = [(k, rule) for k, rule in enumerate(rules) if not any(rule[0][:d] + rule[1][:d])]
    paths = [path_of(rule, k, d, moves, limit) for k, rule in free]
    return matrix, order, moves, rules, starts, joins, paths
