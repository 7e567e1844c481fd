"""Reads a report of markov_desk from standard input: its lines as a dict, and the exact p-value."""
import sys
from fractions import Fraction

report = dict(line.rstrip("\n").split(" ", 1) for line in sys.stdin if not line.startswith(("stored ", "unchanged ")))
p_value = Fraction(report["fraction"])
print(f"{report['analysis']}: {report['tables']} tables, p = {p_value} = {float(p_value):.6f}")
