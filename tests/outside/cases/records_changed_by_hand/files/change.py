"""change KIND NAME [FILE]: the row has the body that the file is, or is gone."""
import sqlite3
import sys

kind, name, *file = sys.argv[1:]
with sqlite3.connect("markov_desk.db") as base:
    base.execute("DELETE FROM records WHERE kind = ? AND name = ?", (int(kind), name))
    for path in file:
        base.execute("INSERT INTO records VALUES (?, ?, ?)", (int(kind), name, open(path, "rb").read()))
base.close()
