"""Makes markov_desk.db anew: make.py PRAGMA .. [one], each pragma set before the table is made, with a dataset in it for `one`."""
import os
import sqlite3
import sys

TABLE = """CREATE TABLE records(kind INTEGER NOT NULL, name TEXT NOT NULL, body BLOB NOT NULL,
    PRIMARY KEY(kind, name)) STRICT"""

if os.path.exists("markov_desk.db"):
    os.remove("markov_desk.db")
with sqlite3.connect("markov_desk.db", isolation_level=None) as database:
    for word in sys.argv[1:]:
        if word != "one":
            database.execute("PRAGMA " + word)
    database.execute(TABLE)
    if sys.argv[-1] == "one":
        database.execute("INSERT INTO records VALUES (1, 'd', ?)", (b"a,count\nx,1\ny,2\n",))
database.close()
