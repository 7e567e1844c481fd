"""The database of a folder, by Python's sqlite3."""
import contextlib
import os
import shutil
import sqlite3
import tempfile

NAME = "markov_desk.db"
TABLE = "records(kind INTEGER NOT NULL, name TEXT NOT NULL, body BLOB NOT NULL, PRIMARY KEY(kind, name)) STRICT"


def connect(path):
    return contextlib.closing(sqlite3.connect(path, isolation_level=None))


def rows(folder):
    """The rows of the database, None where there is none. A copy is read, so the files stay as they are."""
    if not os.path.exists(os.path.join(folder, NAME)):
        return None
    with tempfile.TemporaryDirectory() as place:
        for end in ("", "-wal", "-journal"):
            if os.path.exists(os.path.join(folder, NAME + end)):
                shutil.copy(os.path.join(folder, NAME + end), place)
        with connect(os.path.join(place, NAME)) as base:
            return sound_rows(base)


def sound_rows(base):
    """The rows of a database that is sound and has the one table, or none yet, and then no row."""
    assert base.execute("PRAGMA integrity_check").fetchall() == [("ok",)]
    texts = base.execute("SELECT sql FROM sqlite_schema WHERE sql IS NOT NULL").fetchall()
    if not texts:
        return {}
    assert [text.replace("IF NOT EXISTS ", "") for text, in texts] == [f"CREATE TABLE {TABLE}"], texts
    return {(kind, name): body for kind, name, body in base.execute("SELECT kind, name, body FROM records")}


def replace(folder, rows):
    """Makes the rows of the database these, changing what differs."""
    with connect(os.path.join(folder, NAME)) as base:
        base.execute(f"CREATE TABLE IF NOT EXISTS {TABLE}")
        before = {(kind, name): body for kind, name, body in base.execute("SELECT kind, name, body FROM records")}
        for kind, name in before.keys() - rows.keys():
            base.execute("DELETE FROM records WHERE kind = ? AND name = ?", (kind, name))
        for (kind, name), body in rows.items():
            if before.get((kind, name)) != body:
                base.execute("INSERT OR REPLACE INTO records VALUES (?, ?, ?)", (kind, name, body))
