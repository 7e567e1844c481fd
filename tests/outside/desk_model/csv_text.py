"""Datasets as CSV text: the records of a text, and the dataset that they are."""
import re

from .siblings import Refused, datasets

END = b"\r\n"


def field_at(text, at):
    """The field that begins at a place, and the place after it. What stands behind a closing quote belongs to it."""
    found = re.compile(rb'"((?:[^"]|"")*)(?:"([^,\r\n]*))?|([^,\r\n]*)').match(text, at)
    inner, after, plain = found.groups()
    return plain if inner is None else inner.replace(b'""', b'"') + (after or b""), found.end()


def record_at(text, at):
    """The record that begins at a place, and the place after it."""
    fields = []
    while True:
        field, at = field_at(text, at)
        fields.append(field)
        if text[at : at + 1] != b",":
            return fields, at
        at += 1


def records_of(text):
    """The records of a text, after a byte order mark. Empty lines are none."""
    text, records, at = text.removeprefix(datasets.MARK), [], 0
    while True:
        while at < len(text) and text[at] in END:
            at += 1
        if at == len(text):
            return records
        fields, at = record_at(text, at)
        records.append(fields)


def read(text):
    """The factors, their levels and the entries of a dataset's text."""
    try:
        return datasets.table_of(records_of(text))
    except datasets.Fault as fault:
        name, *record = fault.args
        raise Refused(" ".join([name, "file 1", *(f"record {n}" for n in record)])) from None


def counts(dataset):
    """The counts of the cells, in order."""
    return tuple(entry for entry in dataset[2] if entry is not None)


def kept(body):
    """The dataset of a record's body, or None: it has to be what is written of it."""
    try:
        dataset = datasets.table_of(records_of(body))
    except datasets.Fault:
        return None
    return dataset if datasets.written(*dataset) == body else None
