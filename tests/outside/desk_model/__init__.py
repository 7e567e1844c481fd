"""A plain model of the whole desk: what each command puts, its status, and the files and rows after it.

It is put together from the models beside this folder, which have no ending in their names; it shares nothing with the
program. Names and files are texts and bytes of Python, rows are a dictionary from kind and name to bytes.
"""
