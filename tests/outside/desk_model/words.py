"""The words of a command line: a command with its values and options, or none."""
import re

KINDS = ("dataset", "model", "basis", "analysis")
PARTS = ("dataset", "matrix", "moves", "certificate", "rules")


def is_name(text):
    """Whether a text has the form of a name."""
    return bool(re.fullmatch("[a-z0-9_][a-z0-9_-]{0,63}", text))


def is_file(word):
    return len(word.encode()) <= 4096


def number(lowest, highest):
    """The reader of a number within bounds."""

    def read(word):
        n = int(word) if re.fullmatch("0|[1-9][0-9]{0,9}", word) else None
        return n if n is not None and lowest <= n <= highest else None

    return read


def one_of(words):
    """The reader of one of these words."""
    return lambda word: word if word in words else None


def that(test):
    """The reader of a word that passes a test."""
    return lambda word: word if test(word) else None


FILE, NAME, FEW, WORKERS = that(is_file), that(is_name), number(1, 100_000), number(1, 64)
# The readers of each command's words in their order, and of its options.
COMMANDS = {
    "moves": ([FILE, FILE], {}),
    "reach": ([FILE, FILE, FILE], {"--limit": FEW}),
    "dataset": ([NAME, FILE], {}),
    "model": ([NAME, NAME, FILE], {"--matrix": FILE}),
    "basis": ([NAME, NAME], {"--order": one_of(("lex", "grevlex")), "--pairs": number(0, 1_000_000)}),
    "import": ([NAME, NAME, FILE], {"--limit": FEW}),
    "check": ([FILE], {}),
    "analyse": ([NAME, NAME], {"--limit": number(1, 2_000_000), "--workers": WORKERS}),
    "report": ([NAME], {}),
    "list": ([], {}),
    "export": ([one_of(PARTS), NAME, FILE], {}),
    "remove": ([one_of(KINDS), NAME], {}),
    "generate": ([number(0, 43_046_720)], {"--workers": WORKERS}),
}


def value(read, word):
    """The value of a word, none where the word is empty or looks like an option."""
    return None if not word or word.startswith("-") else read(word)


def options_of(words, readers):
    """The values of the options, or None where one is wrong, there twice or without a value."""
    found = {}
    if len(words) % 2:
        return None
    for name, word in zip(words[::2], words[1::2]):
        if name not in readers or name in found or value(readers[name], word) is None:
            return None
        found[name] = readers[name](word)
    return found


def request(words):
    """The command, its values and its options, or None where the words are no request."""
    if not words or words[0] not in COMMANDS:
        return None
    readers, forms = COMMANDS[words[0]]
    rest = words[1 : len(readers) + 1]
    values = [value(read, word) for read, word in zip(readers, rest)]
    options = options_of(words[len(readers) + 1 :], forms)
    if len(rest) < len(readers) or None in values or options is None:
        return None
    return words[0], values, options
