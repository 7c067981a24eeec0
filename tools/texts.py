"""Definitions, row by row with their lines, and the few things of a design that tools ask for. docs/LANGUAGE.md says what they mean."""

import pathlib
import re
import sys
import typing

COMMENT = re.compile(r"//[^\n]*|/\*.*?\*/", re.S)
ENTRY = re.compile(r"(default|define)\s+(\w+)\s*(?:\(([^)]*)\))?\s*=\s*(\w+)\s*;")
LITERAL = re.compile(r"(\d+)w(0[xX][0-9a-fA-F]+|\d+)")


class Row(typing.NamedTuple):
    """A row of a function: its line, a value and a mask for each parameter, their widths (0 of `_`), and its result; truth values are 1 and 0."""

    line: int
    keys: tuple
    widths: tuple
    result: int
    is_truth: bool

    def matches(self, values):
        fits = len(values) == len(self.keys) and all(not width or value >> width == 0 for value, width in zip(values, self.widths))
        return fits and all(value & mask == known & mask for value, (known, mask) in zip(values, self.keys))

    def covers(self, other):
        """Whether all that the other row matches is matched by this one."""
        return all(mask & wanted == mask and known & mask == value & mask for (known, mask), (value, wanted) in zip(self.keys, other.keys))

    def meets(self, other):
        """Whether there is something that both rows match."""
        return all((known ^ value) & mask & wanted == 0 for (known, mask), (value, wanted) in zip(self.keys, other.keys))


def blanked(text):
    """The text with blanks in the place of its comments, so that lines stay."""
    return COMMENT.sub(lambda found: re.sub(r"[^\n]", " ", found[0]), text)


def text_of(path):
    try:
        return blanked(pathlib.Path(path).read_text())
    except OSError as error:
        sys.exit(f"{path}: {error.strerror}")


def constant(text):
    found = LITERAL.fullmatch(text)
    return (int(found[2], 0 if found[2][:2] in ("0x", "0X") else 10), False) if found else (int(text == "true"), True)


def key(text):
    """The value and the mask of a pattern, and its width."""
    if text == "_":
        return (0, 0), 0
    value, _, mask = (part.strip() for part in text.partition("&&&"))
    width = int(LITERAL.fullmatch(value)[1])
    return (constant(value)[0], constant(mask)[0] if mask else (1 << width) - 1), width


def definitions(path):
    """The rows of each function, in their order."""
    text, found = text_of(path), {}
    for entry in ENTRY.finditer(text):
        rows = found.setdefault(entry[2], [])
        if entry[1] == "define":
            keys, widths = zip(*(key(part.strip()) for part in entry[3].split(",")))
            rows.append(Row(text.count("\n", 0, entry.start()) + 1, keys, widths, *constant(entry[4])))
    return found


class Design:
    """Which functions forks ask, how wide the number of a host is, and where fields are counted up or down."""

    def __init__(self, path):
        self.text = text_of(path)
        entry = re.search(r"\bhost\s*\(\s*(\w+)", self.text)
        role = entry and re.search(rf"\brole\s+{entry[1]}\s*\[\s*\w+\s*:\s*bit<\s*0*(\d+)", self.text)
        self.host_width = int(role[1]) if role else 0
        self.forks = set(re.findall(r"\bfork\s*\([^|]*\|[^)]*?\b(\w+)\s*\(", self.text))

    def counters(self):
        """Each line where a field is set to itself plus or minus a literal, with the field, the sign, and whether a test of it stands before in the role."""
        for found in re.finditer(r"\bpkt\.(\w+\.\w+)\s*=\s*pkt\.\1\s*([-+])\s*\d+w\w+\s*;", self.text):
            before = self.text[self.text.rfind("role ", 0, found.start()) : found.start()]
            is_tested = re.search(rf"\b(?:if\s*\(|filter\b|assume\b)[^;{{]*\bpkt\.{re.escape(found[1])}\b", before)
            yield self.text.count("\n", 0, found.start()) + 1, found[1], found[2], bool(is_tested)
