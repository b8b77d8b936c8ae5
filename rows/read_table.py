"""Reads a table of scripts and command lines, whose form the head of the file `table` describes."""
import dataclasses
import re

# A name has at most this many characters.
LONGEST_NAME = 60

# The bytes that a script's line names.
NAMED = re.compile(rb"\\(?:r|t|x[0-9a-fA-F]{2})")
WRONG_BYTE = "a byte that has no such name"


class WrongTable(Exception):
    """Says what is wrong with the table, and at which line."""


@dataclasses.dataclass(frozen=True)
class Run:
    """What a run prints, and its exit status."""
    out: bytes
    err: bytes
    status: int


@dataclasses.dataclass
class Draft:
    """The lines of a row up to here, or of a beginning: a script, the words of a command line, or neither yet."""
    name: str | None = None
    script: bytes | None = None
    words: list[str] | None = None
    text: str = ""
    out: bytes = b""
    err: bytes = b""


@dataclasses.dataclass(frozen=True)
class Row:
    """A row: its last line's number, its script or its words, these as the table writes them, and what they print."""
    name: str
    line: int
    script: bytes | None
    words: list[str] | None
    text: str
    expected: Run


def require(condition, why):
    if not condition:
        raise WrongTable(why)


def read_table(data):
    """The rows of a table. It has one at least."""
    rows, beginning, draft, number = {}, Draft(), Draft(), 0
    lines = data.decode().split("\n")
    for number, line in enumerate(lines[:-1] if lines[-1] == "" else lines, 1):
        try:
            mark, _, rest = line.removesuffix("\r").partition(" ")
            if mark == ".":
                require(rest == "", "no line of a table")
                require(draft.name is None, "a beginning with a name")
                beginning, draft = draft, Draft()
            elif mark == "=":
                row = finished(draft, beginning, number, rest)
                require(row.name not in rows, "another row has this name")
                rows[row.name], draft = row, Draft()
            elif line.removesuffix("\r") and not line.startswith("#"):
                add_line(draft, mark, rest)
        except WrongTable as wrong:
            raise WrongTable(f"line {number}: {wrong}") from None
    require(draft == Draft(), f"line {number}: the last row has no end")
    require(rows, f"line {number}: the table has no rows")
    return list(rows.values())


def add_line(draft, mark, rest):
    """Adds a line that neither ends a row nor makes a beginning."""
    if mark == "%":
        require(draft == Draft(), "a name in a row that has begun")
        require(rest, "an empty name")
        require(len(rest) <= LONGEST_NAME, f"a name of more than {LONGEST_NAME} characters")
        draft.name = rest
    elif mark == ">":
        require(draft.words is None, "a script in a row that is a command line")
        draft.script = (draft.script or b"") + script_line(rest)
        draft.text += f"> {rest}\n"
    elif mark == "$":
        require(draft.script is None and draft.words is None, "a command line in a row that has begun")
        draft.words = ["" if word == "''" else word for word in rest.split(" ")] if rest else []
        draft.text += f"$ {rest}\n"
    elif mark == "<":
        draft.out += rest.encode() + b"\n"
    elif mark == "!":
        draft.err += rest.encode() + b"\n"
    else:
        raise WrongTable("no line of a table")


def script_line(text):
    """The bytes of a script's line, with its line end."""
    line = text.encode()
    end = b"" if line.endswith(b"\\c") else b"\n"
    line = line.removesuffix(b"\\c")
    require(b"\\" not in NAMED.sub(b"", line), WRONG_BYTE)
    return NAMED.sub(lambda found: named_byte(found[0]), line) + end


def named_byte(name):
    if name.startswith(b"\\x"):
        return bytes.fromhex(name[2:].decode())
    return {b"\\r": b"\r", b"\\t": b"\t"}[name]


def finished(draft, beginning, number, status):
    """The row behind its beginning. It ends at the line of this number, with this status."""
    require(re.fullmatch("[0-9]+", status) and int(status) < 256, "no exit status")
    require(draft.name is not None, "a row without a name")
    require(draft.script is not None or draft.words is not None, "a row that does nothing")
    script = draft.script
    if beginning.script is not None or beginning.words is not None:
        require(beginning.script is not None and script is not None, "a command line behind a beginning")
        script = beginning.script + script
    expected = Run(beginning.out + draft.out, beginning.err + draft.err, int(status))
    return Row(draft.name, number, script, draft.words, beginning.text + draft.text, expected)
