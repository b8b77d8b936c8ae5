"""Wrong bodies: edits of a crate's code, each in a file of `crates/NAME/wrong-bodies/`.

A file names a source file by a line `file:`, and then has pairs of lines `old:` and `new:`. Each old text is one line, or
a part of one, and stands in the file exactly once; a second pair applies to what the first one left.
"""
import difflib
import os
from dataclasses import dataclass, field


@dataclass
class Edit:
    name: str
    file: str
    changes: dict = field(default_factory=dict)  # by path, the changes of bytes in the crate's own text: (begin, end, new)
    functions: tuple = ()  # the functions that the changes lie in
    is_inside: bool = False  # whether each change lies in a function's body
    problem: str = ""  # why it cannot be applied


def applied(lines, folder):
    """The edited texts by path, or raises ValueError, which says why the edit cannot be applied."""
    path, old, texts = "", None, {}
    for line in lines:
        if line.startswith("file: "):
            path = line.removeprefix("file: ").strip()
            if os.path.normpath(path) != path or not path.startswith("src/"):
                raise ValueError("a line 'file:' names no file below src/")
        elif line.startswith("old: "):
            old = line.removeprefix("old: ")
        elif line.startswith("new:"):
            if not path or not old:
                raise ValueError("a line 'new:' stands before a line 'file:' or 'old:'")
            if path not in texts:
                if not os.path.isfile(f"{folder}/{path}"):
                    raise ValueError(f"there is no file {path}")
                texts[path] = read(f"{folder}/{path}")
            if texts[path].count(old) != 1:
                raise ValueError(f"an 'old:' text stands in {path} {texts[path].count(old)} times, and not once")
            texts[path] = texts[path].replace(old, line.removeprefix("new:").removeprefix(" "))
            old = None
    if not texts:
        raise ValueError("it has no lines 'old:' and 'new:'")
    return texts


def read(path):
    with open(path, encoding="utf-8") as file:
        return file.read()


def changes_between(before, after):
    """The changes that make the one text the other, in bytes of the first: each within a line, or of whole lines."""
    old, new = before.splitlines(keepends=True), after.splitlines(keepends=True)
    starts = [0]
    for line in old:
        starts.append(starts[-1] + len(line.encode()))
    found = []
    for kind, a, b, c, d in difflib.SequenceMatcher(None, old, new, autojunk=False).get_opcodes():
        if kind != "equal":
            left, right = "".join(old[a:b]), "".join(new[c:d])
            head = len(os.path.commonprefix([left, right]))
            most = min(len(left), len(right)) - head
            tail = len(os.path.commonprefix([left[::-1][:most], right[::-1][:most]]))
            begin = starts[a] + len(left[:head].encode())
            end = starts[b] - len(left[len(left) - tail :].encode())
            found.append((begin, end, right[head : len(right) - tail]))
    return found


def read_edit(file, folder, functions):
    """Reads an edit of the crate in the folder, whose functions are given by path."""
    edit = Edit(os.path.basename(file).removesuffix(".edit"), file)
    try:
        texts = applied(read(file).split("\n"), folder)
    except (ValueError, OSError) as error:
        edit.problem = str(error)
        return edit
    edit.changes = {path: changes_between(read(f"{folder}/{path}"), text) for path, text in texts.items()}
    places = [
        next((it for it in functions.get(path, []) if it.begin < begin and end < it.end), None)
        for path, changes in edit.changes.items()
        for begin, end, _ in changes
    ]
    edit.functions = tuple(dict.fromkeys(it for it in places if it))
    edit.is_inside = bool(places) and all(places)
    if not places:
        edit.problem = "it changes nothing"
    return edit


def read_edits(crate, functions):
    """The crate's edits: those of `wrong-bodies/`, and of `must-fail/`, which `rt ci` tries in its own way too."""
    places = [f"{crate.folder}/wrong-bodies", f"{crate.folder}/must-fail"]
    files = [f"{place}/{name}" for place in places if os.path.isdir(place) for name in sorted(os.listdir(place))]
    return [read_edit(it, crate.folder, functions) for it in files if it.endswith(".edit")]


def edited_texts(folder, edits):
    """The crate's files with all these edits in them, each at its place in the text as it stands in the folder."""
    changes = {}
    for edit in edits:
        for path, some in edit.changes.items():
            changes.setdefault(path, []).extend(some)
    texts = {}
    for path, some in changes.items():
        data = read(f"{folder}/{path}").encode()
        for begin, end, new in sorted(some, reverse=True):
            data = data[:begin] + new.encode() + data[end:]
        texts[path] = data.decode()
    return texts
