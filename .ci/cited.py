"""What a contract's words mean: the definitions of `specs/`, and the functions, types and models of `src/`.

A line `use Rattle.CRATE.specs.FILE.{NAME}`, in code `ghost use`, brings a name in; its path says what the name means.
"""
import re
from dataclasses import dataclass, field

WORD = re.compile(r"[^\s(){}\[\],;«»]+")
USE = re.compile(r"(?:ghost )?use\s+Rattle\.([^\s{;]+?)(?:\.\{([^}]*)\}|\s+as\s+([^\s;]+))?\s*(?:;|$)", re.M)
ITEM = re.compile(r"(?:abbrev|unfoldable|pub|module|use)\b")
HEAD = re.compile(r"(?:abbrev pub|pub record|pub data|unfoldable pub|pub(?! mod\b))\s+(\S+)")
CODE_ITEM = re.compile(r"(?m)^(?=(?:pub(?:\(\w+\))? )?(?:struct|enum|trait|type|const|fn|impl|ghost use|use|mod)\b)")
DECLARED = re.compile(r"(?:pub(?:\(\w+\))? )?(struct|enum|trait|type|const) (\w+)")


@dataclass(frozen=True, order=True)
class Name:
    """A definition of `specs/`, or a type or constant of `src/`: its crate, the path below the crate, and its name."""

    crate: str
    path: str
    name: str

    def __str__(self):
        return f"{self.crate}/{self.path} {self.name}"


@dataclass
class Cited:
    """Words, with what they mean: by the lines `ghost use`, or else as names that the code itself knows."""

    words: list
    ghost: dict
    code: dict = field(default_factory=dict)


@dataclass
class Definition:
    name: Name
    lines: int  # with the comment above it
    cited: Cited


def imports_of(text):
    """What each imported name means: a path below `Rattle`, of the thing or of the module that it is short for."""
    found = {}
    for path, listed, short in USE.findall(text):
        for word in filter(None, (it.strip() for it in listed.split(","))):
            name, _, new = word.partition(" as ")
            found[(new or name).strip()] = f"{path}.{name.strip()}"
        if not listed:
            found[short or path.rpartition(".")[2]] = path
    return found


def words_of(text):
    return [word.removesuffix(".") for word in WORD.findall(text)]


def cited_words(name, text):
    """The words of a definition, but for the names of fields and, in each case, those that its patterns bind."""
    text = re.sub(r"(?m)^( +)pub \S+ :", r"\1", re.sub(r"(?<=[{;])(\s*)\w+ = ", r"\1", text))
    words = []
    for part in re.split(rf"(?m)^(?=\s*{re.escape(name)}\s)", text):
        case = re.match(rf"\s*{re.escape(name)}((?:\s+[^=:]*)?)\s=\s", part)
        bound = {word for word in words_of(case[1]) if word[0].islower() and "." not in word} if case else set()
        words += [word for word in words_of(part) if word.partition(".")[0] not in bound]
    return words


def items_of(code):
    """The items of a file of `specs/` by lines: where each begins, its head, and the head of the module around it."""
    items, around = [], []
    for number, line in enumerate(code):
        if line.startswith("module"):
            end = next(it for it in range(number, len(code)) if code[it].endswith("where"))
            around = code[number : end + 1]
        elif ITEM.match(line):
            around = []
        # In no module, what stands two spaces in is a field of a record.
        if ITEM.match(line) or (around and line.startswith("  ") and ITEM.match(line[2:])):
            items.append((number, HEAD.match(line.lstrip()), around if line.startswith("  ") else []))
    return items


def definitions_in(crate, path, text):
    """The definitions of one file of `specs/`. One in a module also cites what the module's head cites."""
    lines = text.split("\n")
    code = [re.sub(r"(?:^|\s)--(?=\s|$).*", "", line) for line in lines]
    items, found = items_of(code), []
    ghost = imports_of("\n".join(code))
    ghost |= {head[1]: f"{crate}.specs.{path[6:-5]}.{head[1]}" for _, head, _ in items if head}
    for (start, head, around), end in zip(items, [*(start for start, *_ in items[1:]), len(code)]):
        if not head:
            continue
        while not code[end - 1].strip():
            end -= 1
        first = start
        while first > 0 and lines[first - 1].lstrip().startswith("--"):
            first -= 1
        words = cited_words(head[1], "\n".join(code[start:end])) + words_of("\n".join(around))
        found.append(Definition(Name(crate, path, head[1]), end - first, Cited(words, ghost)))
    return found


@dataclass
class Item:
    """An item at the outermost level of a file of `src/`, without comments."""

    crate: str
    path: str
    text: str
    ghost: dict
    used: dict  # the crate of each name that the file uses


def ghost_lines(text, indent=""):
    return imports_of("\n".join(re.findall(rf"(?m)^{indent}ghost use[^;]*;", text)))


def items_in(crate, path, text):
    text = re.sub(r"(?m)^\s*//.*\n|\s//.*$", "", text)
    used = {}
    for first, rest in re.findall(r"(?m)^(?:pub )?use (\w+)::([^;]*);", text):
        used |= dict.fromkeys(re.findall(r"\w+", rest), crate if first == "crate" else first)
    return [Item(crate, path, part, ghost_lines(text), used) for part in CODE_ITEM.split(text)[1:]]


class Code:
    """The items of all crates, by what they declare."""

    def __init__(self, root):
        self.items, self.types, self.models = [], {}, {}
        self.crates = {it.name for it in (root / "crates").iterdir()}
        for file in sorted(root.glob("crates/*/src/**/*.rt")):
            crate, *rest = file.relative_to(root / "crates").parts
            self.items += items_in(crate, "/".join(rest), file.read_text())
        for item in self.items:
            declared = DECLARED.match(item.text)
            model = re.match(r"impl(?:<.*?>)? Model for (\w+)", item.text)
            if declared:
                self.types[item.crate, declared[2]] = item
            if model:
                self.models[item.crate, model[1]] = item

    def names_in(self, text, item):
        """The types and constants of all crates that a text of an item's file names."""
        found = {}
        for word in set(re.findall(r"\w+", text)):
            crates = [it for it in (item.used.get(word), item.crate) if (it, word) in self.types]
            if not crates and item.used.get(word) in self.crates:
                # A crate may hand on what another one declares.
                crates = [crate for crate, name in self.types if name == word]
                if len(crates) > 1:
                    raise SystemExit(f"trusted: it is not clear what {word} means in {item.crate}/{item.path}")
            if crates:
                found[word] = (crates[0], word)
        return found

    def function(self, path):
        """What the head of a function cites, which is named CRATE::NAME or CRATE::TYPE::NAME: its signature, with
        that of its impl, and its clauses."""
        crate, *owner, name = path.split("::")
        indent = "    " if owner else ""
        for item in self.items:
            of = re.match(r"impl(?:<.*?>)? (\w+)(?! for\b)", item.text)
            head = re.search(rf"(?ms)^{indent}pub fn {name}\b(.*?)^{indent}\{{", item.text)
            if item.crate != crate or ([of[1]] if of else []) != owner or not head or "ensures" not in head[1]:
                continue
            signature, clauses = re.split(r"(?m)^(?=\s+(?:requires|ensures|ghost)\b)", head[1], maxsplit=1)
            ghost = item.ghost | (ghost_lines(item.text, indent) if owner else {})
            outer = item.text.partition("{")[0] if owner else ""
            seen = self.names_in(outer + signature, item)
            return Cited([*seen, *words_of(clauses)], ghost, seen | self.names_in(clauses, item))
        raise SystemExit(f"trusted: there is no function {path} with clauses")

    def seen_of(self, key, invariants):
        """What a contract sees of a type: its model, with the fields that this names; without a model all fields."""
        item = self.types[key]
        kind, ghost, text, fields = DECLARED.match(item.text)[1], item.ghost, "", item.text
        if key in self.models:
            model, wanted = self.models[key], "Value|view|invariant" if invariants else "Value|view"
            ghost = ghost_lines(model.text, "    ") or model.ghost
            text = "\n".join(re.findall(rf"(?ms)^    ghost (?:{wanted}) = \{{(.*?)\}};$", model.text))
            declared = re.findall(r"(?m)^    (?:pub(?:\(\w+\))? )?(\w+): (.*),$", item.text)
            fields = "\n".join(it for name, it in declared if re.search(rf"\w\.{name}\b", text))
        elif kind == "trait":
            text, fields = "\n".join(re.findall(r"ghost \w+: (.*)", item.text)), item.text.partition("{")[0]
        elif kind == "const":
            fields = ""
        code = {word: it for word, it in self.names_in(fields, item).items() if it != key}
        return Cited([*code, *words_of(text)], ghost, code)
