"""The functions of a crate: where their bodies lie in the source files, and how a check names them."""
import re
from dataclasses import dataclass, replace

from kit import rtlib, tokens_of


@dataclass(frozen=True)
class Function:
    """A function with a body. In bytes of the file, `start` is where it begins with its attributes, `head` where its `fn`
    stands, `begin` and `end` are its body's braces. One that a derive writes has none of these."""

    path: str
    start: int
    head: int
    begin: int
    end: int
    module: tuple  # the modules down to the item, without the crate
    owner: str  # of a method the type, and behind it the trait with the names of its arguments, where it has one
    name: str
    home: tuple = ()  # the modules down to the type of a method, where the crate's own proofs of it stand
    is_of_trait: bool = False  # whether it stands in an impl of a trait, or in a trait

    def ending(self):
        """The end of the function's name, as a check prints it, behind the modules."""
        return f"{self.owner}::{self.name}" if self.owner else "::".join([*self.module, self.name])

    def place(self):
        """The modules, the type and the function, as its proofs and a check name them."""
        return [*self.home, *([self.owner] if self.owner else []), self.name]

    def proofs(self):
        """The folder of the function's own proofs."""
        return "/".join(["proofs", *self.place()])

    def module_of_proofs(self):
        """The name of the module of the function's proofs, below that of the crate's."""
        return ".".join(self.place())

    def is_named(self, crate, printed):
        """Whether a check that prints this name speaks of the function, or of a closure in it."""
        modules = r"(\w+::)*" if self.owner else "".join(f"{it}::" for it in self.module)
        owner = f"{self.owner}::" if self.owner else ""
        own = f"{crate}::{modules}{owner}{self.name}"
        closure = rf"{crate}::{modules}fn::({owner})?{self.name}::\S+"
        return re.fullmatch(own, printed) is not None or re.fullmatch(closure, printed) is not None


@dataclass(frozen=True)
class Token:
    start: int
    end: int
    text: str


def code_tokens(folder, paths):
    """For each file its tokens of code, without those of clauses and comments, as the kit's own reader parts them."""
    found = {}
    for path, rows in zip(paths, tokens_of([f"{folder}/{path}" for path in paths])):
        with open(f"{folder}/{path}", "rb") as file:
            data = file.read()
        of_code = [(start, end) for start, end, kind in rows if kind in ("Code", "Literal")]
        found[path] = [Token(start, end, data[start:end].decode(errors="replace")) for start, end in of_code]
    return found


def module_of(path):
    parts = path.removeprefix("src/").removesuffix(".rt").split("/")
    return tuple(parts[:-1] if parts[-1] in ("lib", "main", "mod") else parts)


def closing(tokens, at):
    """The place in the list of the brace that closes the one at `at`."""
    depth = 0
    for place in range(at, len(tokens)):
        depth += {"{": 1, "}": -1}.get(tokens[place].text, 0)
        if depth == 0:
            return place
    return len(tokens) - 1


def closing_bracket(tokens, at):
    """The place in the list of the round bracket that closes the one at `at`."""
    depth = 0
    for place in range(at, len(tokens)):
        depth += {"(": 1, ")": -1}.get(tokens[place].text, 0)
        if depth == 0:
            return place
    return len(tokens) - 1


def opening(tokens, at):
    """The place of the next brace or semicolon that stands in no bracket: where an item's body opens, or it ends."""
    depth = 0
    for place in range(at, len(tokens)):
        text = tokens[place].text
        depth += (text in ("(", "[")) - (text in (")", "]"))
        if depth == 0 and text in ("{", ";"):
            return place
    return len(tokens) - 1


def without_brackets(words, opens="<", closes=">"):
    """The words that stand in no pair of angle brackets."""
    kept, depth = [], 0
    for word in words:
        depth += word == opens
        if depth == 0:
            kept.append(word)
        depth -= word == closes and depth > 0
    return kept


def joined_paths(words):
    """The words, with each path as one: its last name, behind the one before it. `io::Error` gives IoError."""
    joined, at = [], 0
    while at < len(words):
        names = [words[at]]
        while words[at + 1 : at + 3] == [":", ":"]:
            at += 3
            names.append(words[at])
        before = "".join(it.capitalize() for it in "".join(names[-2:-1]).split("_"))
        joined.append(before + names[-1])
        at += 1
    return joined


def owner_of(words):
    """The owner that an impl's head names: `impl<T> From<Failed<T>> for Fault` gives FaultFromFailed. A check names the
    method of an impl of Drop by the type alone."""
    parameters = []
    if words[:1] == ["<"]:
        depth, at = 0, 0
        for at, word in enumerate(words):
            depth += (word == "<") - (word == ">")
            if depth == 0:
                break
        parameters, words = words[1:at], words[at + 1 :]
    if "where" in words:
        words = words[: words.index("where")]
    if "for" not in words:
        return [it for it in without_brackets(words) if re.fullmatch(r"\w+", it)][-1]
    cut = words.index("for")
    owner = [it for it in without_brackets(words[cut + 1 :]) if re.fullmatch(r"\w+", it)][-1]
    names = without_brackets(words[:cut])
    trait = [it for it in names if re.fullmatch(r"\w+", it)][-1]
    if trait == "Drop":
        return owner
    behind = joined_paths(words[:cut][len(names) :])
    arguments = [it for it in behind if re.fullmatch(r"[A-Za-z]\w+", it) and it not in parameters]
    return owner + trait + "".join(arguments)


# What may stand between a function's attributes and its `fn`.
BEFORE_FN = ("pub", "(", "crate", "super", ")", "const", "unsafe", "extern", '"C"')


def start_of(tokens, at):
    """Where the item begins whose `fn` is the token at this place in the list: at its visibility, or its attributes."""
    while at > 0:
        before = tokens[at - 1].text
        if before in BEFORE_FN:
            at -= 1
        elif before == "]":
            depth, place = 0, at - 1
            while place > 0:
                depth += (tokens[place].text == "]") - (tokens[place].text == "[")
                if depth == 0:
                    break
                place -= 1
            if tokens[place - 1].text != "#":
                break
            at = place - 1
        else:
            break
    return tokens[at].start


def functions_in(path, tokens):
    """The functions of a file. One that lies in another's body counts as a part of that one."""
    found, scopes, at = [], [(len(tokens), module_of(path), "", False)], 0
    while at < len(tokens):
        while at >= scopes[-1][0]:
            scopes.pop()
        text, behind = tokens[at].text, tokens[at + 1].text if at + 1 < len(tokens) else ""
        _, module, owner, is_of_trait = scopes[-1]
        if text == "fn" and re.fullmatch(r"\w+", behind):
            body = opening(tokens, at)
            if tokens[body].text == "{":
                end = closing(tokens, body)
                places = start_of(tokens, at), tokens[at].start, tokens[body].start, tokens[end].end
                found.append(Function(path, *places, module, owner, behind, is_of_trait=is_of_trait))
                at = end
            else:
                at = body
        elif text in ("impl", "trait", "mod"):
            body = opening(tokens, at)
            if tokens[body].text == "{":
                words = [it.text for it in tokens[at + 1 : body]]
                inner = owner_of(words) if text == "impl" else behind if text == "trait" else owner
                within = module + (behind,) if text == "mod" else module
                scopes.append((closing(tokens, body), within, inner, text == "trait" or "for" in words))
            at = body
        at += 1
    return found


# The methods that derives write, by the trait.
DERIVED = {
    "Clone": ("clone",),
    "Debug": ("fmt",),
    "Default": ("default",),
    "PartialEq": ("eq",),
    "PartialOrd": ("partial_cmp",),
    "Ord": ("cmp",),
    "Hash": ("hash",),
}


def derived_in(path, tokens):
    """The functions that derives write for the types of a file."""
    found, traits, at = [], [], 0
    while at < len(tokens):
        text = tokens[at].text
        if text == "derive":
            end = closing_bracket(tokens, at + 1)
            traits += [it.text for it in tokens[at + 2 : end]]
            at = end
        elif text in ("struct", "enum"):
            name = tokens[at + 1].text
            # What is copied bit by bit needs no method to clone it.
            writing = [it for it in traits if it != "Clone" or "Copy" not in traits]
            methods = [(it, method) for it in writing for method in DERIVED.get(it, ())]
            found += [Function(path, 0, 0, 0, 0, module_of(path), name + it, method) for it, method in methods]
            traits = []
        at += 1
    return found


def homes_of(tokens):
    """The modules of each type that the files with these tokens declare."""
    homes = {}
    for path, some in tokens.items():
        for word, name in zip(some, some[1:]):
            if word.text in ("struct", "enum", "trait"):
                homes[name.text] = module_of(path)
    return homes


def functions_of(crate):
    """The functions of a crate's source files, by the path of the file."""
    files = [file.removeprefix(f"{crate.folder}/") for file in rtlib.files_of(crate.folder)]
    tokens = code_tokens(crate.folder, [it for it in files if it.startswith("src/") and it.endswith(".rt")])
    homes = homes_of(tokens)
    return {
        path: [
            replace(it, home=homes.get(it.owner, it.module))
            for it in [*functions_in(path, some), *derived_in(path, some)]
        ]
        for path, some in tokens.items()
    }


def all_functions(crate):
    return [it for some in functions_of(crate).values() for it in some]
