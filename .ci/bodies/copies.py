"""What the copy of a crate has in which edits are tried: no bodies and no proofs of functions that have no edit, and copies
of functions that have several, so that one check tries all edits.

A function's proof cites of another one only what that one's contract states. So the other's body may be `unreachable!()`,
which is quickly taken apart, and its proof a hole: neither changes a verdict. A copy has its function's text and proofs
under a name of its own. One more copy has no edit: where its proof fails, the others show nothing.
"""
import os
import re
import shutil
from dataclasses import dataclass, replace

from edits import Edit

PROOFS = ("Answers", "Invariants", "Proof")


@dataclass
class Copy(Edit):
    """An edit in a copy of its function, or such a copy without an edit."""

    original: object = None  # the edit
    of: object = None  # the function


def is_bare(edit):
    """Whether it is a copy of a function without an edit."""
    return isinstance(edit, Copy) and edit.original is None


# What stands before a function whose goals no search shall prove. Then only its answers by hand are checked.
NO_SEARCH = "#[tactic(none)] "


def can_go_without_search(folder, edit):
    """Whether no function of the edit says itself how its goals are searched for."""
    for it in [edit.of] if isinstance(edit, Copy) else edit.functions:
        with open(f"{folder}/{it.path}", "rb") as file:
            if not it.end or b"#[tactic" in file.read()[it.start : it.head]:
                return False
    return True


def without_search(edit):
    """The edit, with no search for proofs of the goals of its functions."""
    if isinstance(edit, Copy):
        changes = {path: [(a, b, f"\n\n{NO_SEARCH}{new[2:]}") for a, b, new in some] for path, some in edit.changes.items()}
        return replace(edit, changes=changes)
    changes = {path: list(some) for path, some in edit.changes.items()}
    for it in edit.functions:
        changes.setdefault(it.path, []).append((it.start, it.start, NO_SEARCH))
    return replace(edit, changes=changes)


def without_bodies(folder, functions):
    """An edit that takes away the bodies of these functions and keeps their lines. What a derive writes has no text."""
    changes = {}
    for it in functions:
        if it.end:
            with open(f"{folder}/{it.path}", "rb") as file:
                lines = file.read()[it.begin : it.end].count(b"\n")
            changes.setdefault(it.path, []).append((it.begin, it.end, "{ unreachable!()" + "\n" * lines + " }"))
    return Edit("", "", changes, tuple(functions), True)


def can_be_copied(edit):
    return len(edit.functions) == 1 and not edit.functions[0].is_of_trait


def copy_with(folder, edit, changes, number):
    function = edit.functions[0]
    with open(f"{folder}/{function.path}", "rb") as file:
        text = file.read()[function.start : function.end]
    name = f"{function.name}_tried_{number}"
    head = function.head + len(b"fn ")
    renamed = (head, head + len(function.name.encode()), name)
    for begin, end, new in sorted([*changes, renamed], reverse=True):
        text = text[: begin - function.start] + new.encode() + text[end - function.start :]
    inserted = {function.path: [(function.end, function.end, f"\n\n{text.decode()}")]}
    return Copy(edit.name, edit.file, inserted, (replace(function, name=name),), True, original=edit, of=function)


def copies_of(folder, edits):
    """The copies for these edits, and for each of their functions one without an edit."""
    edits = [it for it in edits if can_be_copied(it)]
    wanted = {it.functions[0]: it for it in edits}
    bare = [replace(copy_with(folder, it, [], 0), original=None) for it in wanted.values()]
    return bare + [copy_with(folder, it, it.changes[it.functions[0].path], n) for n, it in enumerate(edits, 1)]


def copy_proofs(room, crate, copy):
    """Gives a copy the proofs of its function, under its own name."""
    (function,) = copy.functions
    old, new = f"{room}/{copy.of.proofs()}", f"{room}/{function.proofs()}"
    named = rf"(Rattle\.{crate}\.(?:proofs|specs\.contracts)\.){re.escape(copy.of.module_of_proofs())}(?![\w-])"
    for name in PROOFS:
        if os.path.isfile(f"{old}/{name}.antt"):
            os.makedirs(new, exist_ok=True)
            with open(f"{old}/{name}.antt", encoding="utf-8") as file:
                text = re.sub(named, rf"\g<1>{function.module_of_proofs()}", file.read())
            with open(f"{new}/{name}.antt", "w", encoding="utf-8") as file:
                file.write(text)


def leave_goals_open(room, crate, function, goals):
    """Leaves a hole for the proof of each of these goals of a function."""
    path = f"{room}/{function.proofs()}/Answers.antt"
    os.makedirs(os.path.dirname(path), exist_ok=True)
    with open(path, "a", encoding="utf-8") as file:
        if not file.tell():
            file.write(f"use Rattle.{crate}.proofs.{function.module_of_proofs()}.Goals as goal\n")
        file.writelines(f"\npub {it} : goal.{it}\n{it} = ?\n" for it in goals)


def leave_out_answers(room, function, goals):
    """Takes away what was written by hand for the proofs of these goals of a function: from the line of each one's type up
    to its last line."""
    path = f"{room}/{function.proofs()}/Answers.antt"
    if os.path.isfile(path):
        with open(path, encoding="utf-8") as file:
            items = re.split(r"\n(?=\S)", file.read())
        kept, left = [], ""
        for item in items:
            name = re.match(r"(?:pub )?(\S*)", item)[1]
            left = name if item.startswith("pub ") and name in goals else "" if name in goals else left
            if not left and name not in goals:
                kept.append(item)
        with open(path, "w", encoding="utf-8") as file:
            file.write("\n".join(kept).rstrip("\n") + "\n")


def leave_open(room, crate, function):
    """Leaves a hole for a function's proof."""
    folder = f"{room}/{function.proofs()}"
    shutil.rmtree(f"{folder}/Proof", ignore_errors=True)
    for name in PROOFS:
        if os.path.exists(f"{folder}/{name}.antt"):
            os.remove(f"{folder}/{name}.antt")
    os.makedirs(folder, exist_ok=True)
    with open(f"{folder}/Proof.antt", "w", encoding="utf-8") as file:
        file.write(f"use Rattle.{crate}.proofs.{function.module_of_proofs()}.Statement.{{statement}}\n\n")
        file.write(f"pub {function.name}_spec : {{M : Type 1}} → statement M\n{function.name}_spec = ?\n")
