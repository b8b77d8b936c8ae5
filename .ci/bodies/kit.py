"""The kit's own programs, read as modules: which crates there are, and the words of a check of one.

Written for the wording of `rattle-kit-13b` and `rattle-kit-13f`: a function's line in what a check prints ends in
`proved`, in `not proved` where its own proof fails, and in `no proof: it calls ..` where only that of a function below it
does.
"""
import importlib.machinery
import importlib.util
import os
import pathlib
import re
import shutil
import subprocess
import sys
import tempfile
from functools import cache

sys.dont_write_bytecode = True


def load_rt():
    """The program `rt` as a module, which has the kit's library `rtlib` as a member."""
    path = shutil.which("rt")
    if not path:
        sys.exit("wrong-bodies: there is no command rt on the PATH. It is the Rattle kit's, in the kit's folder bin")
    loader = importlib.machinery.SourceFileLoader("rt_of_the_kit", os.path.realpath(path))
    spec = importlib.util.spec_from_loader(loader.name, loader)
    module = importlib.util.module_from_spec(spec)
    sys.modules[loader.name] = module
    loader.exec_module(module)
    return module


rt = load_rt()
rtlib = rt.rtlib
KIT_NAME = (pathlib.Path(rtlib.KIT) / "KIT-ID").read_text().split()[0]


def remember_sums():
    """Has a crate's sum over its sources, and over those of all crates below it, computed once in this run."""
    known = {}
    compute = rtlib.Crate.stamp

    def stamp(crate):
        if crate.folder not in known:
            known[crate.folder] = compute(crate)
        return known[crate.folder]

    rtlib.Crate.stamp = stamp


def crates_of(root):
    """The crates that crates.txt lists, by name, lowest first."""
    os.environ.pop(rtlib.ALLOW_C, None)
    rtlib.guarded()
    remember_sums()
    return {crate.name: crate for crate in rtlib.crates_below(str(root))}


def build_below(crate):
    """Builds the libraries below the crate that do not stand built from these sources. Returns whether all stand."""
    return not any(below.build_rlib(["--jobs", "1"], anew=False) for below in crate.below())


# The crate that is checked over a crate with edits. It is empty.
ABOVE = "tried"

# The root files of a library and of a program.
ROOTS = ("src/lib.rt", "src/main.rt")


def words_above(crate, jobs):
    """The words of a check of the empty crate over a copy of the crate, which lies where the check runs and is read from
    its source. Of a crate that is checked itself, and not read so, a check prints how to begin each proof that fails, for
    which it searches a second time. A program is read like a library, from its root file."""
    words = crate.words(["--jobs", str(jobs)], keeps=False)
    words[words.index("--crate-name") + 1] = ABOVE
    for option in ("--links", "--crate-type"):
        if option in words:
            del words[words.index(option) : words.index(option) + 2]
    root = next(place for place, word in enumerate(words) if word in ROOTS)
    file, words[root] = words[root], f"{ABOVE}/src/lib.rt"
    return [*words, "--lib", f"{crate.name}={file}"]


def words_above_all(crates, jobs):
    """The words of a check of the empty crate over copies of several crates, none of which is below another. Each lies in a
    folder of its name, and sees only the libraries that it lists."""
    words = []
    for crate in crates:
        own = words_above(crate, jobs)
        seen = ",".join(value.split("=")[0] for option, value in zip(own, own[1:]) if option == "--extern")
        own[-1] = own[-1].replace(f"{crate.name}=", f"{crate.name}:{seen}={crate.name}/")
        options = [it for it in zip(own, own[1:]) if it[0] in ("--extern", "-L", "--lib") and it[1] not in words]
        words += [word for option in options for word in option] if words else own
    return words


def start_above(room):
    """Writes the empty crate into the folder where a check of it runs."""
    os.makedirs(f"{room}/{ABOVE}/src")
    with open(f"{room}/{ABOVE}/src/lib.rt", "w", encoding="utf-8") as file:
        file.write("//! Nothing.\n")


def run_prover(words, room):
    """Runs a check in a folder. Returns its status, what it printed, and the seconds of a processor that it took."""
    with tempfile.TemporaryFile() as said:
        whole = [*rtlib.guarded(), rtlib.RATTLE, "check", *words]
        run = subprocess.Popen(whole, cwd=room, stdin=subprocess.DEVNULL, stdout=said, stderr=subprocess.STDOUT)
        _, status, used = os.wait4(run.pid, 0)
        run.returncode = os.waitstatus_to_exitcode(status)
        said.seek(0)
        return run.returncode, said.read().decode(errors="replace"), used.ru_utime + used.ru_stime


def tokens_of(paths):
    """For each file of code or of definitions its tokens, which are never comments: where each begins and ends, and its
    kind. A doc comment that a macro may read is a token too."""
    if not paths:
        return []
    printed = subprocess.run([rtlib.RATTLE, "fmt", "--tokens", *paths], capture_output=True, check=True).stdout
    return [
        [(int(start), int(end), kind.decode()) for start, end, kind in re.findall(rb"(?m)^\d+ (\d+) (\d+) (\w+) ", rows)]
        for rows in re.split(rb"(?m)^file \d+\n", printed)[1:]
    ]


def processors():
    return rt.processors()


def free_memory():
    """The free memory in bytes."""
    return rt.free()


@cache
def likely_memory(crate):
    """The memory that a check of the crate is likely to take, in bytes. The kit reads all sources for it."""
    return rt.need(crate)
