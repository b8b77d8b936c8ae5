"""Tries wrong bodies one after another, by `rt must-fail` on a copy of the repository in which they are its own edits."""
import os
import shutil
import subprocess
import tempfile

from kit import build_below


def try_each(root, crates):
    """Returns 0 where each wrong body of the crates is refused."""
    if not all(build_below(crate) for crate in crates):
        return 1
    with tempfile.TemporaryDirectory(prefix="wrong-bodies-each-") as room:
        for name in ("crates.txt", "HANDLES"):
            shutil.copyfile(f"{root}/{name}", f"{room}/{name}")
        shutil.copytree(f"{root}/crates", f"{room}/crates", ignore=shutil.ignore_patterns("incremental"))
        for crate in crates:
            folder = f"{room}/crates/{crate.name}"
            os.makedirs(f"{folder}/must-fail", exist_ok=True)
            for name in os.listdir(f"{folder}/wrong-bodies") if os.path.isdir(f"{folder}/wrong-bodies") else []:
                shutil.move(f"{folder}/wrong-bodies/{name}", f"{folder}/must-fail/{name}")
        return subprocess.run(["rt", "must-fail", *[it.name for it in crates]], cwd=room, check=False).returncode
