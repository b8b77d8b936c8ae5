"""Proves the functions that a crate's edits change, without the edits, in a copy of the crate as the edits have it.

Where one of them is not proved there, the copy itself makes functions fail, and a refusal of its edits shows nothing.
"""
import tempfile
import time

from batches import Trial
from edits import Edit
from functions import all_functions
from verdicts import Verdict


def prove_unedited(crate, edits, jobs):
    """Returns 0 where all of them are proved."""
    functions = dict.fromkeys(it for edit in edits if edit.is_inside for it in edit.functions)
    trial, began = Trial(crate, all_functions(crate), jobs), time.monotonic()
    with tempfile.TemporaryDirectory(prefix="wrong-bodies-kept-") as trial.kept:
        results, _ = trial.try_batch([Edit(it.ending(), "", {}, (it,), True) for it in functions])
    proved = {it.edit.functions[0] for it in results if it.verdict is Verdict.PASSES}
    for it in functions:
        if it not in proved:
            print(f"{crate.name}: {it.ending()} is not proved in the copy")
    took = f"{trial.seconds:.0f} s of a processor, {time.monotonic() - began:.0f} s"
    print(f"{crate.name}: {len(proved)} of {len(functions)} proved without edits, {took}", flush=True)
    return 0 if len(proved) == len(functions) else 1
