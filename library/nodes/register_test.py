#!/usr/bin/env python3
"""Compares the checker of histories that the simulation has, in register.c, with faults/nodes/check.py.

register_test.py VERDICTS SIMULATE: the programs of verdicts.c and simulate.c. Both checkers decide the histories of
check_test.py, of which the verdicts were derived by hand; random ones; and those of the simulation as they are, and
with one call changed: the moments at which it began or ended moved, its answer taken away, or another value read.
"""
import random
import subprocess
import sys
from pathlib import Path

sys.path.insert(0, str(Path(__file__).resolve().parent.parent.parent / "faults" / "nodes"))
sys.dont_write_bytecode = True

from check import INITIAL, NEVER, is_atomic, read_history  # noqa: E402
from check_test import HISTORIES, calls_of, random_history  # noqa: E402

SEEDS = 100


def numbered(calls):
    """The history with the place of its write, from 1 on, in place of each value, and with moments from 1 on. A value
    that nobody wrote gets a number that no write has."""
    places = {call.value: str(place) for place, call in enumerate(calls, 1) if call.kind == "write"}
    places |= {INITIAL: INITIAL, None: INITIAL}
    return [call._replace(value=places.get(call.value, str(len(calls) + 1)), began=call.began + 1, ended=call.ended + 1)
            for call in calls]


def changed(source, calls):
    """The history with one call changed, which may be a broken history."""
    place = source.randrange(len(calls))
    call, moments = calls[place], [it.began for it in calls] + [it.ended for it in calls if it.ended < NEVER]
    written = [INITIAL] + [str(at) for at, it in enumerate(calls, 1) if it.kind == "write"]
    way = source.choice(("began", "ended", "open", "value"))
    if way == "value" and call.kind == "read":
        call = call._replace(value=source.choice(written))
    elif way == "open":
        call = call._replace(ended=NEVER)
    elif way == "began":
        call = call._replace(began=source.choice([it for it in moments if it < call.ended]))
    elif call.ended < NEVER:
        call = call._replace(ended=source.choice([it for it in moments if it > call.began]))
    return [*calls[:place], call, *calls[place + 1:]]


def histories(simulate):
    source = random.Random(1)
    yield from (numbered(calls_of(text)) for _, _, text in HISTORIES if text)
    yield from (numbered(random_history(source)) for _ in range(5000))
    said = subprocess.run([simulate, "1", str(SEEDS), "1"], check=True, capture_output=True, text=True).stdout
    for run in said.split("seed ")[1:]:
        for calls in read_history(line for line in run.splitlines() if line.startswith("name-")).values():
            yield numbered(calls)
            yield from (changed(source, numbered(calls)) for _ in range(6))


def text_of(calls):
    rows = (f"x {it.kind} {it.value} {it.began} {'-' if it.ended == NEVER else it.ended}\n" for it in calls)
    return "".join(rows) + "end\n"


def main(verdicts, simulate):
    tried = list(histories(simulate))
    said = subprocess.run([verdicts], input="".join(map(text_of, tried)), check=True, capture_output=True, text=True)
    said = [line == "1" for line in said.stdout.splitlines()]
    wanted = [is_atomic(calls) for calls in tried]
    wrong = [calls for calls, one, other in zip(tried, said, wanted) if one != other]
    for calls in wrong[:3]:
        print(f"the checkers differ:\n{text_of(calls)}")
    print(f"registers: {len(tried)} histories, {wanted.count(True)} atomic, {len(wrong)} decided differently")
    return int(bool(wrong) or len(said) != len(tried) or not 0.2 * len(tried) < wanted.count(True) < 0.9 * len(tried))


if __name__ == "__main__":
    sys.exit(main(*sys.argv[1:]))
