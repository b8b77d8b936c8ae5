#!/usr/bin/env python3
"""Tests the checker of histories: by small histories whose verdicts were derived by hand, and against a search that
tries every list of calls."""
import itertools
import random

from check import INITIAL, NEVER, BadHistory, Call, is_atomic, read_history

# Each history: its verdict, why, and its calls, each as kind, value, began, ended.
HISTORIES = [
    (True, "nothing was called", ""),
    (True, "a read of an object that was never written", "read - 1 2"),
    (True, "a write and then a read of it", "write a 1 2, read a 3 4"),
    (False, "a read that misses a write that ended before it", "write a 1 2, read - 3 4"),
    (False, "a read of a value that nobody wrote", "write a 1 2, read b 3 4"),
    (False, "a read of a value before its write began", "read a 1 2, write a 3 4"),
    (True, "a read during a write may return the old value", "write a 1 4, read - 2 3"),
    (True, "a read during a write may return the new value", "write a 1 4, read a 2 3"),
    (True, "old and then new during a write", "write a 1 6, read - 2 3, read a 4 5"),
    (False, "new and then old during a write", "write a 1 6, read a 2 3, read - 4 5"),
    (True, "new and old during a write by reads that overlap", "write a 1 6, read a 2 4, read - 3 5"),
    (False, "a value comes back after it was overwritten", "write a 1 2, write b 3 4, read a 5 6"),
    (True, "two writes that overlap, read as the first", "write a 1 4, write b 2 3, read a 5 6"),
    (True, "two writes that overlap, read as the second", "write a 1 4, write b 2 3, read b 5 6"),
    (False, "two writes that overlap, read in both orders", "write a 1 4, write b 2 3, read a 5 6, read b 7 8"),
    (True, "reads of two writes in an order that they may have", "write a 1 8, write b 2 9, read a 3 4, read b 5 6"),
    (False, "two readers see two writes in two orders",
     "write a 1 20, write b 2 21, read a 3 4, read b 5 6, read a 7 8"),
    (False, "two readers that overlap see two writes in two orders",
     "write a 1 20, write b 2 21, read a 3 5, read b 4 6, read b 7 9, read a 8 10, read b 11 12"),
    (True, "a write without an answer that took effect", "write a 1 -, read a 5 6"),
    (True, "a write without an answer that took no effect", "write a 1 -, read - 5 6"),
    (True, "a write without an answer that took effect late", "write a 1 -, read - 5 6, read a 7 8"),
    (False, "a write without an answer that took effect and then not", "write a 1 -, read a 5 6, read - 7 8"),
    (False, "a write without an answer took effect twice",
     "write a 1 -, read a 3 4, write b 5 6, read b 7 8, read a 9 10"),
    (True, "a write without an answer takes effect after a later write",
     "write a 1 -, write b 2 3, read b 4 5, read a 6 7"),
    (False, "a write without an answer, read before it began", "read a 1 2, write a 3 -"),
    (True, "a read without an answer says nothing", "write a 1 2, read - 3 -"),
    (False, "a write that was answered, forgotten at a restart",
     "write a 1 2, write b 3 4, read b 5 6, read a 7 8"),
    (True, "reads of the initial value before and during the first write",
     "read - 1 2, write a 3 6, read - 4 5, read a 7 8"),
    (False, "the initial value comes back", "write a 1 2, read a 3 4, read - 5 6"),
    (False, "the write of a value that was read ended before another one that nobody saw",
     "write a 1 2, write b 3 4, write c 5 6, read b 7 8"),
    (True, "a write that nobody read hides behind another one", "write a 1 4, write b 2 6, write c 3 5, read c 7 8"),
    (False, "three writes in a row that a slow read and a fast one see in the wrong order",
     "write a 1 2, read b 3 9, write b 4 5, write c 6 7, read a 8 10"),
]
BAD_FORMS = ["write a 1 2, write a 3 4", "write - 1 2", "read a 2 1", "move a 1 2"]


def calls_of(text):
    lines = ["x " + part for part in text.split(", ") if part]
    return read_history(lines).get("x", [])


def is_register_order(order):
    value = INITIAL
    for place, call in enumerate(order):
        if any(later.ended < call.began for later in order[place + 1:]):
            return False
        if call.kind == "write":
            value = call.value
        elif call.value != value:
            return False
    return True


def has_any_order(calls):
    """The definition, word for word: tries every list of calls. Reads without an answer say nothing."""
    sure = [call for call in calls if call.ended < NEVER]
    open_writes = [call for call in calls if call.ended == NEVER and call.kind == "write"]
    for count in range(len(open_writes) + 1):
        for chosen in itertools.combinations(open_writes, count):
            if any(is_register_order(order) for order in itertools.permutations(sure + list(chosen))):
                return True
    return False


def random_history(source):
    count = source.randint(3, 6)
    times = source.sample(range(100), 2 * count)
    calls, values = [], [INITIAL]
    for index in range(count):
        began, ended = sorted(times[2 * index:2 * index + 2])
        if source.random() < 0.2:
            ended = NEVER
        if source.random() < 0.5:
            values.append(f"v{index}")
            calls.append(Call("write", values[-1], began, ended))
        else:
            calls.append(Call("read", None, began, ended))
    return [call if call.value else call._replace(value=source.choice(values)) for call in calls]


def main():
    wrong = 0
    for verdict, why, text in HISTORIES:
        if is_atomic(calls_of(text)) != verdict:
            wrong += 1
            print(f"not {verdict}: {why}")
    for text in BAD_FORMS:
        try:
            is_atomic(calls_of(text))
            wrong += 1
            print(f"not refused: {text}")
        except BadHistory:
            pass
    source, good, tried = random.Random(1), 0, 3000
    for _ in range(tried):
        calls = random_history(source)
        verdict = has_any_order(calls)
        good += verdict
        if is_atomic(calls) != verdict:
            wrong += 1
            print(f"not {verdict}: {calls}")
    if not 0.3 * tried < good < 0.9 * tried:
        wrong += 1
        print(f"{good} of {tried} random histories are atomic: too few of one kind")
    by_hand = len(HISTORIES) + len(BAD_FORMS)
    print(f"checker: {by_hand} histories by hand, {tried} random ones ({good} atomic), {wrong} wrong")
    return 1 if wrong else 0


if __name__ == "__main__":
    raise SystemExit(main())
