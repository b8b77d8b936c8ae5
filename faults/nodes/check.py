#!/usr/bin/env python3
"""Checks histories of registers: is there one order of the calls that a register could have had?

check.py FILE reads a history, one call in a line: OBJECT KIND VALUE BEGAN ENDED, where KIND is `read` or `write`, BEGAN
and ENDED are numbers, and ENDED is `-` for a call without an answer. The value `-` is that of an object that was never
written. The status is 1 where an object's history has no such order.

A history of one object is atomic where some list of its calls exists such that
- each call with an answer is in the list once, and a write without an answer is in it at most once;
- a call that ended before another one began comes before it;
- each read returns the value of the last write before it, or the initial value where there is none.

No two writes of an object write the same value, and none writes the initial one. So a read tells which write it is of,
and a value that was overwritten never comes back. A read without an answer says nothing. A write without an answer
whose value no read returned can be taken out of any such list, and so it is left out from the start.
"""
import sys
from collections import namedtuple

INITIAL = "-"
NEVER = float("inf")

# A call; `ended` is NEVER where it has no answer.
Call = namedtuple("Call", "kind value began ended")


class BadHistory(Exception):
    """The history breaks what the checker needs of it: values that are unique, and calls that end after they begin."""


def check_form(calls):
    written = [call.value for call in calls if call.kind == "write"]
    if len(set(written)) < len(written) or INITIAL in written:
        raise BadHistory("two writes have the same value, or one writes the initial value")
    for call in calls:
        if call.kind not in ("read", "write") or not call.began < call.ended:
            raise BadHistory(f"{call} is no call")


def is_atomic(calls):
    """Whether the calls of one object have such an order."""
    check_form(calls)
    reads = [call for call in calls if call.kind == "read" and call.ended < NEVER]
    returned = {read.value for read in reads}
    writes = [call for call in calls if call.kind == "write" and (call.ended < NEVER or call.value in returned)]
    if not returned <= {write.value for write in writes} | {INITIAL}:
        return False
    return has_order(writes, reads)


def has_order(writes, reads):
    """Searches the orders of the writes from the front. The reads of a value stand behind its write and before the next
    one, so that a state of the search is the set of the writes that the list has so far and the last of them.

    In such a state, all reads of earlier values are in the list as well; those of the current value come next.
    """
    count = len(writes)
    readers = {value: [read for read in reads if read.value == value] for value in {read.value for read in reads}}
    seen, states = set(), [(frozenset(), None)]
    while states:
        state = states.pop()
        if state in seen:
            continue
        seen.add(state)
        placed, last = state
        if not may_follow(writes, readers, placed, last):
            continue
        if len(placed) == count:
            return True
        states += [(placed | {index}, index) for index in range(count) if index not in placed]
    return False


def may_follow(writes, readers, placed, last):
    """Whether no call that is still to come ended before the last write, or a read of it, began."""
    value = INITIAL if last is None else writes[last].value
    group = ([] if last is None else [writes[last]]) + readers.get(value, [])
    began = max((call.began for call in group), default=None)
    if began is None:
        return True
    to_come = [writes[index] for index in range(len(writes)) if index not in placed]
    later = to_come + [read for write in to_come for read in readers.get(write.value, [])]
    if any(call.ended < began for call in later):
        return False
    return last is None or not any(read.ended < writes[last].began for read in readers.get(value, []))


def read_history(lines):
    """The calls of each object."""
    objects = {}
    for line in lines:
        name, kind, value, began, ended = line.split()
        call = Call(kind, value, int(began), NEVER if ended == "-" else int(ended))
        objects.setdefault(name, []).append(call)
    return objects


def main(path):
    with open(path) as file:
        objects = read_history(file)
    bad = [name for name, calls in objects.items() if not is_atomic(calls)]
    for name in bad:
        print(f"{name}: no register has this history")
    print(f"{len(objects) - len(bad)} of {len(objects)} objects atomic")
    return 1 if bad else 0


if __name__ == "__main__":
    sys.exit(main(sys.argv[1]))
