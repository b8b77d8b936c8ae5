"""Plays the two stories of `trials`: a write and a read through a store of threads, and one value coded twice, by the
caller alone and by one worker that prints what it tells its gate. Each request for memory is refused in turn. Behind
them the program makes eight calls, which are only counted."""
from stories import POOL_JOBS

RECEIPTS, CALLS = "receipts 2\n", "calls 8\n"
REFUSED = "refused NoMemory\n"


def play_trials(machine, trials, text):
    """Plays both, where `text` begins with what the program prints with ample memory, up to the calls. Answers what was not
    as it should be, a line each."""
    wanted = text.partition(CALLS)[0] + CALLS
    ample = machine.run([trials])
    if ample.out != wanted or ample.status != 0:
        return [f"trials: {ample.out!r} in place of {wanted!r}"]
    pool = wanted.removeprefix(RECEIPTS).removesuffix(CALLS)
    # The store's story says nothing of a refusal: it is made good, and the pool's comes behind it.
    return refuse(machine, trials, "", [wanted]) + play_pool(machine, trials, RECEIPTS, pool)


def play_pool(machine, trials, store, wanted):
    """Plays the pool's story, which stands behind the output `store`."""
    lines = wanted.splitlines(keepends=True)
    alone, told, shared = lines[:POOL_JOBS], lines[POOL_JOBS:-POOL_JOBS], lines[-POOL_JOBS:]
    pieces, again = store + "".join(alone), REFUSED + "".join(told + shared) + CALLS
    found = refuse(machine, trials, store, [REFUSED + wanted + CALLS])
    # Where no thread can be started, the caller makes all pieces, with no gate.
    found += refuse(machine, trials, pieces, [again, "".join(shared) + CALLS])
    for place, line in enumerate(told):
        before = pieces + "".join(told[:place + 1])
        if line.startswith("enter"):
            # The piece is made between the two lines, and a worker that is refused the memory leaves too.
            found += refuse(machine, trials, before, [told[place + 1] + again])
        else:
            found += refuse(machine, trials, before, [again], least=0)
    return found


def refuse(machine, trials, before, wanted, least=1):
    """Refuses each request behind the output `before`, up to the next write. There have to be at least `least` of them."""
    place, found, nth = "trials: behind " + repr(before[-8:]), [], 1
    while True:
        run = machine.run([trials], len(before), nth)
        if not run.was_refused:
            break
        if run.out not in [before + rest for rest in wanted] or run.err or run.status != 0:
            found.append(f"{place}: request {nth}: {run.out[len(before):]!r}, {run.err!r}, status {run.status}")
        nth += 1
    if nth <= least:
        found.append(f"{place}: asks for no memory")
    return found
