"""The story in which all of the first nodes are replaced by nodes that joined later, one after another, and stopped
for good, while clients read and write names that were written before. In the end all nodes that are left are killed at
once: what they know of the names then is in their logs.

A name that was never written still needs its first nodes, so clients use the same names all the time. The mover cannot
be replaced, since the cluster file names it for good; so it is none of the first nodes, but one of `later`, which keeps
no objects. It is killed as the others are, and clients ask it as they ask the others.

deploy/replace ends with status 1 where a node does not answer, also one that was stopped for good. So what it says is
read here."""
import random
import re
import time
from concurrent.futures import ThreadPoolExecutor

from live_cluster import PATIENCE, Broken
from live_replacement import check_layouts, failed, run_command, written

AT_ONCE = 24  # how many calls are open at a time in the end
NOT_MOVED = re.compile(r"^deploy/replace: (\S+) was not moved: ", re.MULTILINE)
UNTRIED = "deploy/replace: not tried: "
DONE = re.compile(r"^deploy/replace: of \d+ names?, none has node \d+ in the last layout(?:; not asked: (.*))?$",
                  re.MULTILINE)


def departure(test):
    """Each of the first nodes is replaced by a new one while nodes are killed and started again, and is stopped."""
    cluster, first = test.cluster, test.cluster.members
    if cluster.wait_for_answer(1, (b"LAYOUT", b"started")).startswith(b"-ERR unknown command"):
        test.skip("the node program has no LAYOUT")
        return
    at_all(test, [(number, name, True) for number, name in in_turn(test)])
    new, stopped = list(cluster.numbers)[len(first) + 1:], []
    for old, other in zip(test.source.sample(first, len(first)), new):
        replace(test, old, other, stopped)
        stopped.append((old, test.history.now()))
        cluster.retire(old)
        test.count("first nodes stopped for good")
        kill(test, test.source.choice([1, 1, 2]))
    while test.goes_on():
        kill(test, test.source.choice([1, 1, 2]))
        test.sleep(0.5, 1.5)
    test.load.stop()
    kill(test, len(cluster.numbers))
    for old, began in stopped:
        test.history.note("down", old, began)
    at_all(test, [(number, name, False) for number in cluster.numbers for name in test.names.all()])
    at_all(test, [(number, name, True) for number, name in in_turn(test)])


def kill(test, count):
    """So many nodes are killed at once, and start again."""
    cluster, began = test.cluster, {}
    for node in test.source.sample(list(cluster.numbers), count):
        began[node] = test.history.now()
        test.source.choice([cluster.kill, cluster.kill_program])(node)
        test.count("kills")
    test.sleep(0.2, 1)
    for node in began:
        cluster.start_node(node)
    for node in began:
        cluster.wait_for_answer(node)
        test.history.note("down", node, began[node])


def replace(test, old, new, stopped):
    """Replaces a node by deploy/replace, and kills another one meanwhile. A name that the command names as one that was
    not moved may have moved all the same, and then nobody but the mover may know where calls begin; so it is read."""
    cluster, end, unsure = test.cluster, time.monotonic() + PATIENCE, set()
    gone = {f"node {number}" for number, _ in stopped}
    with ThreadPoolExecutor(1) as thread:
        killing = thread.submit(kill, test, 1)
        ran = run_command(test, "replace", old, new)
        killing.result()
    while not test.history.faults:
        unsure |= set(NOT_MOVED.findall(ran.stdout))
        said = DONE.search(ran.stdout)
        is_whole = said is not None and set((said[1] or "").split(", ")) - {""} <= gone
        if is_whole and not NOT_MOVED.search(ran.stdout) and UNTRIED not in ran.stdout:
            break
        if ran.returncode != 1 or time.monotonic() > end:
            raise failed("replace", ran)
        test.sleep(0.1, 0.3)
        ran = run_command(test, "replace", old, new)
    test.wait_for("a move goes on", lambda: moves_open(test) == 0 or test.history.faults)
    at_all(test, [(new, name, False) for name in unsure - {"started"}])
    if "started" in unsure:
        cluster.wait_for_answer(new, (b"SET", b"started", b"%d" % new), b"+OK")
    test.count("names that were read since their move was not answered", len(unsure))
    check_layouts(test, written(test), old)


def moves_open(test):
    """How many moves the mover carries out."""
    with test.cluster.connect(test.cluster.mover) as client:
        lines = client.ask(b"INFO").decode().split("\r\n")
    return next(int(line.partition(":")[2]) for line in lines if line.startswith("cluster_moves_open:"))


def in_turn(test):
    """Each name, with one of the nodes."""
    nodes = list(test.cluster.numbers)
    return [(nodes[place % len(nodes)], name) for place, name in enumerate(test.names.all())]


def at_all(test, calls):
    """Makes these calls, many at a time and in any order, each until it is answered: a node, a name, and whether it is
    written."""
    def call(it):
        node, name, is_write = it
        what = "write" if is_write else "read"
        test.wait_for(f"node {node} does not answer a {what} of {name}", lambda: test.history.faults or test.answers(
            node, name, test.load.values.next() if is_write else None))

    random.Random(test.options.seed).shuffle(calls)
    with ThreadPoolExecutor(AT_ONCE) as threads:
        for _ in threads.map(call, calls):
            pass
    test.count("calls that had to be answered", len(calls))
