"""The story in which new programs are rolled through a cluster, one node after another, while clients read and write. The
nodes begin with the programs of --before and --host-before. Without these options, each new program is a copy of the
one before, under another path: of the node program, or of the host, if the nodes run in their hosts. Some nodes also go
on from a copy of their folder, and names are moved in between."""
import shutil
import signal
from pathlib import Path

from live_cluster import Broken

ENOUGH = 20  # calls that the other nodes answer while one is down; more than there are clients
FORTH, BACK = "new programs in all nodes", "programs of before in all nodes"


def upgrade(test):
    """All nodes get the new programs, and then one more copy of them as long as the story goes on. With --back they get
    the programs of before and the new ones in turn."""
    options, rounds, wanted = test.options, 0, BACK if test.options.back else FORTH
    while test.goes_on(wanted):
        is_back = options.back and rounds % 2 == 1
        rounds += 1
        program, host = (options.before, options.host_before) if is_back else (options.program, options.host)
        copy = shutil.copy(program or host, test.folder / f"program-{rounds}")
        test.cluster.program, test.cluster.host = (copy, host) if program else (None, copy)
        for node in test.cluster.numbers:
            exchange(test, node)
            move_one(test)
        test.count(BACK if is_back else FORTH)
    test.needs(wanted)


def exchange(test, node):
    """Stops a node, waits while the others answer calls, and starts it with the new programs. Once it answers a write, a
    quorum hears it, and the next node may stop."""
    cluster, began = test.cluster, test.history.now()
    cluster.kill(node, signal.SIGTERM)
    enough = answered(test) + ENOUGH
    test.wait_for(f"no {ENOUGH} calls were answered while node {node} was down",
                  lambda: answered(test) >= enough or test.history.faults)
    if test.source.random() < 0.5:
        go_on_from_copy(cluster.folder / f"node-{node}")
        test.count("copied folders")
    cluster.nodes[node] = cluster.make_node(node)
    cluster.start_node(node)
    newest = cluster.program or cluster.host
    cluster.wait_for_answer(node, (b"SET", b"exchanged", newest.name.encode()), b"+OK")
    test.history.note("down", node, began)
    processes = cluster.programs_of(node) if cluster.program else [cluster.nodes[node].child.pid]
    words = [Path(f"/proc/{process}/cmdline").read_text().split("\0") for process in processes]
    if len(words) != 1 or str(newest) not in words[0]:
        raise Broken(f"node {node} does not run its new program, but {words}")
    test.count("exchanged programs")


def move_one(test):
    """The mover, with the new program or that of before, moves a name to some four of the nodes, which may have either."""
    cluster, source = test.cluster, test.source
    members = sorted(source.sample(list(cluster.numbers), min(4, cluster.count)))
    name = source.choice(test.names.all())
    cluster.wait_for_answer(1, (b"MOVE", name.encode(), b"2", *(b"%d" % member for member in members)), b"+OK")
    test.count("moves")


def go_on_from_copy(folder):
    """The folder of a stopped node is copied, and the copy takes its place."""
    copy = folder.with_name(f"{folder.name}-copy")
    shutil.copytree(folder, copy)
    shutil.rmtree(folder)
    copy.rename(folder)


def answered(test):
    return test.history.answered_reads + test.history.answered_writes
