"""The stories in which objects move while nodes are killed: nodes that keep objects, or the mover."""
import threading

NOT_MOVER = b"-ERR only the mover moves objects"
# What a client may get for a move while nodes fail.
MOVED_OR_NOT = (b"+OK", b"-ERR another move of this name is under way", b"-ERR no quorum",
                b"-ERR fewer than a quorum of the new nodes answer")
ENOUGH = 10


def moves(test):
    """Objects move under load, while nodes other than the mover are down one after another."""
    cluster, source = test.cluster, test.source
    moving = threading.Thread(target=move_objects, args=[test, lambda: test.goes_on("moves")])
    moving.start()
    while test.goes_on("moves"):
        node, began = source.choice([node for node in cluster.numbers if node != cluster.mover]), test.history.now()
        cluster.kill(node)
        test.count("kills")
        test.sleep(1, 3)
        start_again(test, node, began)
        test.sleep(0.5, 1.5)
    moving.join()
    test.needs("kills")
    test.needs("moves")


def mover(test):
    """The mover keeps no objects. It is killed under load, and starts again from its log. While it is down, the other
    nodes answer reads and writes, and say that they do not move objects; then moves go on."""
    over = threading.Event()
    moving = threading.Thread(target=move_objects,
                              args=[test, lambda: not (over.is_set() or test.history.faults), True])
    moving.start()
    try:
        while test.goes_on("kills"):
            kill_mover(test)
            test.sleep(0.1, 1)
    finally:
        over.set()
        moving.join()


def kill_mover(test):
    """The mover is down until some calls have been answered without it, and then moves objects again."""
    cluster, history, began = test.cluster, test.history, test.history.now()
    test.source.choice([cluster.kill, cluster.kill_program])(cluster.mover)
    test.count("kills")
    reads, writes = history.answered_reads + ENOUGH, history.answered_writes + ENOUGH
    test.wait_for("too few calls were answered without the mover", lambda: history.faults or (
        history.answered_reads >= reads and history.answered_writes >= writes))
    node = test.source.choice(cluster.members)
    cluster.wait_for_answer(node, (b"MOVE", b"name-0", b"1", b"%d" % node), NOT_MOVER)
    done = test.counts.get("moves", 0)
    start_again(test, cluster.mover, began)
    test.wait_for("no object was moved after the mover had started",
                  lambda: history.faults or test.counts.get("moves", 0) > done)


def start_again(test, node, began):
    """A node that was killed comes back with its log."""
    test.cluster.start_node(node)
    test.cluster.wait_for_answer(node)
    test.history.note("down", node, began)


def move_objects(test, goes_on, may_be_down=False):
    """The mover moves objects to some of the nodes that may keep them, with some number of fragments that suffice."""
    source, members = test.choices_of("moves"), test.cluster.members
    while goes_on():
        new = sorted(source.sample(members, source.randint(1, len(members))))
        words = [b"MOVE", source.choice(test.names.all()).encode(), b"%d" % source.randint(1, len(new)),
                 *(b"%d" % member for member in new)]
        try:
            with test.cluster.connect(test.cluster.mover) as client:
                answer = client.ask(*words)
        except OSError as fault:
            answer = None
            if not may_be_down:
                test.history.fault(f"a move was not answered: {fault}")
                return
        test.count("moves", answer == b"+OK")
        if (answer is None and not may_be_down) or (answer is not None and not answer.startswith(MOVED_OR_NOT)):
            test.history.fault(f"unexpected answer to a move: {answer}")
            return
        test.sleep(0, 0.2)
