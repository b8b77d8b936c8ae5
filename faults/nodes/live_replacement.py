"""The story in which a node is replaced by deploy/replace, and another one drained by deploy/drain, while clients read
and write some hundred names. Two nodes joined later, and get names only by these two commands.

What the nodes tell of layouts in the end is asked here without the code of the two commands."""
import re
import subprocess
import time

from check import NEVER
from live_cluster import PATIENCE, TOP, Broken

ENOUGH = 100
LINE = re.compile(rb"position (\d+) k \d+ nodes((?: \d+)+)")


def replacement(test):
    """Of five nodes, node 5 is replaced by node 6, and then node 4 is drained. While node 5 is down, the others go
    on."""
    cluster, old = test.cluster, test.options.nodes
    if cluster.wait_for_answer(1, (b"LAYOUT", b"started")).startswith(b"-ERR unknown command"):
        test.skip("the node program has no LAYOUT")
        return
    test.wait_for(f"no {ENOUGH} names were written", lambda: len(written(test)) >= ENOUGH or test.history.faults)
    for words in (("replace", old, old + 1), ("drain", old - 1)):
        names = written(test)
        give_command(test, *words)
        check_layouts(test, names, words[1])
        test.count("names without their old node", len(names))
    began = test.history.now()
    cluster.kill(old)
    test.sleep(1, 2)
    while test.goes_on():
        test.sleep(0.1, 0.2)
    cluster.start_node(old)
    cluster.wait_for_answer(old)
    test.history.note("down", old, began)


def written(test):
    """The names of which a write was answered."""
    with test.history.lock:
        return [name for name, calls in test.history.objects.items()
                if any(call.kind == "write" and call.ended != NEVER for call in calls)]


def give_command(test, command, *nodes):
    """Gives the command until it ends with status 0: clients may have written names meanwhile whose first layout has
    the old node."""
    end = time.monotonic() + PATIENCE
    while not test.history.faults:
        ran = run_command(test, command, *nodes)
        if ran.returncode == 0:
            return
        if ran.returncode != 1 or time.monotonic() > end:
            raise failed(command, ran)
        test.sleep(0.1, 0.3)


def run_command(test, command, *nodes):
    """Gives the command once, with the addresses of all nodes."""
    cluster = test.cluster
    addresses = [f"{cluster.address_of(number)}:{cluster.ports[number]}" for number in cluster.numbers]
    words = [TOP / "deploy" / command, *map(str, nodes), *addresses, "--file", cluster.file]
    ran = subprocess.run(words, capture_output=True, text=True, timeout=PATIENCE, check=False)
    test.count(f"runs of {command}")
    return ran


def failed(command, ran):
    return Broken(f"deploy/{command} ended with {ran.returncode}: {ran.stdout[-600:]}{ran.stderr[-600:]}")


def check_layouts(test, names, old):
    """No node is left that tells, as the last layout of one of these names, one with the old node."""
    last = {}
    for number in test.cluster.numbers:
        with test.cluster.connect(number) as client:
            for name in names:
                answer = client.ask(b"LAYOUT", name.encode())
                found = LINE.fullmatch(answer or b"")
                if found is None:
                    raise Broken(f"node {number} answers LAYOUT {name} by {answer}")
                layout = int(found[1]), [int(word) for word in found[2].split()]
                last[name] = max(last.get(name, layout), layout)
    left = [name for name, (_, nodes) in last.items() if old in nodes]
    if left:
        raise Broken(f"node {old} is in the last layouts of {left[:5]}")
