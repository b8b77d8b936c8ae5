"""One run of a cluster of node programs on pipes, whose choices are drawn from a seed."""
import random
import shlex

from check import is_atomic
from cluster import Cluster
from held import HeldBack
from history import History
from node_pipes import NodeEnded
from plan import Plan
from whole import WholeBanks

# The most frames between nodes that wait: if there are more, some of them are lost.
MOST_FLYING = 300
# How often a frame that waited for a node which was killed arrives again.
REPEATS_OF_OLD = 0.5


class Run:
    """One run of a cluster, from one seed."""

    def __init__(self, seed, options, folder):
        self.source = random.Random(seed)
        self.plan = Plan(self.source, options.moves)
        self.history = History()
        self.exact, self.syncs = options.exact, options.syncs
        self.waits = options.wait or (not self.exact and random.Random(f"wait {seed}").random() < 0.5)
        self.now = 0
        words = shlex.split(options.program)
        self.cluster = Cluster(words, options.nodes, self.plan.patience, folder, self.history, self.due,
                               options.library, options.own_mover)
        if self.plan.needed is not None:
            self.cluster.set("k", self.plan.needed)
        # How many finished writes a node keeps besides the newest one; of older ones it forgets the tags too. Exact runs
        # have always 8, so that a seed whose fault `try` looks for stays one.
        delta = 8 if self.exact else (0, 1, 2, None)[seed % 4]
        self.cluster.set("delta", "none" if delta is None else delta)
        if options.compare:
            self.cluster.whole = WholeBanks(delta)
            self.cluster.held = None if self.exact else HeldBack(seed, delta, self.history)
        self.idle = list(range(self.plan.clients))
        self.cut = set()  # pairs of nodes; frames from the first one to the second one are held back
        self.begun = 0  # calls so far
        self.left = 0   # calls that this round still begins
        self.counts = {"kills": 0, "lost": 0, "repeated": 0, "delivered": 0, "reads tried again": 0}
        if self.syncs:
            self.counts["stopped at a sync"] = 0

    def due(self):
        """The step from which on a frame that is sent now may arrive. For some frames it is much later than for others."""
        return self.now + (self.source.randint(50, 500) if self.source.random() < self.plan.slow else 0)

    def begin_call(self):
        """An idle client reads or writes at a node that is up, over a connection of its own."""
        source, up = self.source, self.cluster.up()
        if not up or not self.idle or self.left == 0:
            return
        self.idle.remove(client := source.choice(self.idle))
        self.begun, self.left = self.begun + 1, self.left - 1
        name, node = source.choice(self.plan.objects), source.choice(up)
        value = None
        if source.random() < self.plan.writes:
            value = f"{self.begun}-" + "x" * source.randint(0, self.plan.longest)
        self.cluster.call(node, client, name, value)

    def change_cuts(self):
        """Until the next change, holds back what goes over some links, or to and from one node, or nothing."""
        source, nodes = self.source, list(self.cluster.nodes)
        kind, alone, share = source.randrange(3), source.choice(nodes), source.choice([0.3, 0.6])
        links = [(one, other) for one in nodes for other in nodes if one != other]
        if kind == 0:
            self.cut = set()
        elif kind == 1:
            self.cut = {link for link in links if alone in link}
        else:
            self.cut = {link for link in links if source.random() < share}

    def lose(self, place):
        self.counts["lost"] += 1
        del self.cluster.flying[place]

    def must_wait(self, frame):
        """Whether the frame waits for a node that was killed: until it is up, and has begun as many calls as before."""
        cluster, to = self.cluster, frame.to
        return self.waits and (cluster.nodes[to].process is None or
                               (frame.starts < cluster.starts[to] and cluster.begun[to] < frame.begun))

    def deliver(self):
        """Delivers, loses or repeats one frame between nodes, often an old or a new one. Returns whether there was one."""
        flying, source = self.cluster.flying, self.source
        while len(flying) > MOST_FLYING:
            self.lose(source.randrange(len(flying)))
        places = [place for place, frame in enumerate(flying)
                  if frame.due <= self.now and (frame.sender, frame.to) not in self.cut and not self.must_wait(frame)]
        if not places:
            return False
        place = places[-1] if source.random() < self.plan.newest_first else source.choice(places[:20])
        if source.random() < self.plan.loss:
            self.lose(place)
            return True
        self.counts["delivered"] += 1
        is_old = self.waits and flying[place].starts < self.cluster.starts[flying[place].to]
        if source.random() < (REPEATS_OF_OLD if is_old else self.plan.repeats):
            self.counts["repeated"] += 1
            self.cluster.deliver(flying[place])
        else:
            self.cluster.deliver(flying.pop(place))
        return True

    def kill(self):
        """Kills a node, often the one that sent last: one time in three while it works on a frame, and with a part of
        what it sent."""
        source, flying = self.source, self.cluster.flying
        up = self.cluster.up()
        if not up:
            return
        node = source.choice(up)
        if flying and flying[-1].sender in up and source.random() < 0.5:
            node = flying[-1].sender
        self.kill_one(node)

    def kill_one(self, node):
        flying, source = self.cluster.flying, self.source
        waiting = [frame for frame in flying if frame.to == node]
        self.counts["kills"] += 1
        if self.syncs and waiting and source.random() < 0.5:
            source.shuffle(waiting)
            self.counts["stopped at a sync"] += self.cluster.stop_at_sync(node, waiting)
            return
        if not self.exact and waiting and source.random() < 0.33:
            self.cluster.kill_at_work(node, waiting[0])
        else:
            self.cluster.kill(node)
        for place in range(len(flying) - 1, -1, -1):
            if flying[place].sender == node and source.random() < self.plan.lost_at_kills:
                self.lose(place)

    def step(self):
        source, plan = self.source, self.plan
        self.now += 1
        self.idle += self.cluster.take_ended()
        if source.random() < 0.2:
            self.begin_call()
        if source.random() < plan.cuts:
            self.change_cuts()
        if source.random() < plan.kills:
            self.kill()
        if source.random() < plan.starts and (down := self.cluster.down()):
            self.cluster.start(source.choice(down))
        if source.random() < plan.ticks and (up := self.cluster.up()):
            self.cluster.tick(source.choice(up))
        if source.random() < plan.leaves and (clients := self.cluster.clients_with_calls()):
            self.cluster.leave(source.choice(clients))
        if source.random() < plan.moves:
            self.cluster.move(source, source.choice(plan.objects))
        if self.cluster.held is not None:
            self.cluster.flying += self.cluster.held.released()
        for _ in range(plan.pace):
            if not self.deliver():
                break

    def round(self):
        """Calls with everything that can go wrong; often some nodes are killed at once at the end."""
        self.left = self.plan.calls
        while self.left > 0 or (self.cluster.clients_with_calls() and self.source.random() < 0.99):
            self.step()
        if self.source.random() < 0.6:
            for node in self.cluster.up():
                if self.source.random() < 0.5:
                    self.kill_one(node)

    def settle(self):
        """Starts all nodes, and delivers all frames in any order, until no call is open. Frames that wait for a node
        which was killed wait on."""
        self.cluster.start_all()
        waiting = [frame for frame in self.cluster.flying if self.must_wait(frame)]
        self.cluster.flying = [frame for frame in self.cluster.flying if not self.must_wait(frame)]
        self.deliver_all()
        self.cluster.flying += waiting

    def deliver_all(self):
        flying = self.cluster.flying
        for _ in range(200):
            while flying:
                self.cluster.deliver(flying.pop(self.source.randrange(len(flying))))
            self.idle += self.cluster.take_ended()
            if not self.cluster.clients_with_calls():
                return
            for node in self.cluster.up():
                self.cluster.tick(node)

    def read_all(self):
        """Has each node read each object, one read at a time, while nothing is lost or held back. A read may be given up
        if a move ends meanwhile, since nodes then drop the fragments of the layout that the object leaves. So it is
        tried again once. Returns the reads that fail."""
        unread = []
        if self.cluster.held is not None:
            self.cluster.held.rests = True
        reads = [(node, name) for node in self.cluster.up() for name in self.plan.objects]
        self.source.shuffle(reads)
        for node, name in reads:
            if self.is_read(node, name):
                continue
            self.counts["reads tried again"] += 1
            if not self.is_read(node, name):
                unread.append(f"node {node} does not answer a read of {name}, though all nodes are up")
        if self.cluster.held is not None:
            self.cluster.held.rests = False
        return unread

    def is_read(self, node, name):
        """Whether a node answers a read of an object."""
        before = self.history.answered_reads
        self.cluster.call(node, "last", name, None)
        self.settle()
        return self.history.answered_reads > before

    def deliver_held(self):
        """Delivers what was held back past all writes, or waited, and reads once more. Returns the reads that fail."""
        if self.cluster.held is None:
            return []
        self.waits = False
        self.cluster.flying += self.cluster.held.rest()
        self.settle()
        return self.read_all()

    def go(self):
        """Runs the whole plan, and returns the faults that were found."""
        faults = []
        try:
            self.cluster.start_all()
            for _ in range(self.plan.rounds):
                self.round()
                self.settle()
                faults += self.read_all()
            faults += self.deliver_held()
        except NodeEnded as fault:
            return [*self.cluster.unlike(), str(fault)]
        finally:
            self.cluster.stop()
        faults += self.cluster.unlike()
        for name, calls in self.history.objects.items():
            if not is_atomic(calls):
                faults.append(f"no register has the history of {name}")
        return faults
