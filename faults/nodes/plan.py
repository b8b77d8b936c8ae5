"""How often each thing happens in a run of a driven cluster."""


class Plan:
    """What is drawn from the seed for a whole run: how often each thing happens."""

    def __init__(self, source, moves):
        self.rounds = source.randint(2, 4)
        self.calls = source.randint(15, 35)  # in each round
        self.clients = source.randint(2, 6)
        self.writes = source.choice([0.15, 0.5])
        self.objects = [f"object-{index}" for index in range(source.choice([1, 1, 2, 3]))]
        self.loss = source.choice([0, 0.02, 0.1])
        self.repeats = source.choice([0, 0.05, 0.3])
        self.newest_first = source.choice([0, 0.3, 0.9])
        self.cuts = source.choice([0, 0.003, 0.01])
        self.kills = source.choice([0, 0.003, 0.01])
        self.lost_at_kills = source.choice([0, 0.6, 1])
        self.starts = source.choice([0.05, 0.2])
        self.pace = source.choice([4, 10, 30])  # the frames that arrive in a step, at most
        self.ticks = source.choice([0.01, 0.05])
        self.patience = source.choice([6, 50])
        self.slow = source.choice([0, 0.05, 0.3])
        self.leaves = source.choice([0, 0.02])
        self.moves = source.choice([0, 0.02]) if moves else 0
        self.longest = source.choice([0, 100, 5000])
        self.needed = source.choice([None, 1, 2])  # how many fragments give a value back; None: the usual number
