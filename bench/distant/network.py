"""Machines with a distance between them: network namespaces, whose packets a relay (relay.c) holds back.

Each machine has an address of its own, a loopback address, and a TUN device that leads to all others. All of this
belongs to the namespaces of the script, and is gone when it ends.
"""
import os
import subprocess
import sys

from live_network import ip, run

# In how many seconds the kernel of another machine refuses a connection: a round trip, in which no process there wakes.
PROBE = """
import socket, statistics, sys, time
def once():
    began = time.perf_counter()
    with socket.socket() as probe:
        probe.connect_ex((sys.argv[1], 9))
    return time.perf_counter() - began
print(statistics.median(once() for _ in range(40)))
"""


class Machines:
    """Machines 1 to `count`. A packet between two of them takes half of the round trip, which is in milliseconds."""

    def __init__(self, relay, count, round_trip):
        self.numbers, self.round_trip = range(1, count + 1), round_trip
        for number in self.numbers:
            run("ip", "netns", "add", self.name(number))
            ip(self.name(number), "link", "set", "lo", "up")
        words = [relay, str(round(round_trip * 500)), *map(self.name, self.numbers)]
        self.relay = subprocess.Popen(words, stdout=subprocess.PIPE, text=True)
        if self.relay.stdout.readline() != "ready\n":
            sys.exit("bench/distance: there is no relay between the machines")
        for number in self.numbers:
            ip(self.name(number), "address", "add", f"{self.address_of(number)}/24", "dev", "far")
            ip(self.name(number), "link", "set", "far", "txqueuelen", "10000", "up")

    @staticmethod
    def name(number):
        return f"machine-{number}"

    @staticmethod
    def address_of(number):
        return f"10.77.0.{number}"

    def words_on(self, number):
        """The words in front of a command that is to run on a machine."""
        return ["ip", "netns", "exec", self.name(number)]

    def measured(self):
        """A round trip from machine 1 to machine 2 and back, as it is, in milliseconds."""
        words = [*self.words_on(1), sys.executable, "-c", PROBE, self.address_of(2)]
        return 1000 * float(subprocess.run(words, check=True, stdout=subprocess.PIPE, text=True).stdout)

    def end(self):
        """Ends the relay and the machines. What is known of the packets, as a sentence."""
        self.relay.terminate()
        numbers = self.relay.communicate()[0].split()
        for number in self.numbers:
            run("ip", "netns", "del", self.name(number))
        if len(numbers) != 5:
            return f"the relay ended by itself, with status {self.relay.returncode}"
        carried, late, median, longest, refused = map(int, numbers)
        return (f"of {carried} packets, {late} went out more than 50 us too late, half of all at most {median + 1} us, "
                f"and 99 of 100 at most {longest + 1} us; {refused} were not taken")


def has_device():
    """Whether TUN devices can be made here, as far as the file tells."""
    return os.access("/dev/net/tun", os.R_OK | os.W_OK)
