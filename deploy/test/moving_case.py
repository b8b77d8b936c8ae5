"""What the tests of deploy/replace and deploy/drain have in common: a test double of a cluster, and runs of the two."""
import random
import subprocess
import tempfile
import unittest
from pathlib import Path

from connection import PATIENCE
from layouts_double import Layouts

DEPLOY = Path(__file__).resolve().parent.parent


class MovingCase(unittest.TestCase):
    def layouts(self, nodes=(1, 2, 3, 4, 5), later=(6, 7), **options):
        layouts = Layouts(nodes, later, **options)
        self.addCleanup(layouts.end)
        return layouts

    @staticmethod
    def fill(layouts, count, members=3, k=2):
        """Gives names layouts of some of the first nodes, in any order, as a source of choices says."""
        source = random.Random(count)
        for number in range(count):
            layouts.names[b"name-%03d" % number] = [(k, source.sample(layouts.members, members))]

    def folder(self):
        return Path(self.enterContext(tempfile.TemporaryDirectory()))

    def run_command(self, command, *words, status=0):
        """Runs it, and returns what it said on standard output and on standard error."""
        ran = subprocess.run([DEPLOY / command, *map(str, words)], capture_output=True, text=True, timeout=PATIENCE,
                             check=False)
        self.assertEqual(ran.returncode, status, ran.stdout + ran.stderr)
        return ran.stdout, ran.stderr

    def replace(self, *words, status=0):
        return self.run_command("replace", *words, status=status)[0]

    def drain(self, *words, status=0):
        return self.run_command("drain", *words, status=status)[0]
