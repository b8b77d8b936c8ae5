#!/usr/bin/env python3
"""Tests the picture of a run: a run of ten seconds, whose places were worked out by hand at 110 points a second."""
import subprocess
import tempfile
import unittest
import xml.etree.ElementTree
from pathlib import Path

PICTURE = Path(__file__).resolve().parent.parent / "picture"
RUN = """down 2 1 3
nats 0 4 5
cut-1-2 1 4.5 6
call 1 1 name-1 write 7 0 2 answered
call 2 1 name-1 read 7 1 4 answered
call 1 2 name-1 write 8 3 10 unanswered
call 3 1 name-2 write 9 4 5 answered
"""
NETWORK = [("wrong", 510, 63, 110), ("wrong", 565, 77, 165)]
NODE_2 = [("down", 180, 152, 220), ("write open", 400, 155, 770)]


class Picture(unittest.TestCase):
    def draw(self, text, *words):
        with tempfile.NamedTemporaryFile("w") as file:
            file.write(text)
            file.flush()
            return subprocess.run([PICTURE, file.name, *words], capture_output=True, text=True, check=False)

    def bars(self, *words):
        """The bars, each with its kind, where it begins, and how long it is."""
        drawn = self.draw(RUN, *words)
        self.assertEqual(drawn.returncode, 0, drawn.stderr)
        boxes = xml.etree.ElementTree.fromstring(drawn.stdout).iter("{http://www.w3.org/2000/svg}rect")
        return [(box.get("class"), float(box.get("x")), float(box.get("y")), float(box.get("width"))) for box in boxes
                if box.get("class") not in (None, "lane")]

    def test_one_name(self):
        node_1 = [("write", 70, 109, 220), ("read", 180, 123, 330)]
        self.assertEqual(self.bars("name-1"), [*NETWORK, *node_1, *NODE_2])

    def test_all_names(self):
        node_1 = [("write", 70, 109, 220), ("read", 180, 123, 330), ("write", 510, 109, 110)]
        self.assertEqual(self.bars(), [*NETWORK, *node_1, *NODE_2])

    def test_a_part(self):
        """From 0 to 2.5 s a second has 440 points. What goes on behind the end is cut there."""
        self.assertEqual(self.bars("name-1", "0", "2.5"), [
            ("write", 70, 63, 880), ("read", 510, 77, 660), ("down", 510, 106, 660)])

    def test_no_run(self):
        for line in ("call 1 1 name-1 write 7 0 2", "down 2 1", "down x 1 2", "call 1 1 n write 7 0 2 perhaps", ""):
            drawn = self.draw(RUN + line + "\n")
            self.assertEqual((drawn.returncode, drawn.stdout), (1, ""))
            self.assertEqual(drawn.stderr, f"deploy/picture: line 8 is none of a run: {line}\n")


if __name__ == "__main__":
    unittest.main()
