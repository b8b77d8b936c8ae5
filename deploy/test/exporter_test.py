#!/usr/bin/env python3
"""Tests that Debian's prometheus-redis-exporter reads the INFO of nodes: exporter_test.py PORT PORT PORT."""
import re
import subprocess
import sys
import time
import unittest
import urllib.error
import urllib.request
from pathlib import Path

from connection import PATIENCE, Connection
from ports import LOOPBACK, free_ports

PORTS = [int(word) for word in sys.argv[1:]]
del sys.argv[1:]
PAGE = Path(__file__).resolve().parents[2] / "docs" / "watching.md"


class Exporter(unittest.TestCase):
    def scraped(self, port):
        """The values that the exporter gives Prometheus of the node at this port."""
        [own] = free_ports(1)
        words = ["prometheus-redis-exporter", "-redis.addr", f"redis://{LOOPBACK}:{port}", "-web.listen-address",
                 f"{LOOPBACK}:{own}"]
        with subprocess.Popen(words, stdout=subprocess.DEVNULL, stderr=subprocess.DEVNULL) as exporter:
            self.addCleanup(exporter.kill)
            try:
                lines = self.page(f"http://{LOOPBACK}:{own}/metrics").splitlines()
            finally:
                exporter.kill()
        return dict(line.rsplit(" ", 1) for line in lines if line.startswith("redis_"))

    def page(self, address):
        end = time.monotonic() + PATIENCE
        while True:
            try:
                with urllib.request.urlopen(address, timeout=PATIENCE) as page:
                    return page.read().decode()
            except urllib.error.URLError:
                self.assertLess(time.monotonic(), end, "the exporter does not answer")
                time.sleep(0.05)

    def test_what_it_reads(self):
        with Connection(PORTS[0]) as client:
            self.assertEqual(client.ask(b"SET", b"exported", b"x"), b"+OK")
        found = [self.scraped(port) for port in PORTS]
        for values in found:
            self.assertEqual([values["redis_up"], values["redis_cluster_state"], values["redis_cluster_known_nodes"],
                              values["redis_cluster_nodes_heard"]], ["1", "1", "3", "3"])
            self.assertGreaterEqual(float(values["redis_connected_clients"]), 1)
            self.assertEqual(values['redis_exporter_last_scrape_error{err=""}'], "0")
        self.assertGreaterEqual(sum(float(values['redis_db_keys{db="db0"}']) for values in found), 2)
        self.assertGreaterEqual(float(found[0]["redis_commands_processed_total"]), 1)

    def test_names_of_the_page(self):
        """The page of watching names a line or a metric only if the exporter passes it on."""
        with Connection(PORTS[0]) as client:
            if b"program:casd" not in client.ask(b"INFO"):
                self.skipTest("the node program is a test double")
        text = PAGE.read_text()
        named = {*re.findall(r"redis_[a-z0-9_]+", text), *(f"redis_{it}" for it in re.findall(r"\bcluster_\w+", text))}
        found = {name.partition("{")[0] for name in self.scraped(PORTS[0])}
        self.assertEqual(named - found, set())

    def test_no_node(self):
        """The exporter itself answers."""
        self.assertEqual(self.scraped(free_ports(1)[0])["redis_up"], "0")


if __name__ == "__main__":
    unittest.main()
