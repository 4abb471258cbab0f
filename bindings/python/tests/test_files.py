"""What goes out of a network, and comes back."""

import io
import json
import os
import random
import tempfile
import unittest
from pathlib import Path
from unittest import mock

import tuhvondi
from tuhvondi import Network, Step, StepKind, TimedNetwork, files
from tests.dijkstra import networkx
from tests.test_network import random_change, random_network

NET = "10.0.0.0/8"


def timed():
    links = [("a", "b", 1), ("b", "c", 1, 3), ("c", "a", 5)]
    delays = {("a", "b"): 500, ("b", "a"): 700, ("b", "c"): 40, ("c", "a"): 2}
    network = TimedNetwork("abc", links, {"a": NET}, delay=delays, publication={"a": 1, "b": 2, "c": 0})
    network.fail("a", "b", at=100_000)
    network.run_to_rest()
    return network


class Graphs(unittest.TestCase):
    def assert_same(self, one, other):
        for each in ("routers", "prefixes", "counts"):
            self.assertEqual(getattr(one, each), getattr(other, each), each)
        self.assertEqual([link._replace(session=0) for link in one.links], [link._replace(session=0) for link in other.links])
        self.assertEqual([one.attachments(name) for name in one.routers], [other.attachments(name) for name in other.routers])

    def settled(self):
        """A network some of whose links are down."""
        draw = random.Random(6)
        network = random_network(draw)
        for _ in range(12):
            random_change(draw, network)
        network.fail("r0")
        network.settle()
        return network

    def test_graphml_comes_back(self):
        network, file = self.settled(), io.StringIO()
        self.assertIn(False, [link.is_up for link in network.links])
        network.to_graphml(file)
        again = Network.from_graphml(io.StringIO(file.getvalue()))
        again.settle()
        self.assertEqual(again.distance_rows(), network.distance_rows())
        self.assertEqual([link.is_up for link in again.links], [link.is_up for link in network.links])

    def test_a_clock_comes_back(self):
        network, file = timed(), io.StringIO()
        network.to_graphml(file)
        again = TimedNetwork.from_graphml(io.StringIO(file.getvalue()))
        again.fail("a", "c", at=5)
        again.run_to_rest()
        other = io.StringIO()
        again.to_times(other)
        self.assertIn('"a b 500 700"', other.getvalue())
        self.assertIn('"c 0"', other.getvalue())
        self.assertEqual([link.is_up for link in again.links], [False, True, False])

    def test_by_networkx(self):
        if networkx is None:
            self.skipTest("networkx is not installed")
        for network in (self.settled(), timed()):
            graph, make = network.to_networkx(down=True), type(network).from_networkx
            with tempfile.TemporaryDirectory() as room:
                networkx.write_graphml(graph, f"{room}/1")
                networkx.write_gml(graph, f"{room}/2")
                network.to_graphml(f"{room}/3")
                read = [networkx.read_graphml(f"{room}/1"), networkx.read_gml(f"{room}/2"), networkx.read_graphml(f"{room}/3")]
            read.append(networkx.node_link_graph(json.loads(json.dumps(networkx.node_link_data(graph)))))
            for each in [graph, *read]:
                self.assert_same(make(each, up=False), make(graph, up=False))
                self.assertEqual(dict(make(each).to_networkx(down=True).edges), dict(make(graph).to_networkx(down=True).edges))

    def test_what_cannot_be_written_or_read(self):
        with self.assertRaisesRegex(ValueError, "one name"):
            Network([1, "1"], []).to_graphml(io.StringIO())
        for text in ("10.0.0.0/8 x", "10.0.0.0/8", "10.0.0.0/8 1 2"):
            with self.assertRaisesRegex(ValueError, "list of prefixes"):
                tuhvondi.graphs.attachments_of(tuhvondi.graphs.Graph({"a": {"prefixes": text}}, [], False))
        with self.assertRaisesRegex(ValueError, "no node has"):
            TimedNetwork.from_networkx(tuhvondi.graphs.Graph({"a": {}}, [], False), publication="pub")


class Documents(unittest.TestCase):
    def test_json(self):
        network, file = Network("ab", [("a", "b", 5)], {"a": NET}), io.StringIO()
        network.to_json(file)
        found = json.loads(file.getvalue())
        self.assertEqual([row["distance"] for row in found["distances"]], [1, None])
        self.assertEqual((found["tables"], found["links"][0]["cost"]), ({"a": [f"{NET} local"], "b": []}, 5))

    def test_a_script_has_what_was_done(self):
        network, file = Network(["Ä", "b"], [("Ä", "b", 5)], {"Ä": NET}), io.StringIO()
        network.settle(most=2)
        network.settle()
        network.settle(seed=7)
        network.fail("b")
        network.do(Step(StepKind.DELIVER, "b", "Ä"))
        network.attach("b", NET, 3)
        network.do(Step(StepKind.DELIVER, "b"))
        network.detach("b", NET)
        network.restore()
        network.set_cost("Ä", "b", 9)
        self.assertEqual(network.to_scenario(file), {"Ä": "a", "b": "b"})
        script = [line.strip(' ",') for line in file.getvalue().partition("script")[2].splitlines()[1:-1]]
        self.assertEqual(script, ["up a b", "settle", "down a b", "deliver b a", f"attach b {NET} 3", "deliver b b",
                                  f"detach b {NET}", "up a b", "cost a b 9"])

    def test_limits(self):
        with self.assertRaisesRegex(ValueError, "at most 256 routers, and this network has 257"):
            Network(range(257), [], {}).to_scenario(io.StringIO())

    def test_names(self):
        names = ["a", "A", "a2", "1st Point of Presence", "", (0, 1), "x" * 16, "x" * 17]
        found = files.short_names(names)
        self.assertEqual(list(found.values()), ["a", "a3", "a2", "r1stpointofprese", "r", "r01", "x" * 16, "x" * 15 + "2"])

    def test_a_page(self):
        """By a program that stands in for dualnet-view."""
        with tempfile.TemporaryDirectory() as room, mock.patch.dict(os.environ, PATH=f"{room}:{os.environ['PATH']}"):
            program = Path(room, "dualnet-view")
            program.write_text('#!/bin/sh\nfor it; do :; done\ncat "$1" "$3" >"$it"\n', encoding="utf-8")
            program.chmod(0o755)
            self.assertEqual(timed().view(f"{room}/run.html"), {"a": "a", "b": "b", "c": "c"})
            text = Path(room, "run.html").read_text(encoding="utf-8")
            self.assertIn('"b c 1 3"', text)
            self.assertIn('"100000 down a b"', text)
            program.write_text("#!/bin/sh\necho it is broken >&2\nexit 3\n", encoding="utf-8")
            with self.assertRaisesRegex(RuntimeError, "ended with 3: it is broken"):
                Network("a", []).view(f"{room}/run.html")

    def test_no_program(self):
        with mock.patch("shutil.which", lambda name: None), mock.patch("os.access", lambda *_: False):
            with self.assertRaisesRegex(FileNotFoundError, "neither on PATH nor beside"):
                Network("a", []).view("run.html")


if __name__ == "__main__":
    unittest.main()
