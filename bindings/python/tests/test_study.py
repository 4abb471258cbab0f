"""Studies: their measures beside others, their program and its files."""

import csv
import io
import json
import random
import subprocess
import sys
import tempfile
import types
import unittest
from pathlib import Path
from unittest import mock

import tuhvondi
from tuhvondi import Network, study
from tests.test_network import random_network

GRAPH = """<graphml><key id="w" attr.name="weight" for="edge"/><graph edgedefault="undirected">
<node id="a"/><node id="b"/><node id="c"/><node id="d"/>
<edge source="a" target="b"/><edge source="b" target="c"/>
<edge source="a" target="c"><data key="w">{}</data></edge>
<edge source="c" target="d"/></graph></graphml>"""


class Measures(unittest.TestCase):
    def test_turns_are_those_of_settle(self):
        network = study.start(random_network(random.Random(7)))
        for failure in study.failures(network) + study.failures(network, "each-router"):
            one, other = network.copy(), network.copy()
            outcome, before = study.watch(one, failure), other.counts
            other.fail(*failure)
            other.settle()
            counts = other.counts.since(before)
            self.assertEqual((outcome.steps, outcome.messages), (counts.steps, counts.messages))
            self.assertEqual((outcome.queries, outcome.replies), (counts.queries, counts.replies))
            self.assertEqual(one.distance_rows(), other.distance_rows())

    def test_flows_by_hand(self):
        """After each step each packet is traced, and each machine is asked."""
        for seed in range(4):
            network = study.start(random_network(random.Random(seed), 8, 12))
            flows = [(router, net.network_address) for router in network.routers for net in network.prefixes]
            arrived = {flow for flow in flows if network.trace(*flow).arrives}
            for failure in study.failures(network)[:4]:
                one, other = network.copy(), network.copy()
                outcome = study.watch(one, failure)
                other.fail(*failure)
                lost = [{flow for flow in arrived if not other.trace(*flow).arrives}]
                active, rounds = set(), -1
                is_busy = True
                while is_busy:
                    rounds, is_busy = rounds + 1, False
                    for router in other.routers:
                        step = other.next_step(router)
                        if step:
                            is_busy = True
                            other.do(step)
                            active.update(other.active())
                            lost.append({flow for flow in arrived if not other.trace(*flow).arrives})
                cut = lost[-1]
                self.assertEqual((outcome.rounds, outcome.cut), (rounds, len(cut)))
                self.assertEqual(outcome.interrupted, len(set().union(*lost) - cut))
                self.assertEqual(outcome.interrupted_at_once, max(len(each - cut) for each in lost))
                self.assertEqual((outcome.computations, outcome.active_routers),
                                 (len(active), len({router for router, _ in active})))

    def test_each_begins_in_the_same_state(self):
        network = study.start(random_network(random.Random(8)))
        before = network.distance_rows()
        every = study.failures(network)
        alone = study.run(network, every, processes=1)
        self.assertEqual(study.run(network, every, processes=5), alone)
        self.assertEqual([study.watch(network.copy(), failure) for failure in every], alone)
        self.assertEqual(study.run(network, every[:3], seed=4), study.run(network, every[:3], seed=4))
        self.assertEqual(network.distance_rows(), before)

    def test_what_cannot_be_studied(self):
        network = Network("ab", [("a", "b", 1)])
        for call in (lambda: study.run(network, []), lambda: study.failures(network, "each"),
                     lambda: study.run(study.start(network), [], processes=0)):
            with self.assertRaises(ValueError):
                call()
        network.fail("a", "b")
        network.settle()
        rows = [(tuhvondi.UnknownRouter, ("a", "x")), (tuhvondi.UnknownRouter, ("x",)), (tuhvondi.UnknownLink, ("a", "a")),
                (tuhvondi.IsDown, ("a", "b")), (ValueError, "ab"), (ValueError, ()), (ValueError, ("a", "b", "a"))]
        for expected, failure in rows:
            with self.subTest(failure), self.assertRaises(expected):
                study.run(network, [failure])

    def test_a_process_that_dies(self):
        network = study.start(Network("ab", [("a", "b", 1)]))
        with mock.patch.object(study, "_outcome", lambda *_: sys.exit(3)):
            with self.assertRaisesRegex(RuntimeError, "ended with 3"):
                study.run(network, study.failures(network))


class Program(unittest.TestCase):
    def setUp(self):
        folder = tempfile.TemporaryDirectory()
        self.addCleanup(folder.cleanup)
        self.folder = Path(folder.name)
        self.graph = self.folder / "graph.graphml"
        self.graph.write_text(GRAPH.format(3), encoding="utf-8")

    def run_it(self, *words):
        return subprocess.run([sys.executable, "-m", "tuhvondi", *map(str, words)], check=False,
                              cwd=Path(tuhvondi.__file__).parents[1], capture_output=True, text=True)

    def test_tables(self):
        table, lines = self.folder / "out.csv", self.folder / "out.json"
        done = self.run_it("study", self.graph, "--fail", "each-link", "--processes", 2, "--csv", table,
                           "--json", lines)
        self.assertEqual((done.returncode, done.stdout), (0, ""), done.stderr)
        self.assertIn("4 failures: median / 95 % / most", done.stderr)
        with open(table, encoding="utf-8", newline="") as file:
            rows = list(csv.DictReader(file))
        objects = json.loads(lines.read_text(encoding="utf-8"))
        self.assertEqual(rows, [{key: str(value) for key, value in each.items()} for each in objects])
        self.assertEqual([row["failed"] for row in rows], ["a - b", "b - c", "a - c", "c - d"])
        self.assertEqual([row["cut"] for row in rows], ["0", "0", "0", "6"])

    def test_by_time(self):
        done = self.run_it("study", self.graph, "--timed", "--delay", 500, "--publication", 100, "--fail", "each-router",
                           "--prefixes", 2, "--processes", 2)
        self.assertEqual(done.returncode, 0, done.stderr)
        lines = list(csv.DictReader(io.StringIO(done.stdout)))
        self.assertEqual([line["protocol"] for line in lines], 4 * ["DUAL", "distance vector", "link state"])
        self.assertEqual({line["looped"] for line in lines[::3]}, {"0"})
        self.assertIn("lost flow-µs, link state: ", done.stderr)
        done = self.run_it("study", self.graph, "--timed", "--delay", "dealy")
        self.assertEqual((done.returncode, "no edge has the attribute 'dealy'" in done.stderr), (1, True))

    def test_standard_output(self):
        done = self.run_it("study", self.graph, "--fail", "each-router", "--prefixes", 1, "--seed", 5)
        self.assertEqual(done.returncode, 0, done.stderr)
        self.assertEqual(len(done.stdout.splitlines()), 5)

    def test_faults(self):
        rows = [(2, []), (2, ["other"]), (0, ["--help"]), (2, ["study"]),
                (2, ["study", self.graph, "--processes", "0"]), (0, ["study", "--help"]),
                (1, ["study", self.folder / "none"]),
                (1, ["study", self.graph, "--csv", self.folder / "none" / "out.csv"])]
        for status, words in rows:
            with self.subTest(words):
                done = self.run_it(*words)
                self.assertEqual(done.returncode, status, done.stderr)
                self.assertNotIn("Traceback", done.stderr)
        done = self.run_it("study", self.graph, "--cost", "wieght")
        self.assertEqual((done.returncode, done.stderr), (1, "study: no edge has the attribute 'wieght': they have weight\n"))
        self.graph.write_text(GRAPH.format("0.5"), encoding="utf-8")
        done = self.run_it("study", self.graph)
        self.assertEqual(done.returncode, 1)
        self.assertIn("no whole number", done.stderr)

    def test_plots(self):
        try:
            import matplotlib  # pylint: disable=import-outside-toplevel,unused-import
        except ImportError:
            self.skipTest("matplotlib is not installed")
        for words, name, begin in (([], "out.png", b"\x89PNG"), (["--timed"], "out.svg", b"<?xml")):
            picture = self.folder / name
            done = self.run_it("study", self.graph, *words, "--plot", picture)
            self.assertEqual(done.returncode, 0, done.stderr)
            self.assertTrue(picture.read_bytes().startswith(begin))

    def test_plots_by_a_stand_in(self):
        """What is drawn, without matplotlib."""
        figure = mock.MagicMock()
        figure.subplots.return_value.flat = axes = [mock.MagicMock() for _ in study.PLOTS]
        modules = {name: types.ModuleType(name) for name in ("matplotlib", "matplotlib.figure")}
        modules["matplotlib.figure"].Figure = mock.MagicMock(return_value=figure)
        network = study.start(Network("abc", [("a", "b", 1), ("b", "c", 1)]))
        outcomes = study.run(network, study.failures(network))
        with mock.patch.dict(sys.modules, modules):
            study.plot(outcomes, "out.png")
        figure.savefig.assert_called_once_with("out.png")
        for each, field in zip(axes, study.PLOTS):
            values, shares = each.step.call_args[0]
            self.assertEqual(values, [0, *sorted(getattr(outcome, field) for outcome in outcomes)])
            self.assertEqual(shares, [0, 0.5, 1])


if __name__ == "__main__":
    unittest.main()
