"""Link state and the distance vector: what they do by hand, and at rest beside Dijkstra's algorithm."""

import math
import random
import unittest

import tuhvondi
from tuhvondi import TimedNetwork, study
from tuhvondi.baselines import Baseline, DistanceVector, LinkState
from tests import dijkstra
from tests.test_network import random_network

NET = "10.0.0.0/8"


def ring():
    network = TimedNetwork("abc", [("a", "b", 1), ("b", "c", 1), ("c", "a", 5)], {"a": NET}, delay=500, publication=100,
                           record=True)
    network.run_to_rest()
    return network


class Moments(unittest.TestCase):
    def test_link_state_by_hand(self):
        """B hears of it at 500 and tells c, which hears at 1000. B publishes at 600 its row to c, whose row leads back to b
        until 1100. A tells c as well, over a link of its own."""
        other = LinkState(ring())
        other.fail("a", "b")
        self.assertEqual(other.outages, {("b", NET): 1100, ("c", NET): 1100})
        self.assertEqual((other.looped, other.back), ({("b", NET), ("c", NET)}, 1100))
        # The two words of a and b go round the two links that are left; each end passes on what comes from the other side.
        self.assertEqual((other.messages, other.rest), (4, 1600))

    def test_a_distance_vector_by_hand(self):
        """B has no way, since c has told it that it has none. At 600 it tells c, which hears at 1100 and publishes at 1200, and
        so b hears at 1700 and publishes at 1800. C tells a, too, to which its row leads now."""
        other = DistanceVector(ring())
        other.fail("a", "b")
        self.assertEqual(other.outages, {("b", NET): 1800, ("c", NET): 1200})
        self.assertEqual((other.looped, other.back, other.rest, other.messages), (set(), 1800, 1800, 3))


class Rest(unittest.TestCase):
    def cost(self, other, name, prefix):
        """What a packet costs along the rows."""
        place, at, cost = other._prefixes.index(str(prefix)), other._number(name), 0
        for _ in other._names:
            row = other._rows[place][at]
            if row is None:
                return math.inf
            if row == at:
                return cost + other._attached[place][at]
            cost, at = cost + other._costs[at, row], row
        raise AssertionError("it circles")

    def test_least_costs(self):
        draw = random.Random(9)
        looped = {DistanceVector: 0, LinkState: 0}
        for _ in range(3):
            plain = random_network(draw, 9, 14)
            links = [(link.a, link.b, link.cost, link.cost_back) for link in plain.links]
            network = TimedNetwork(plain.routers, links, {name: plain.attachments(name) for name in plain.routers},
                                   delay=lambda near, far: draw.randrange(1, 50), publication=lambda name: draw.randrange(20))
            network.run_to_rest()
            for failure in study.failures(network) + study.failures(network, "each-router"):
                after = network.copy()
                after.fail(*failure)
                after.run_to_rest()
                for kind in looped:
                    other = kind(network)
                    before = {(name, prefix): self.cost(other, name, prefix) for name in network.routers
                              for prefix in network.prefixes}
                    self.assertEqual(before, {(name, prefix): network.distance(name, prefix) for name, prefix in before})
                    other.fail(*failure)
                    looped[kind] += len(other.looped)
                    for prefix in network.prefixes:
                        self.assertEqual({name: self.cost(other, name, prefix) for name in network.routers},
                                         dijkstra.distances(after, prefix))
        self.assertGreater(looped[LinkState], 0)

    def test_the_rows_are_those_of_the_network(self):
        """Of two ways of one cost each protocol begins with the network's, which has none of the two first ports."""
        links = [("a", "b", 1), ("a", "c", 1), ("b", "d", 1), ("c", "d", 1)]
        network = TimedNetwork("abcd", links, {"a": NET})
        network.fail("b", "d", at=10 ** 6)
        network.restore("b", "d", at=2 * 10 ** 6)
        network.run_to_rest()
        self.assertEqual(network.lookup("d", "10.0.0.1").next, "c")
        for kind in (DistanceVector, LinkState):
            other = kind(network)
            self.assertEqual(other._rows[0], [0, 0, 0, 2])
            other.fail("a", "b")
            self.assertEqual((other._rows[0][3], ("d", NET) in other.outages), (2, False))

    def test_a_way_round_that_is_dear(self):
        network = TimedNetwork("abc", [("a", "b", 1), ("b", "c", 1), ("c", "a", 60000)], {"a": NET})
        network.run_to_rest()
        for kind in (DistanceVector, LinkState):
            other = kind(network)
            other.fail("a", "b")
            self.assertEqual(other._rows[0], [0, 2, 0])
        with self.assertRaisesRegex(RuntimeError, "do not lead at least cost"):
            DistanceVector(network, infinity=16).fail("a", "b")

    def test_what_cannot_fail(self):
        network = ring()
        for expected, failure in ((tuhvondi.UnknownRouter, "x"), (tuhvondi.UnknownLink, "aa")):
            with self.assertRaises(expected):
                LinkState(network).fail(*failure)
        network.fail("a", "b")
        with self.assertRaisesRegex(ValueError, "run it to rest"):
            LinkState(network)
        network.run_to_rest()
        with self.assertRaises(tuhvondi.UnknownLink):
            LinkState(network).fail("a", "b")

    def test_rows_that_are_wrong_are_found(self):
        class Idle(Baseline):
            protocol = "idle one"

            def _went_down(self, router, far):
                pass

        with self.assertRaisesRegex(RuntimeError, "the idle one for 10.0.0.0/8 do not lead at least cost"):
            Idle(ring()).fail("a", "b")


class Study(unittest.TestCase):
    def test_beside_each_other(self):
        network = ring()
        outcomes = study.run_timed(network, study.failures(network), processes=2)
        self.assertEqual([outcome.failed for outcome in outcomes[::3]], ["a - b", "b - c", "c - a"])
        dual, vector, state = outcomes[:3]
        again = network.copy()
        again.fail("a", "b")
        counts = again.run_to_rest()
        spells = again.outages(2)
        self.assertEqual((dual.messages, dual.rest), (counts.messages, again.now - network.now))
        self.assertEqual((dual.lost, dual.flows), (sum(spell.length for spell in spells), len(spells)))
        self.assertEqual((vector.lost, state.lost, state.looped), (3000, 2200, 2))
        # A link without traffic costs nothing, and link state tells of it all the same.
        self.assertEqual([(outcome.lost, outcome.flows) for outcome in outcomes[6:]], 3 * [(0, 0)])
        self.assertEqual([outcome.messages > 0 for outcome in outcomes[6:]], [False, False, True])

    def test_what_cannot_be_studied(self):
        network = ring()
        network.fail("a", "b")
        with self.assertRaisesRegex(ValueError, "run it to rest"):
            study.run_timed(network, [])
        network.run_to_rest()
        with self.assertRaises(tuhvondi.IsDown):
            study.run_timed(network, [("a", "b")])
        with self.assertRaises(tuhvondi.NoRecord):
            study.run_timed(TimedNetwork("a", []), [])


if __name__ == "__main__":
    unittest.main()
