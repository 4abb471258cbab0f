"""Networks in simulated time. Which events are done, and when, is worked out by hand from the delays."""

import copy
import io
import random
import unittest
from ipaddress import IPv4Network

import tuhvondi
from tuhvondi import End, Event, Spell, Step, StepKind, TimedNetwork
from tests import dijkstra

NET = "10.0.0.0/8"
UP, DOWN = (Step(kind, "a", "b") for kind in (StepKind.LINK_UP, StepKind.LINK_DOWN))
# An item is 5 microseconds on its way to router a and 7 to router b.
DELAYS = {("b", "a"): 5, ("a", "b"): 7}
PUBLICATIONS = {"a": 10, "b": 20}


def two_routers(**options):
    given = {"delay": DELAYS, "publication": PUBLICATIONS, "up": False, **options}
    return TimedNetwork("ab", [("a", "b", 5)], {"a": NET}, **given)


def takes(router, sender):
    return Step(StepKind.DELIVER, router, sender)


# A hears of the link at 8 and publishes at 18. Its message is at b at 25, which publishes at 45 and answers.
EVENTS = [
    (3, UP), (8, takes("a", "b")), (10, takes("b", "a")), (18, Step(StepKind.PUBLISH, "a")),
    (18, Step(StepKind.RELEASE, "a")), (25, takes("b", "a")), (45, Step(StepKind.PUBLISH, "b")),
    (45, Step(StepKind.RELEASE, "b")), (50, takes("a", "b"))]


class Moments(unittest.TestCase):
    def are_done(self, network, events):
        """The next events, each done by itself."""
        for moment, step in events:
            self.assertEqual(network.next_event, Event(moment, step, step in (UP, DOWN)))
            self.assertEqual(network.run_until(moment, most=1).steps, 1)
            self.assertEqual(network.now, moment)

    def test_two_routers_come_to_rest(self):
        network = two_routers()
        self.assertTrue(network.is_at_rest)
        network.at(3, UP)
        self.assertFalse(network.is_at_rest)
        self.are_done(network, EVENTS)
        self.assertTrue(network.is_at_rest)
        self.assertIsNone(network.next_event)
        self.assertEqual(network.counts, (9, 2, 0, 0))
        self.assertEqual(network.trace("b", "10.1.2.3"), (("b", "a"), End.DELIVERED))
        self.assertEqual(network.distances(NET), {"a": 1, "b": 6})

    def test_what_is_on_its_way_is_lost(self):
        network = two_routers()
        network.at(20, DOWN)
        network.at(3, UP)
        self.assertEqual(network.run_until(19).steps, 5)
        self.assertEqual(network.now, 18)
        self.are_done(network, [(20, DOWN), (25, takes("a", "b")), (27, takes("b", "a"))])
        self.assertTrue(network.is_at_rest)
        self.assertIsNone(network.lookup("b", "10.1.2.3"))

    def test_delays_are_given_in_four_ways(self):
        moments = []
        for delay in (6, {("a", "b"): 6}, {("b", "a"): 6, ("a", "b"): 6}, lambda near, far: 6):
            for publication in (10, {"a": 10, "b": 10}, lambda name: 10):
                network = two_routers(delay=delay, publication=publication, up=True)
                network.run_to_rest()
                moments.append(network.now)
        # The link is heard of at 6; a publishes at 16; b hears at 22 and publishes at 32; a hears at 38.
        self.assertEqual(moments, [38] * 12)

    def test_a_part_of_a_run(self):
        network = two_routers(up=True)
        self.assertEqual(network.run_to_rest(most=4).steps, 4)
        self.assertEqual(network.run_until(2 ** 64 - 1, most=0).steps, 0)
        self.assertEqual(network.run_to_rest().steps, 5)
        self.assertEqual(network.now, 47)

    def test_changes_of_each_kind(self):
        network = two_routers(up=True)
        network.at(100, Step(StepKind.SET_COST, "b", "a", cost=9))
        network.at(200, Step(StepKind.ATTACH, "b", prefix=IPv4Network(NET), cost=3))
        network.at(300, Step(StepKind.DETACH, "b", prefix=IPv4Network(NET)))
        given = []
        while not network.is_at_rest:
            event = network.next_event
            if event.given:
                given.append((event.moment, event.step))
            network.run_until(event.moment, most=1)
            if event.moment == 200 and event.given:
                self.assertEqual(network.distance("b", NET), 10)
        self.assertEqual(given[1:], [
            (100, Step(StepKind.SET_COST, "b", "a", cost=9)),
            (200, Step(StepKind.ATTACH, "b", prefix=IPv4Network(NET), cost=3)),
            (300, Step(StepKind.DETACH, "b", prefix=IPv4Network(NET)))])
        self.assertEqual(network.distances(NET), {"a": 1, "b": 10})


class Changes(unittest.TestCase):
    """The words of a `Network`, with a moment."""

    def test_a_router_fails_and_comes_back(self):
        links = [("a", "b", 1), ("b", "c", 1), ("c", "a", 5)]
        network = TimedNetwork("abc", links, {"a": NET}, delay=500, publication=100)
        network.fail("b", "c", at=9_000)
        network.fail("b", at=10_000)         # the link to c is down by then
        network.restore("b", at=20_000)
        network.set_cost("b", "c", 3, 4, at=30_000)
        network.attach("c", NET, at=40_000)
        network.detach("a", NET, at=40_000)
        network.run_until(10_000)
        self.assertEqual([link.is_up for link in network.links], [False, False, True])
        network.run_to_rest()
        self.assertEqual([(link.is_up, link.session) for link in network.links], [(True, 2), (True, 2), (True, 1)])
        self.assertEqual(network.distances(NET), {"a": 5, "b": 4, "c": 1})
        network.fail("c")
        self.assertEqual((network.next_event.moment, network.next_event.step.kind), (network.now, StepKind.LINK_DOWN))
        network.run_to_rest()
        self.assertEqual(network.distances(NET)["a"], float("inf"))

    def test_what_is_withdrawn_does_not_count(self):
        network = two_routers()
        network.restore("a", "b", at=5)
        network.fail("a", at=5)
        network.withdraw()
        network.fail("a", at=7)
        self.assertEqual(network.withdraw().step.kind, StepKind.LINK_DOWN)
        self.assertIsNone(network.withdraw())

    def test_a_moment_without_a_clock_and_one_that_is_past(self):
        network = tuhvondi.Network("ab", [("a", "b", 5)])
        for call in (lambda: network.fail("a", at=5), lambda: network.set_cost("a", "b", 5, at=0)):
            with self.assertRaises(tuhvondi.NoClock):
                call()
        timed = two_routers(up=True)
        timed.run_to_rest()
        with self.assertRaises(tuhvondi.PastMoment):
            timed.fail("a", at=46)

    def test_a_delay_of_no_link(self):
        with self.assertRaises(tuhvondi.UnknownLink):
            TimedNetwork("abc", [("a", "b", 5)], delay={("a", "b"): 7, ("a", "c"): 5})


class Records(unittest.TestCase):
    def test_an_outage(self):
        network = two_routers(record=True)
        network.at(3, UP)
        network.run_until(44)
        other = copy.copy(network)
        network.run_to_rest()
        self.assertEqual((network.cut_off(), network.outages(1)), ([], []))
        self.assertEqual(network.outages(), [Spell("b", IPv4Network(NET), 3, 45)])
        # The copy is where the network was, with its record, and comes to rest alike.
        self.assertEqual(other.cut_off(), [Spell("b", IPv4Network(NET), 3, None)])
        self.assertEqual((other.now, other.outages()), (25, []))
        other.run_to_rest()
        self.assertEqual((other.now, other.outages()), (network.now, network.outages()))

    def test_two_computations(self):
        """A asks b at 110, b asks back at 137, and each answers as it publishes: a at 152 and b at 179."""
        network = two_routers(record=True, up=True)
        network.at(100, Step(StepKind.DETACH, "a", prefix=IPv4Network(NET)))
        network.run_until(120)
        self.assertEqual([(spell.router, spell.begin) for spell in network.computing()], [("a", 100), ("b", 117)])
        network.run_to_rest()
        ended = [Spell("b", IPv4Network(NET), 117, 159), Spell("a", IPv4Network(NET), 100, 184)]
        self.assertEqual((network.computing(), network.computations()), ([], ended))
        self.assertEqual((network.computations(start=1), network.computations(9)), (ended[1:], []))

    def test_more_than_a_call_has_room_for(self):
        names = range(200)
        links = [(name, name + 1, 1) for name in names[:-1]]
        network = TimedNetwork(names, links, {0: NET}, record=True)
        network.run_until(0)
        self.assertEqual([spell.router for spell in network.cut_off()], [*names[1:]])
        network.run_to_rest()
        self.assertEqual([spell.router for spell in network.outages()], [*names[1:]])
        self.assertEqual({spell.begin for spell in network.outages()}, {0})

    def test_by_looking_after_each_event(self):
        """A router is cut off just as long as it is joined to the attached one and its row is not."""
        draw = random.Random(8)
        names = [f"r{number}" for number in range(6)]
        links = [(names[number], names[(number + gap) % 6], 1) for gap in (1, 2) for number in range(6)]
        network = TimedNetwork(names, links, {names[0]: NET}, delay=lambda near, far: draw.randrange(50), record=True)
        network.run_to_rest()
        seen = len(network.outages())
        for _ in range(10):
            link = draw.choice(network.links)
            network.at(network.now + 9, Step(StepKind.LINK_DOWN if link.is_up else StepKind.LINK_UP, link.a, link.b))
            out, ended = {}, []
            while not network.is_at_rest:
                network.run_until(network.next_event.moment, most=1)
                for name in cut_off(network, names, out):
                    ended.append(Spell(name, IPv4Network(NET), out.pop(name), network.now))
            self.assertEqual(sorted(network.outages(seen)), sorted(ended))
            seen += len(ended)

    def test_no_record(self):
        network = two_routers()
        for call in (network.computations, network.computing, network.outages, network.cut_off):
            with self.assertRaises(tuhvondi.NoRecord) as caught:
                call()
            self.assertEqual(caught.exception.number, 53)
        with self.assertRaises(ValueError):
            network.outages(-1)


def cut_off(network, names, since):
    """Adds who is cut off now, and since when, and answers who was until now."""
    joined, ahead = {names[0]}, [names[0]]
    pairs = [(link.a, link.b) for link in network.links if link.is_up]
    while ahead:
        near = ahead.pop()
        far = {b if a == near else a for a, b in pairs if near in (a, b)} - joined
        joined |= far
        ahead.extend(far)
    out = {name for name in joined if network.trace(name, "10.1.2.3").end != End.DELIVERED}
    for name in out - since.keys():
        since[name] = network.now
    return sorted(since.keys() - out)


class Graphs(unittest.TestCase):
    TEXT = """<graphml><key id="k" attr.name="delay"/><graph edgedefault="{}"><node id="a"/><node id="b"/>
        <edge source="b" target="a"><data key="k">5</data></edge>{}</graph></graphml>"""
    BACK = '<edge source="a" target="b"><data key="k">7</data></edge>'

    def test_edges_have_delays(self):
        for kind, back, expected in (("directed", self.BACK, 47), ("undirected", "", 45)):
            file = io.StringIO(self.TEXT.format(kind, back))
            network = TimedNetwork.from_graphml(file, {"a": NET}, publication=PUBLICATIONS)
            network.run_to_rest()
            self.assertEqual(network.now, expected)

    def test_an_edge_without_a_delay(self):
        text = self.TEXT.format("undirected", "")
        network = TimedNetwork.from_graphml(
            io.StringIO(text.replace('"delay"', '"length"')), {"a": NET}, publication=PUBLICATIONS)
        network.run_to_rest()
        self.assertEqual(network.now, 3030)
        with self.assertRaisesRegex(ValueError, "no edge has the attribute 'dealy': they have delay"):
            TimedNetwork.from_graphml(io.StringIO(text), delay="dealy")


class Distances(unittest.TestCase):
    def test_random_delays(self):
        """At rest rows lead at least cost, whatever the delays are, and no packet circles on the way there."""
        draw = random.Random(5)
        names = [f"r{number}" for number in range(8)]
        links = [(names[number], names[(number + gap) % 8], draw.randint(1, 9), draw.randint(1, 9))
                 for gap in (1, 3) for number in range(8)]
        network = TimedNetwork(names, links, {names[0]: NET, names[3]: {NET: 4}},
                               delay=lambda near, far: draw.randrange(50), publication=lambda name: draw.randrange(20))
        for number in range(20):
            network.run_to_rest()
            prefix = IPv4Network(NET)
            self.assertEqual(network.distances(prefix), dijkstra.distances(network, prefix))
            link = draw.choice(network.links)
            kind = StepKind.LINK_DOWN if link.is_up else StepKind.LINK_UP
            network.at(network.now + draw.randrange(100), Step(kind, link.a, link.b))
            while not network.is_at_rest:
                before = network.now
                network.run_until(network.next_event.moment, most=1)
                self.assertLessEqual(before, network.now, number)
                for name in names:
                    routers = network.trace(name, "10.1.2.3").routers
                    self.assertEqual(len(set(routers)), len(routers))


class Refusals(unittest.TestCase):
    def test_by_name_and_number(self):
        network = two_routers(up=True)
        network.at(4, UP)
        endless = two_routers(delay=2 ** 64 - 1, up=True)
        rows = [
            (tuhvondi.UnknownRouter, 10, lambda: network.at(9, Step(StepKind.LINK_UP, "a", "x"))),
            (tuhvondi.UnknownLink, 11, lambda: network.at(9, Step(StepKind.LINK_UP, "a", "a"))),
            (tuhvondi.BadLink, 25, lambda: network.at(9, Step(StepKind.LINK_UP, "a"))),
            (tuhvondi.BadCost, 5, lambda: network.at(9, Step(StepKind.SET_COST, "a", "b"))),
            (tuhvondi.BadKind, 6, lambda: network.at(9, Step(StepKind.PUBLISH, "a"))),
            (tuhvondi.BadKind, 6, lambda: network.at(9, takes("a", "b"))),
            (tuhvondi.AlreadyUp, 13, network.run_to_rest),
            (tuhvondi.AlreadyUp, 13, lambda: network.run_until(4)),
            (tuhvondi.PastMoment, 51, lambda: (network.withdraw(), network.run_to_rest(), network.at(46, DOWN))),
            (tuhvondi.TimeSpent, 52, endless.run_to_rest),
            (tuhvondi.UnknownRouter, 10, lambda: network.trace("x", "10.0.0.1")),
        ]
        for number, (expected, status, call) in enumerate(rows):
            with self.subTest(f"{number} {expected.__name__}"), self.assertRaises(expected) as caught:
                call()
            self.assertEqual((caught.exception.number, caught.exception.name), (status, expected.__name__))
        self.assertEqual((network.now, endless.now), (47, 0))
        self.assertIsNone(network.withdraw())
        network.close()
        with self.assertRaises(tuhvondi.EmptyHandle):
            network.run_to_rest()

    def test_what_is_no_delay(self):
        for options in ({"delay": -1}, {"delay": 2 ** 64}, {"delay": 0.5}, {"delay": {}}, {"publication": {"a": 1}},
                        {"publication": None}):
            with self.subTest(str(options)), self.assertRaises(ValueError):
                two_routers(**options)
        with self.assertRaises(ValueError):
            two_routers().at(-1, UP)


if __name__ == "__main__":
    unittest.main()
