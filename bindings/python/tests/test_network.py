"""Networks beside Dijkstra's algorithm, in many orders of steps."""

import copy
import io
import itertools
import math
import pickle
import random
import signal
import time
import unittest
from ipaddress import IPv4Network
from unittest import mock

import tuhvondi
from tuhvondi import End, Kind, Network, Step, StepKind, graphs
from tests import dijkstra

NET = "10.0.0.0/8"


def random_network(draw, routers=12, links=20):
    """A connected network, whose links have a cost from each end, with prefixes inside one another."""
    names = [f"r{number}" for number in range(routers)]
    pairs = [(names[number], draw.choice(names[:number])) for number in range(1, routers)]
    more = [pair for pair in itertools.combinations(names, 2) if not {pair, pair[::-1]} & set(pairs)]
    pairs += draw.sample(more, links - len(pairs))
    given = [(a, b, draw.randint(1, 9), draw.randint(1, 9)) for a, b in pairs]
    attachments = {
        names[0]: {NET: 1, "10.1.0.0/16": 3}, names[1]: "10.1.0.0/16", names[2]: [NET, "192.0.2.0/24"]}
    return Network(names, given, attachments)


def random_change(draw, network):
    """Changes a link or an attachment."""
    link = draw.choice(network.links)
    if not link.is_up:
        network.restore(link.a, link.b)
    elif draw.random() < 0.6:
        network.fail(link.a, link.b)
    elif draw.random() < 0.7:
        network.set_cost(link.a, link.b, draw.randint(1, 9), draw.choice([None, draw.randint(1, 9)]))
    else:
        router, prefix = draw.choice(network.routers), draw.choice(network.prefixes)
        try:
            network.detach(router, prefix)
        except tuhvondi.NotAttached:
            network.attach(router, prefix, draw.randint(1, 9))


class Distances(unittest.TestCase):
    def compare(self, network):
        """Rows lead at least cost, and packets arrive where there is a way."""
        self.assertTrue(network.is_settled)
        self.assertEqual(network.active(), [])
        for prefix in network.prefixes:
            expected = dijkstra.distances(network, prefix)
            self.assertEqual(network.distances(prefix), expected)
            for router in network.routers:
                trace = network.trace(router, prefix.broadcast_address)
                self.assertEqual(len(set(trace.routers)), len(trace.routers))
                row = network.lookup(router, prefix.broadcast_address)
                if row is not None and row.prefix == prefix:
                    self.assertEqual(trace.arrives, expected[router] < math.inf)

    def test_each_link_fails_alone(self):
        network = random_network(random.Random(1))
        network.settle()
        self.compare(network)
        for link in network.links:
            network.fail(link.a, link.b)
            network.settle()
            self.compare(network)
            network.restore(link.a, link.b)
            network.settle()
            self.compare(network)

    def test_random_changes_in_random_orders(self):
        draw = random.Random(2)
        for _ in range(4):
            network = random_network(draw)
            for _ in range(30):
                for _ in range(draw.randint(1, 4)):
                    random_change(draw, network)
                    network.settle(seed=draw.randint(0, 3), most=draw.randrange(40))
                network.settle(seed=draw.getrandbits(64))
                self.compare(network)

    def test_no_packet_circles_at_any_step(self):
        draw = random.Random(3)
        network = random_network(draw, 8, 12)
        for _ in range(30):
            random_change(draw, network)
            for _ in range(draw.randrange(60)):
                step = network.next_step(draw.choice(network.routers))
                if step:
                    network.do(step)
                for router in network.routers:
                    routers = network.trace(router, "10.1.2.3").routers
                    self.assertEqual(len(set(routers)), len(routers))
        network.settle()
        self.compare(network)

    def test_both_ways_of_dijkstra_agree(self):
        if dijkstra.networkx is None:
            self.skipTest("networkx is not installed")
        draw = random.Random(4)
        for _ in range(20):
            costs = {(draw.randrange(8), draw.randrange(8)): draw.randint(1, 9) for _ in range(20)}
            attached = {draw.randrange(8): draw.randint(1, 9) for _ in range(2)}
            self.assertEqual(dijkstra.by_hand(costs, attached), dijkstra.by_networkx(costs, attached))


class Steps(unittest.TestCase):
    def test_a_failure_step_by_step(self):
        network = Network("ab", [("a", "b", 5)], {"a": NET})
        network.settle()
        self.assertTrue(network.trace("b", "10.1.2.3").arrives)
        network.fail("a", "b")
        self.assertEqual(network.trace("b", "10.1.2.3"), (("b",), End.DEAD_LINK))
        kinds = []
        while not network.is_settled:
            step = network.next_step("b") or network.next_step("a")
            kinds.append((step.router, step.kind))
            network.do(step)
        self.assertEqual(kinds[:2], [("b", StepKind.DELIVER), ("b", StepKind.PUBLISH)])
        self.assertEqual(network.trace("b", "10.1.2.3"), (("b",), End.NO_WAY))
        self.assertEqual(network.trace("b", "11.0.0.1"), (("b",), End.NO_ROUTE))
        self.assertEqual([str(row) for row in network.table("b")], [f"{NET} unreachable"])

    def test_a_computation(self):
        network = Network("abc", [("a", "b", 1), ("b", "c", 1)], {"a": NET})
        network.settle()
        network.fail("a", "b")
        network.do(Step(StepKind.DELIVER, "b", "a"))
        state = network.state("b", NET)
        self.assertEqual((state.active, state.awaited, state.owed, state.feasible), (True, ("c",), None, 2))
        self.assertEqual(state.reported, {"c": 3})
        network.do(Step(StepKind.PUBLISH, "b"))
        network.do(Step(StepKind.RELEASE, "b"))
        [query] = network.under_way("b", "c")
        self.assertEqual((query.kind.name, query.value, str(query.prefix)), ("QUERY", math.inf, NET))
        counts = network.settle()
        self.assertEqual((counts.replies, network.active()), (2, []))

    def test_counts(self):
        network = Network("ab", [("a", "b", 5)], {"a": NET})
        first = network.settle()
        self.assertEqual(first.messages, network.counts.messages)
        self.assertEqual(network.settle().steps, 0)
        network.set_cost("b", "a", 9)
        self.assertEqual(network.settle().messages, 1)

    def test_a_stopped_router(self):
        network = Network("abcd", [("a", "b", 1), ("b", "c", 1), ("c", "d", 1), ("d", "a", 9)])
        network.settle()
        network.fail("b")
        network.fail("b")
        self.assertEqual([link.is_up for link in network.links], [False, False, True, True])
        network.settle()
        self.assertEqual(network.distances("10.0.0.0/24"), {"a": 1, "b": math.inf, "c": 11, "d": 10})
        network.restore("b")
        network.settle()
        self.assertEqual([link.session for link in network.links], [2, 2, 1, 1])
        self.assertEqual(network.distances("10.0.0.0/24"), {"a": 1, "b": 2, "c": 3, "d": 4})

    def test_many_items_on_a_link(self):
        nets = [f"10.0.{number}.0/24" for number in range(200)]
        network = Network("ab", [("a", "b", 1)], {"a": nets}, up=False)
        network.restore()
        while True:
            step = network.next_step("a")
            if step is None:
                break
            network.do(step)
        self.assertEqual(len(network.under_way("a", "b")), 201)
        self.assertEqual(network.link("a", "b").to_b, 201)
        network.settle()
        self.assertEqual(len(network.table("b")), 200)
        self.assertEqual({row.kind for row in network.table("b")}, {Kind.VIA})


class Parts(unittest.TestCase):
    """Long calls are done part by part."""

    def test_parts_take_about_as_long_as_they_are_to(self):
        clock, parts = [0.0], []
        network = Network("a", [])

        def call(wanted, done):
            parts.append(wanted)
            clock[0] += wanted * (2 ** -10 if len(parts) < 6 else 2 ** -17)
            done.value = wanted

        with mock.patch.object(time, "perf_counter", lambda: clock[0]):
            network._in_parts(2000, None, call)
        # 51 events take 50 ms at first, and then a hundredth of that.
        self.assertEqual(parts, [1, 4, 16, 51, 51, 51, 204, 816, 806])

    def test_a_settling_is_the_same_each_time_and_tells_how_far_it_is(self):
        routers = range(40)
        links = [(near, (near + gap) % 40, 1) for gap in (1, 3) for near in routers]
        for seed in (0, 9):
            network, told = Network(routers, links), []
            other, whole = network.copy(), Network(routers, links)
            with mock.patch("tuhvondi.network._SETTLES", 4096):
                counts = network.settle(seed, progress=told.append)
                self.assertGreater(counts.steps, 4096)
                self.assertEqual([each.steps for each in told], [*range(4096, counts.steps, 4096), counts.steps])
                self.assertEqual(told[-1], counts)
                self.assertEqual(other.settle(seed), counts)
            self.assertEqual(whole.settle(seed, most=4096), told[0])

    def test_an_interrupt_is_heard(self):
        """It comes after a tenth of a second of the processor's time, and then it takes no more than another."""
        def interrupt(*_):
            raise KeyboardInterrupt

        routers = range(1000)
        links = [(near, (near + gap) % 1000, 1) for gap in (1, 7) for near in routers]
        attachments = tuhvondi.default_attachments(routers[:20])
        before = signal.signal(signal.SIGPROF, interrupt)
        try:
            for network in (Network(routers, links, attachments), tuhvondi.TimedNetwork(routers, links, attachments),
                            tuhvondi.TimedNetwork(routers, links, attachments, record=True)):
                run = network.settle if isinstance(network, Network) else network.run_to_rest
                began = time.process_time()
                signal.setitimer(signal.ITIMER_PROF, 0.1)
                with self.assertRaises(KeyboardInterrupt):
                    run()
                self.assertLess(time.process_time() - began, 0.3)
                self.assertGreater(network.counts.steps, 0)
        finally:
            signal.setitimer(signal.ITIMER_PROF, 0)
            signal.signal(signal.SIGPROF, before)


class Copies(unittest.TestCase):
    def assert_same(self, one, other):
        self.assertEqual(one.counts, other.counts)
        self.assertEqual(one.links, other.links)
        self.assertEqual(one.distance_rows(), other.distance_rows())
        for router in one.routers:
            self.assertEqual(one.table(router), other.table(router))
            self.assertEqual(one.held(router), other.held(router))
            self.assertEqual(one.next_step(router), other.next_step(router))

    def test_copies_are_the_same_and_go_their_own_ways(self):
        draw = random.Random(5)
        network = random_network(draw)
        for _ in range(12):
            random_change(draw, network)
            network.settle(seed=draw.getrandbits(64), most=draw.randrange(60))
            for make in (Network.copy, copy.copy, lambda it: pickle.loads(pickle.dumps(it)), copy.deepcopy):
                other = make(network)
                self.assert_same(network, other)
            seed, before = draw.getrandbits(64), network.distance_rows()
            other.settle(seed)
            self.assertEqual(network.distance_rows(), before)
            network.settle(seed)
            self.assert_same(network, other)

    def test_a_copy_of_a_closed_one(self):
        network = Network("ab", [("a", "b", 1)])
        network.close()
        for call in (network.settle, network.copy):
            with self.assertRaises(tuhvondi.EmptyHandle):
                call()
        # A pickle has the steps.
        self.assertEqual(pickle.loads(pickle.dumps(network)).counts.steps, 1)

    def test_a_copy_of_a_kind_of_its_own(self):
        class Named(Network):
            def __init__(self):
                super().__init__("ab", [("a", "b", 1)])
                self.labels = ["first"]

        with mock.patch.object(tuhvondi, "Named", Named, create=True):
            Named.__module__, Named.__qualname__ = "tuhvondi", "Named"
            network = Named()
            makes = (Network.copy, copy.copy, copy.deepcopy, lambda it: pickle.loads(pickle.dumps(it)))
            others = [make(network) for make in makes]
        network.close()
        for number, other in enumerate(others):
            self.assertEqual((type(other), other.labels, other.settle().steps > 0), (Named, ["first"], True))
            self.assertEqual(other.labels is network.labels, number < 2)

    def test_what_cannot_be_copied_or_pickled(self):
        timed, image = tuhvondi.TimedNetwork("ab", [("a", "b", 1)]), tuhvondi.Image([tuhvondi.Row.local(NET)])
        calls = [(pickle.dumps, timed, "TimedNetwork cannot be pickled"), (pickle.dumps, image, "Image cannot be pickled")]
        calls += [(call, tuhvondi.Router([1]), "Router can be neither copied nor pickled")
                  for call in (copy.copy, copy.deepcopy, pickle.dumps)]
        for call, each, text in calls:
            with self.assertRaisesRegex(TypeError, text):
                call(each)
        for make in (copy.copy, copy.deepcopy):
            one, other = make(timed), make(image)
            one.run_to_rest()
            other.apply([])
            self.assertEqual((one.now > 0, timed.now, other.generation, image.generation), (True, 0, 1, 0))

    def test_a_refusal_from_another_process(self):
        why = tuhvondi.IsDown("0 and 135")
        again = pickle.loads(pickle.dumps(why))
        self.assertEqual((type(again), str(again), again.number), (tuhvondi.IsDown, str(why), 14))
        self.assertEqual(str(why), "the link is down: 0 and 135")


class Graphs(unittest.TestCase):
    def test_there_and_back(self):
        if dijkstra.networkx is None:
            self.skipTest("networkx is not installed")
        graph = dijkstra.networkx.grid_2d_graph(3, 4)
        for number, (_, _, data) in enumerate(graph.edges(data=True)):
            data["metric"] = number + 1
        network = Network.from_networkx(graph, cost="metric")
        network.settle()
        back = network.to_networkx()
        self.assertEqual(list(back), list(graph))
        self.assertEqual({frozenset(edge): data["weight"] for *edge, data in back.edges(data=True)},
                         {frozenset(edge): data["metric"] for *edge, data in graph.edges(data=True)})
        least = dijkstra.networkx.single_source_dijkstra_path_length(back, (0, 0))
        self.assertEqual(network.distances("10.0.0.0/24"), {name: 1 + cost for name, cost in least.items()})
        again = Network.from_networkx(back)
        again.settle()
        self.assertEqual(again.distances(), network.distances())

    def test_costs(self):
        graph = graphs.Graph({"a": {}, "b": {}}, [("a", "b", {"weight": 3.0, "delay": 7})], False)
        def twice(_near, _far, data):
            return data["delay"] * 2

        for given, cost in (("weight", 3), ("delay", 7), (9, 9), (twice, 14)):
            self.assertEqual(Network.from_networkx(graph, cost=given).link("a", "b").cost, cost)
        plain = graphs.Graph({"a": {}, "b": {}}, [("a", "b", {})], False)
        self.assertEqual(Network.from_networkx(plain).link("a", "b").cost, 1)
        for made in (graph, plain):
            with self.assertRaisesRegex(ValueError, "no edge has the attribute 'wieght'"):
                Network.from_networkx(made, cost="wieght")
        for wrong in (0, 65536, 1.5, "x", None, math.nan, math.inf):
            with self.assertRaises(tuhvondi.BadCost):
                Network.from_networkx(graphs.Graph(graph.nodes, [("a", "b", {"weight": wrong})], False))

    def test_directed(self):
        nodes = {"a": {}, "b": {}}
        both = graphs.Graph(nodes, [("a", "b", {"weight": 3}), ("b", "a", {"weight": 5})], True)
        link = Network.from_networkx(both).link("a", "b")
        self.assertEqual((link.cost, link.cost_back), (3, 5))
        there, back, loop = ("a", "b", {}), ("b", "a", {}), ("a", "a", {})
        for edges, directed in (([there], True), ([loop], False), ([there, there], False),
                                ([there, back], False)):
            with self.assertRaises(tuhvondi.BadLink):
                Network.from_networkx(graphs.Graph(nodes, edges, directed))

    def test_graphml(self):
        text = """<?xml version="1.0"?><graphml xmlns="http://graphml.graphdrawing.org/xmlns">
            <key attr.name="label" for="node" id="d0"/><key attr.name="weight" for="edge" id="d1"/>
            <graph edgedefault="undirected">
            <node id="0"><data key="d0">Oulu</data></node><node id="1"><data key="d0">{}</data></node>
            <edge source="0" target="1"><data key="d1">4</data></edge><edge source="1" target="0"/>
            <edge source="1" target="1"/></graph></graphml>"""
        network = Network.from_graphml(io.StringIO(text.format("Turku")))
        self.assertEqual((network.routers, network.link("Oulu", "Turku").cost), (("Oulu", "Turku"), 4))
        self.assertEqual(Network.from_graphml(io.StringIO(text.format("Oulu"))).routers, ("0", "1"))
        for wrong in ("", "<graphml/>", "<graphml><graph><edge source='a' target='b'/></graph></graphml>"):
            with self.assertRaises(ValueError):
                Network.from_graphml(io.StringIO(wrong))


class Refusals(unittest.TestCase):
    def test_by_name_and_number(self):
        network = Network("abc", [("a", "b", 1), ("b", "c", 1)], {"a": NET})
        network.settle()
        network.fail("b", "c")
        network.settle()
        many = list(range(40))
        rows = [
            (tuhvondi.BadRouters, 24, lambda: Network([], [])),
            (tuhvondi.BadRouters, 24, lambda: Network(range(70000), [])),
            (tuhvondi.BadRouters, 24, lambda: Network("aa", [])),
            (tuhvondi.UnknownRouter, 10, lambda: Network("ab", [("a", "c", 1)])),
            (tuhvondi.BadLink, 25, lambda: Network("ab", [("a", "a", 1)])),
            (tuhvondi.BadLink, 25, lambda: Network("ab", [("a", "b", 1), ("b", "a", 1)])),
            (tuhvondi.BadLink, 25, lambda: Network("ab", [("a", "b")])),
            (tuhvondi.BadCost, 5, lambda: Network("ab", [("a", "b", 0)])),
            (tuhvondi.BadCost, 5, lambda: Network("ab", [("a", "b", 1, 65536)])),
            (tuhvondi.TooManyLinks, 26, lambda: Network(many, [(0, far, 1) for far in many[1:34]])),
            (tuhvondi.BadCost, 5, lambda: Network("a", [], {"a": {NET: 0}})),
            (tuhvondi.BadOwner, 27, lambda: Network("a", [], {"a": [NET, IPv4Network(NET)]})),
            (tuhvondi.UnknownRouter, 10, lambda: Network("a", [], {"b": NET})),
            (tuhvondi.UnknownRouter, 10, lambda: network.fail("a", "x")),
            (tuhvondi.UnknownLink, 11, lambda: network.fail("a", "c")),
            (tuhvondi.UnknownLink, 11, lambda: network.set_cost("a", "c", 1)),
            (tuhvondi.AlreadyUp, 13, lambda: network.restore("a", "b")),
            (tuhvondi.IsDown, 14, lambda: network.fail("b", "c")),
            (tuhvondi.IsDown, 14, lambda: network.set_cost("b", "c", 1)),
            (tuhvondi.NothingToDeliver, 16, lambda: network.do(Step(StepKind.DELIVER, "a", "b"))),
            (tuhvondi.NothingToDeliver, 16, lambda: network.do(Step(StepKind.DELIVER, "a"))),
            (tuhvondi.NothingDue, 17, lambda: network.do(Step(StepKind.PUBLISH, "a"))),
            (tuhvondi.NothingRipe, 18, lambda: network.do(Step(StepKind.RELEASE, "a"))),
            (tuhvondi.UnknownPrefix, 28, lambda: network.attach("a", "11.0.0.0/8")),
            (tuhvondi.NotAttached, 29, lambda: network.detach("b", NET)),
            (tuhvondi.BadCost, 5, lambda: network.attach("b", NET, 0)),
            (tuhvondi.UnknownRouter, 10, lambda: network.trace("x", "10.0.0.1")),
        ]
        before = network.counts
        for number, (expected, status, call) in enumerate(rows):
            with self.subTest(f"{number} {expected.__name__}"), self.assertRaises(expected) as caught:
                call()
            self.assertEqual((caught.exception.number, caught.exception.name), (status, expected.__name__))
        self.assertEqual(network.counts, before)

    def test_what_is_no_whole_number(self):
        network = Network("ab", [("a", "b", 1)])
        timed = tuhvondi.TimedNetwork("ab", [("a", "b", 1)])
        for call in (lambda: network.settle(most=1.5), lambda: network.settle(seed="x"), lambda: network.settle(most=-1),
                     lambda: timed.run_to_rest(most=2.5), lambda: timed.run_until(1e6),
                     lambda: timed.at(1e7, Step(StepKind.LINK_DOWN, "a", "b"))):
            with self.assertRaisesRegex(ValueError, "whole number|outside"):
                call()
        self.assertEqual((network.counts.steps, timed.counts.steps), (1, 0))

    def test_a_prefix_that_the_network_does_not_have(self):
        other = "11.0.0.0/8"
        for network in (Network("ab", [("a", "b", 1)]), tuhvondi.TimedNetwork("ab", [("a", "b", 1)])):
            for call in (lambda: network.state("a", other), lambda: network.distance("a", other),
                         lambda: network.distances(other)):
                with self.assertRaisesRegex(tuhvondi.UnknownPrefix, other):
                    call()
        with self.assertRaises(tuhvondi.UnknownPrefix):
            network.at(5, Step(StepKind.ATTACH, "a", prefix=other, cost=1))

    def test_what_is_said(self):
        """Each says what is wrong, and with whom."""
        links = [("a", "b", 1), ("b", "c", 1), ("a", "c", 5)]
        network, timed = Network("abc", links), tuhvondi.TimedNetwork("abc", links)
        timed.run_to_rest()
        network.settle()
        graph = graphs.Graph({0: {}, 1: {}}, [(0, 1, {})], False)
        many = [(near, far, 1) for near in range(2) for far in range(2, 35)]
        rows = [
            (TypeError, "have to be a dict", lambda: Network("abc", links, NET)),
            (TypeError, "have to be a dict", lambda: Network("abc", links, ["a"])),
            (TypeError, "attachment of 'a' is None", lambda: Network("abc", links, {"a": None})),
            (TypeError, "attachment of 'a' is 5", lambda: Network("abc", links, {"a": 5})),
            (tuhvondi.BadLink, r"^\('a', 'b'\) has no two names and one or two costs$", lambda: Network("ab", [("a", "b")])),
            (tuhvondi.BadLink, "^a link joins 'a' to itself$", lambda: Network("ab", [("a", "a", 1)])),
            (tuhvondi.BadLink, "^there is a second link of 'b' and 'a'$", lambda: Network("ab", [*links[:1], ("b", "a", 2)])),
            (tuhvondi.BadLink, "^the step needs `neighbour`", lambda: network.do(Step(StepKind.LINK_DOWN, "a"))),
            (tuhvondi.BadKind, "^routers deliver, publish and release by", lambda: timed.at(9000, Step(StepKind.PUBLISH, "a"))),
            (TypeError, "None is no Step", lambda: network.do(network.next_step("a"))),
            (TypeError, "'down a b' is no Step", lambda: timed.at(9000, "down a b")),
            (tuhvondi.BadCost, "inf is no whole number", lambda: network.set_cost("a", "b", math.inf)),
            (ValueError, "moment is 10000000.0", lambda: timed.at(1e7, Step(StepKind.LINK_DOWN, "a", "b"))),
            (tuhvondi.PastMoment, f"0, and it is {timed.now}", lambda: timed.at(0, Step(StepKind.LINK_DOWN, "a", "b"))),
            (tuhvondi.BadCost, "the step names none for", lambda: timed.at(9000, Step(StepKind.SET_COST, "a", "b"))),
            (tuhvondi.UnknownRouter, "'0', though there is 0, of type int", lambda: Network.from_networkx(graph, {"0": NET})),
            (tuhvondi.BadLength, "10.0.0.0/33", lambda: network.distance("a", "10.0.0.0/33")),
            (tuhvondi.HostBits, "10.0.0.1/8", lambda: network.distance("a", "10.0.0.1/8")),
            (tuhvondi.TooManyLinks, "^router 0 would have 33 links, and can have 32$", lambda: Network(range(35), many)),
            (tuhvondi.UnknownLink, "'a' and 'a'", lambda: tuhvondi.TimedNetwork("abc", links, delay={("a", "a"): 5})),
        ]
        for number, (expected, text, call) in enumerate(rows):
            with self.subTest(f"{number} {text}"), self.assertRaisesRegex(expected, text):
                call()

    def test_more_links_than_can_be(self):
        routers = range(4100)
        links = [(near, (near + gap) % 4100, 1) for gap in range(1, 17) for near in routers]
        with self.assertRaisesRegex(tuhvondi.TooManyLinks, "^the network would have 65600 links, and can have 65536$"):
            Network(routers, links, {})

    def test_what_is_shown(self):
        network = Network("ab", [("a", "b", 1)], {"a": NET}, up=False)
        self.assertEqual(repr(network), "Network of 2 routers, 1 link (1 down), 1 prefix, settled after 0 steps")
        self.assertIn("<tr><td>b</td><td>inf</td></tr>", network._repr_html_())
        self.assertEqual(network.table("a")._repr_html_().count("<td>"), 2)
        shown = [network, tuhvondi.Image([tuhvondi.Row.local(NET)]), tuhvondi.Router([1], {NET: 1})]
        self.assertEqual(list(map(repr, shown[1:])), [
            "Image of 1 rows, generation 0", "Router of 1 prefixes, 0 rows to publish, 0 messages held, generation 0"])
        for each in shown:
            each.close()
            self.assertEqual(repr(each), f"{type(each).__name__}, which is closed")
        self.assertIn("closed", network._repr_html_())

    def test_a_link_comes_up_as_often_as_it_can(self):
        network = Network("ab", [("a", "b", 1)], {"a": NET}, up=False)
        for number in range(65535):
            network.restore("a", "b")
            network.fail("a", "b")
            if number % 100 == 0:
                network.settle()
        with self.assertRaises(tuhvondi.SessionsSpent):
            network.restore("a", "b")

    def test_many_links(self):
        links = [(near, (near + gap) % 256, 1) for gap in range(1, 9) for near in range(256)]
        network = Network(range(256), links, {0: NET})
        network.settle()
        self.assertEqual(network.distances(NET), dijkstra.distances(network, IPv4Network(NET)))

    def test_as_many_routers_as_can_be(self):
        links = [(near, near + 1, 65535) for near in range(65535)]
        network = Network(range(65536), links, {65535: NET}, up=False)
        network.restore(65534, 65535)
        network.settle()
        self.assertEqual(network.trace(65534, NET.split("/", maxsplit=1)[0]).routers, (65534, 65535))
        self.assertEqual(network.copy().distance(65534, NET), 65536)
        self.assertEqual(len(Network(range(65536), []).prefixes), 65536)
        with self.assertRaises(tuhvondi.BadRouters):
            Network(range(65537), [])


if __name__ == "__main__":
    unittest.main()
