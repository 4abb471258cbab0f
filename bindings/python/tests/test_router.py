"""Routers with queues for links."""

import math
import random
import unittest
from ipaddress import IPv4Network

import tuhvondi
from tuhvondi import Image, Message, MessageKind, Router, Row

NET = IPv4Network("10.0.0.0/8")


class Line:
    """Three routers in a line, each with a table, and a queue for each direction of a link."""

    def __init__(self):
        self.routers = [Router([7], {NET: 1}), Router([7, 5]), Router([5])]
        self.tables = [Image(router.rows()) for router in self.routers]
        # Where a router's port leads: a router and its port.
        self.ends = {(0, 0): (1, 0), (1, 0): (0, 0), (1, 1): (2, 0), (2, 0): (1, 1)}
        self.costs = {(0, 0): 7, (1, 0): 7, (1, 1): 5, (2, 0): 5}
        self.under_way = []

    def up(self, *end, session):
        for router, port in (end, self.ends[end]):
            self.routers[router].link_up(port, session, self.costs[router, port])

    def down(self, *end):
        for router, port in (end, self.ends[end]):
            self.routers[router].link_down(port)
            self.under_way = [it for it in self.under_way if (it[0], it[1].port) != (router, port)]

    def settle(self):
        while True:
            for number, router in enumerate(self.routers):
                publication = router.publish()
                if publication:
                    self.tables[number].apply(publication.rows, publication.generation)
                for message in router.released():
                    to, port = self.ends[number, message.port]
                    self.under_way.append((to, message._replace(port=port)))
            if not self.under_way:
                return
            to, message = self.under_way.pop(0)
            self.routers[to].message(message)


class Routers(unittest.TestCase):
    def test_a_line(self):
        line = Line()
        line.up(0, 0, session=1)
        line.up(1, 1, session=1)
        line.settle()
        self.assertEqual([router.state(NET).distance for router in line.routers], [1, 8, 13])
        self.assertEqual([str(table.lookup("10.1.2.3")) for table in line.tables],
                         ["10.0.0.0/8 local", "10.0.0.0/8 via 0 1", "10.0.0.0/8 via 0 1"])
        line.down(0, 0)
        line.settle()
        self.assertEqual([router.state(NET).distance for router in line.routers], [1, math.inf, math.inf])
        self.assertEqual(str(line.tables[2].lookup("10.1.2.3")), "10.0.0.0/8 unreachable")
        line.up(0, 0, session=2)
        line.settle()
        self.assertEqual(str(line.tables[1].lookup("10.1.2.3")), "10.0.0.0/8 via 0 2")
        self.assertFalse(any(router.state(NET).active for router in line.routers))

    def test_a_computation(self):
        router = Router([1, 1])
        for port in (0, 1):
            router.link_up(port, 1, cost=1)
        router.message(Message(MessageKind.UPDATE, NET, 5, 0, 1))
        router.message(Message(MessageKind.UPDATE, NET, 9, 1, 1))
        router.publish()
        list(router.released())
        router.message(Message(MessageKind.QUERY, NET, math.inf, 0, 1))
        state = router.state(NET)
        self.assertTrue(state.active)
        self.assertEqual((state.owed, state.awaited, state.feasible), (0, (0, 1), 6))
        with self.assertRaises(tuhvondi.AskedTwice):
            router.message(Message(MessageKind.QUERY, NET, math.inf, 0, 1))
        router.publish()
        asked = list(router.released())
        self.assertEqual([(it.kind.name, it.port) for it in asked], [("QUERY", 0), ("QUERY", 1)])

    def test_refusals_by_name_and_number(self):
        router = Router([1], {NET: 1}, most_prefixes=1)
        update = Message(MessageKind.UPDATE, IPv4Network("11.0.0.0/8"), 3, 0, 1)
        reply = update._replace(kind=MessageKind.REPLY, prefix=NET)
        rows = [
            (tuhvondi.BadCost, 5, lambda: Router([0])),
            (tuhvondi.BadCost, 5, lambda: Router([65536])),
            (tuhvondi.BadCost, 5, lambda: Router([2 ** 32 + 1])),
            (tuhvondi.BadCost, 5, lambda: Router([1.5])),
            (tuhvondi.BadCost, 5, lambda: router.attach(NET, 0)),
            (tuhvondi.TooManyPorts, 26, lambda: Router([1] * 33)),
            (tuhvondi.TooManyPrefixes, 27, lambda: router.attach("11.0.0.0/8")),
            (tuhvondi.UnknownPort, 11, lambda: router.link_up(1, 1, 1)),
            (tuhvondi.UnknownPort, 11, lambda: router.link_up(256, 1, 1)),
            (tuhvondi.UnknownPort, 11, lambda: router.link_up(-1, 1, 1)),
            (tuhvondi.IsDown, 14, lambda: router.link_down(0)),
            (tuhvondi.IsDown, 14, lambda: router.message(update)),
            (tuhvondi.NotAttached, 29, lambda: router.detach("11.0.0.0/8")),
            (tuhvondi.UnknownPrefix, 28, lambda: router.forget("11.0.0.0/8")),
            (tuhvondi.StillUsed, 44, lambda: router.forget(NET)),
            (tuhvondi.AlreadyUp, 13, lambda: (router.link_up(0, 1, 1), router.link_up(0, 2, 1))),
            (tuhvondi.OtherSession, 36, lambda: router.message(update._replace(session=2))),
            (tuhvondi.Unasked, 38, lambda: router.message(reply)),
            (tuhvondi.TooManyPrefixes, 27, lambda: router.message(update)),
            (tuhvondi.OtherSession, 36, lambda: (router.link_down(0), router.link_up(0, 1, 1))),
        ]
        for expected, number, call in rows:
            with self.subTest(expected.__name__), self.assertRaises(expected) as caught:
                call()
            self.assertEqual((caught.exception.number, caught.exception.name), (number, expected.__name__))

    def test_numbers_that_do_not_fit(self):
        router = Router([1])
        for call in (lambda: router.link_up(0, 65536, 1), lambda: Router([], {}, -1),
                     lambda: router.publish(-1),
                     lambda: router.message(Message(MessageKind.UPDATE, NET, 2 ** 32, 0, 1)),
                     lambda: router.message(Message(3, NET, 1, 0, 1))):
            with self.assertRaises(ValueError):
                call()

    def test_rows_are_published_in_parts(self):
        router = Router([1])
        nets = [f"10.{number}.0.0/16" for number in range(10)]
        for net in nets:
            router.attach(net)
        parts = []
        while True:
            publication = router.publish(room=3)
            if publication is None:
                break
            parts.append(publication)
        self.assertEqual([len(part.rows) for part in parts], [3, 3, 3, 1])
        self.assertEqual([part.more for part in parts], [True, True, True, False])
        self.assertEqual([row for part in parts for row in part.rows], [Row.local(net) for net in nets])
        with self.assertRaises(tuhvondi.BadCount):
            router.attach("11.0.0.0/8")
            router.publish(room=0)

    def test_links_that_fail_and_come_back(self):
        draw = random.Random(3)
        line = Line()
        sessions = {(0, 0): 0, (1, 1): 0}
        is_up = dict.fromkeys(sessions, False)
        for _ in range(300):
            end = draw.choice(list(sessions))
            if is_up[end]:
                line.down(*end)
            else:
                sessions[end] += 1
                line.up(*end, session=sessions[end])
            is_up[end] = not is_up[end]
            line.settle()
            near = 8 if is_up[0, 0] else math.inf
            found = [getattr(router.state(NET), "distance", math.inf) for router in line.routers]
            self.assertEqual(found, [1, near, near + 5 if is_up[1, 1] else math.inf])


if __name__ == "__main__":
    unittest.main()
