"""An event loop with a clock: routers in one process, whose messages take time.

    python3 examples/python/own_loop.py

Each link of a random network fails, and comes up again. The program prints how long it takes until nothing is
left to do, how many messages that takes, and how long packets are lost: own_loop.out has it. The clock and
the delays are this program's. The routers and their tables are the library's, and each turn of a router keeps
to its order: tell it what happened, forward by the rows of `publish`, and only then send what `released`
gives.
"""

import heapq
import itertools
import random
import statistics

from tuhvondi import Image, Kind, Router

NET, ADDRESS = "10.0.0.0/8", "10.1.2.3"  # router 0 is attached to the prefix
NOTICED = 50.0  # milliseconds until the two ends notice that their link has failed


class Simulation:
    """Routers, their tables, and events in the order of their times. `links` has the cost and the delay of
    each pair.
    """

    def __init__(self, count, links):
        self.links, self.events, self.numbers = links, [], itertools.count()
        self.now, self.messages = 0.0, 0  # milliseconds, and how many were sent
        self.session, self.is_up = dict.fromkeys(links, 0), dict.fromkeys(links, False)
        self.ports = [[pair for pair in links if router in pair] for router in range(count)]
        self.routers = [Router([links[pair][0] for pair in pairs], {NET: 1} if router == 0 else {})
                        for router, pairs in enumerate(self.ports)]
        self.tables = [Image(router.rows()) for router in self.routers]

    def after(self, delay, action, *words):
        heapq.heappush(self.events, (self.now + delay, next(self.numbers), action, words))

    def tell(self, router, call, pair, *words):
        """Tells a router of its link, forwards by what it then publishes, and sends what may leave."""
        call(self.routers[router], self.ports[router].index(pair), *words)
        publication = self.routers[router].publish()
        if publication:
            self.tables[router].apply(publication.rows)
        for message in self.routers[router].released():
            self.messages += 1
            pair = self.ports[router][message.port]
            self.after(self.links[pair][1], self.arrive, other(pair, router), pair, message)

    def arrive(self, router, pair, message):
        if self.is_up[pair] and self.session[pair] == message.session:  # else it was lost with its link
            self.tell(router, lambda it, port: it.message(message._replace(port=port)), pair)

    def restore(self, pair):
        self.is_up[pair], self.session[pair] = True, self.session[pair] + 1
        for router in pair:
            self.tell(router, Router.link_up, pair, self.session[pair], self.links[pair][0])

    def fail(self, pair):
        self.is_up[pair] = False
        for router in pair:
            self.after(NOTICED, self.tell, router, Router.link_down, pair)

    def reaches(self, router):
        """Whether a packet from the router arrives, by the tables as they are now."""
        row = self.tables[router].lookup(ADDRESS)
        while row and row.kind == Kind.VIA and self.is_up[self.ports[router][row.port]]:
            router = other(self.ports[router][row.port], router)
            row = self.tables[router].lookup(ADDRESS)
        return bool(row and row.kind == Kind.LOCAL)

    def run(self):
        """Goes on until no event is left: how long that took, how many messages, how long packets of a router
        were lost.
        """
        began, sent, lost = self.now, self.messages, 0.0
        while self.events:
            dark = sum(not self.reaches(router) for router in range(len(self.routers)))
            time, _, action, words = heapq.heappop(self.events)
            lost, self.now = lost + dark * (time - self.now), time
            action(*words)
        return self.now - began, self.messages - sent, lost


def other(pair, router):
    return pair[0] if router == pair[1] else pair[1]


def main(count=30):
    draw = random.Random(1)
    pairs = {(router, draw.randrange(router)) for router in range(1, count)}  # a tree, and more links
    pairs |= {tuple(sorted(draw.sample(range(count), 2), reverse=True)) for _ in range(count)}
    links = {pair: (draw.randint(1, 20), draw.uniform(1, 30)) for pair in sorted(pairs)}
    simulation = Simulation(count, links)
    for pair in simulation.links:
        simulation.restore(pair)
    print("{} links come up: {:.0f} ms, {} messages".format(len(pairs), *simulation.run()))
    failures = []
    for pair in simulation.links:
        simulation.fail(pair)
        failures.append(simulation.run())
        simulation.restore(pair)
        simulation.run()
    for what, values in zip(("ms to rest", "messages", "ms of lost packets"), zip(*failures)):
        median = statistics.median(values)
        print(f"each fails: {what}: {min(values):.0f} to {max(values):.0f}, median {median:.0f}")


if __name__ == "__main__":
    main()
