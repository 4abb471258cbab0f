"""Link state and a distance vector to compare with, as plain Python, in the delays of a network in simulated time.

>>> from tuhvondi import TimedNetwork, baselines
>>> links = [("a", "b", 1), ("b", "c", 1), ("c", "a", 5)]
>>> net = TimedNetwork("abc", links, {"a": "10.0.0.0/8"}, delay=500, publication=100)
>>> _ = net.run_to_rest()
>>> for kind in (baselines.DistanceVector, baselines.LinkState):
...     other = kind(net)
...     other.fail("a", "b")
...     print(other.protocol, other.rest, other.messages, other.outages["b", "10.0.0.0/8"], len(other.looped))
distance vector 1800 3 1800 0
link state 1600 4 1100 2

Each begins with the rows that are in force in the network, because protocols that choose differently between ways of
one cost lose different packets. It has the links that are up, their costs and delays, and the times that routers take
to publish. An end hears of a failed link as in the network: after the delay of its direction.

What is tricky is where the time of a publication counts. A distance vector tells its neighbours what it has published,
as DUAL does here. A router with link state passes on what it hears at once, and publishes its new rows later.
"""

from __future__ import annotations

import heapq
import math
from typing import Any, Callable, Dict, FrozenSet, List, Optional, Set, Tuple

from .network import Name
from .rows import Kind
from .status import UnknownLink
from .timed import TimedNetwork

__all__ = ["Baseline", "DistanceVector", "LinkState"]

# The ends of a link, from the one to the other, by the numbers of the routers.
_Pair = Tuple[int, int]


class Baseline:
    """A network in which one link or router fails. What came of it is in these attributes:

    - rest: the moment since which it is at rest; the failure is at 0
    - messages: how many messages it sent; of a distance vector each tells of one prefix
    - outages: how long each flow, a router and a prefix, had no way although links led there
    - back: the moment at which the last of these had its way again
    - looped: the flows whose packets circled at some moment

    >>> issubclass(LinkState, Baseline)
    True
    """

    protocol = ""

    def __init__(self, network: TimedNetwork) -> None:
        if not network.is_at_rest:
            raise ValueError("something is left to do in the network: run it to rest first")
        self._names, self._number = network.routers, network._number
        self._delays, self._publications = network._delays, network._publications
        # The cost of each direction of a link that is up at first, and by router the other ends of these; the directions
        # that fail; and by router the ends of the links that it takes to be up.
        self._costs: Dict[_Pair, float] = {}
        self._ends: List[List[int]] = [[] for _ in self._names]
        self._failed: FrozenSet[_Pair] = frozenset()
        for near, name in enumerate(self._names):
            for far in network.neighbours(name):
                link = network.link(name, far)
                if link.is_up:
                    self._costs[near, self._number(far)] = link.cost
                    self._ends[near].append(self._number(far))
        self._near = [list(ends) for ends in self._ends]
        self._prefixes = list(map(str, network.prefixes))
        places = {prefix: place for place, prefix in enumerate(self._prefixes)}
        # By prefix: the costs of the routers that are attached; and by router the next one, itself, or none.
        self._attached: List[Dict[int, float]] = [{} for _ in self._prefixes]
        self._rows: List[List[Optional[int]]] = [[None] * len(self._names) for _ in self._prefixes]
        for router, name in enumerate(self._names):
            for prefix, cost in network.attachments(name).items():
                self._attached[places[str(prefix)]][router] = cost
            for entry in network.table(name):
                if entry.kind != Kind.UNREACHABLE:
                    row = router if entry.kind == Kind.LOCAL else self._number(entry.next)
                    self._rows[places[str(entry.prefix)]][router] = row
        self._events: List[Tuple[int, int, Callable[..., None], Tuple[Any, ...]]] = []
        self._put = 0
        self._due: Set[int] = set()
        self._lost: Dict[Tuple[int, int], int] = {}
        self.rest = self.messages = self.back = 0
        self.outages: Dict[Tuple[Name, str], int] = {}
        self.looped: Set[Tuple[Name, str]] = set()

    def fail(self, router: Name, other: Optional[Name] = None) -> None:
        """A link or a router fails, and all is done that is left to do. Then rows lead at least cost, or it says that
        they do not by a RuntimeError. Raises UnknownRouter, and UnknownLink if it has none that is up.

        >>> net = TimedNetwork("ab", [("a", "b", 1)], {"a": "10.0.0.0/8"}, delay=5)
        >>> _ = net.run_to_rest()
        >>> other = LinkState(net)
        >>> other.fail("a")
        >>> other.rest, other.outages   # no link leads there any more, so that is no outage
        (1005, {})
        """
        near = self._number(router)
        if other is not None and (near, self._number(other)) not in self._costs:
            raise UnknownLink(f"{router!r} and {other!r}, of whom no link is up")
        for far in self._ends[near] if other is None else [self._number(other)]:
            for one, two in ((near, far), (far, near)):
                self._failed |= {(one, two)}
                self._at(self._delays[two, one], self._hear, one, two)
        # The routers from which links lead to the prefix.
        least = [self._least(prefix, self._failed) for prefix in range(len(self._prefixes))]
        self._joined = [{at for at, cost in enumerate(costs) if cost < math.inf} for costs in least]
        self._prepare(least)
        for prefix in range(len(self._prefixes)):
            self._look(prefix)
        while self._events:
            self.rest, _, call, given = heapq.heappop(self._events)
            call(*given)
        for prefix, (rows, costs) in enumerate(zip(self._rows, least)):
            if any(cost != self._by(prefix, at, rows[at], costs, self._failed) for at, cost in enumerate(costs)):
                raise RuntimeError(f"rows of the {self.protocol} for {self._prefixes[prefix]} do not lead at least cost")

    # ---- events

    def _at(self, wait: int, call: Callable[..., None], *given: Any) -> None:
        self._put += 1
        heapq.heappush(self._events, (self.rest + wait, self._put, call, given))

    def _send(self, near: int, far: int, message: Any) -> None:
        if (near, far) not in self._failed:
            self.messages += 1
            self._at(self._delays[near, far], self._take, far, near, message)

    def _hear(self, router: int, far: int) -> None:
        self._near[router].remove(far)
        self._went_down(router, far)

    def _has_news(self, router: int) -> None:
        """The router publishes its rows, so long after it had something to publish."""
        if router not in self._due:
            self._due.add(router)
            self._at(self._publications[router], self._publish, router)

    def _publish(self, router: int) -> None:
        self._due.discard(router)
        for prefix, row in enumerate(self._chosen(router)):
            if row != self._rows[prefix][router]:
                self._rows[prefix][router] = row
                self._look(prefix)
        self._published(router)

    # ---- what a protocol does

    def _prepare(self, least: List[List[float]]) -> None:
        """Is told the least costs after the failure, which a protocol does not know, but whoever configures it does."""

    def _went_down(self, router: int, far: int) -> None:
        raise NotImplementedError

    def _take(self, router: int, sender: int, message: Any) -> None:
        raise NotImplementedError

    def _chosen(self, router: int) -> List[Optional[int]]:
        """The row of the router for each prefix."""
        raise NotImplementedError

    def _published(self, router: int) -> None:
        """What it tells once its rows are in force: nothing, unless a protocol says otherwise."""

    # ---- costs and ways

    def _by(self, prefix: int, router: int, row: Optional[int], costs: List[float], without: FrozenSet[_Pair]) -> float:
        """What it costs by a row, if neighbours have these costs and these directions of links are down."""
        if row is None or (router, row) in without or (row, router) in without:
            return math.inf
        return self._attached[prefix].get(router, math.inf) if row == router else self._costs[router, row] + costs[row]

    def _least(self, prefix: int, without: FrozenSet[_Pair] = frozenset()) -> List[float]:
        """The least cost of each router to a prefix without these directions of links, by Dijkstra's algorithm."""
        least = [math.inf] * len(self._names)
        heap = [(cost, router) for router, cost in self._attached[prefix].items()]
        heapq.heapify(heap)
        while heap:
            cost, router = heapq.heappop(heap)
            if cost >= least[router]:
                continue
            least[router] = cost
            for near in self._ends[router]:
                if (near, router) not in without and (router, near) not in without:
                    heapq.heappush(heap, (cost + self._costs[near, router], near))
        return least

    def _look(self, prefix: int) -> None:
        """Follows the packets of all routers for a prefix, and notes who has a way now and who has none."""
        rows = self._rows[prefix]
        ends: Dict[int, str] = {}
        for router in range(len(rows)):
            path: Dict[int, None] = {}
            at = router
            while at not in ends and at not in path:
                path[at] = None
                row = rows[at]
                if row is None or (at, row) in self._failed:
                    ends[at] = "lost"
                elif row == at:
                    ends[at] = "home"
                else:
                    at = row
            end = ends.get(at, "loops")
            ends.update(dict.fromkeys(path, end))
        for router, end in ends.items():
            flow = self._names[router], self._prefixes[prefix]
            if end == "loops":
                self.looped.add(flow)
            if end != "home" and router in self._joined[prefix]:
                self._lost.setdefault((router, prefix), self.rest)
            elif (router, prefix) in self._lost:
                self.outages[flow] = self.outages.get(flow, 0) + self.rest - self._lost.pop((router, prefix))
                self.back = self.rest


class DistanceVector(Baseline):
    """A distance vector with triggered updates and poisoned reverse: a router tells the neighbour to which its row leads
    that it has no way. A distance from `infinity` on is none; by default that is 16 times the largest one before or after
    the failure.

    >>> DistanceVector.protocol
    'distance vector'
    """

    protocol = "distance vector"

    def __init__(self, network: TimedNetwork, infinity: Optional[int] = None) -> None:
        super().__init__(network)
        first = [self._least(prefix) for prefix in range(len(self._prefixes))]
        self._given, self._infinity = infinity, 0.0
        self._prepare(first)
        # By prefix and direction, what the one has told, and what the other has heard.
        self._told = [{(near, far): self._word(prefix, near, far, costs[near]) for near, far in self._costs}
                      for prefix, costs in enumerate(first)]
        self._heard = [dict(told) for told in self._told]
        self._costs_now = first

    def _prepare(self, least: List[List[float]]) -> None:
        largest = max((cost for costs in least for cost in costs if cost < math.inf), default=1)
        self._infinity = self._given or max(self._infinity, 16 * largest)

    def _word(self, prefix: int, near: int, far: int, cost: float) -> float:
        return math.inf if self._rows[prefix][near] == far or cost >= self._infinity else cost

    def _went_down(self, router: int, far: int) -> None:
        self._choose(router, range(len(self._prefixes)))

    def _take(self, router: int, sender: int, message: Any) -> None:
        prefix, cost = message
        self._heard[prefix][sender, router] = cost
        self._choose(router, [prefix])

    def _choose(self, router: int, prefixes: Any) -> None:
        """The router has news if another row is the best, or if the best has another cost."""
        for prefix in prefixes:
            row, cost = self._choice(prefix, router)
            if (row, cost) != (self._rows[prefix][router], self._costs_now[prefix][router]):
                self._has_news(router)

    def _choice(self, prefix: int, router: int) -> Tuple[Optional[int], float]:
        heard = self._heard[prefix]
        ways: Dict[Optional[int], float] = {
            far: self._costs[router, far] + heard[far, router] for far in self._near[router]}
        if router in self._attached[prefix]:
            ways[router] = self._attached[prefix][router]
        least = min(ways.values(), default=math.inf)
        if least >= self._infinity:
            return None, math.inf
        present = self._rows[prefix][router]
        return present if ways.get(present) == least else min(ways, key=lambda row: ways[row]), least

    def _chosen(self, router: int) -> List[Optional[int]]:
        chosen = [self._choice(prefix, router) for prefix in range(len(self._prefixes))]
        for prefix, (_, cost) in enumerate(chosen):
            self._costs_now[prefix][router] = cost
        return [row for row, _ in chosen]

    def _published(self, router: int) -> None:
        for prefix, told in enumerate(self._told):
            for far in self._near[router]:
                word = self._word(prefix, router, far, self._costs_now[prefix][router])
                if told[router, far] != word:
                    told[router, far] = word
                    self._send(router, far, (prefix, word))


class LinkState(Baseline):
    """Link state: a router whose link fails tells all others by flooding, and each finds its ways by Dijkstra's algorithm.

    >>> LinkState.protocol
    'link state'
    """

    protocol = "link state"

    def __init__(self, network: TimedNetwork) -> None:
        super().__init__(network)
        # By router: the latest word of each origin that it has heard, which is how many of its links went down; and all
        # directions that it takes to be down.
        self._versions: List[Dict[int, int]] = [{} for _ in self._names]
        self._gone: List[FrozenSet[_Pair]] = [frozenset() for _ in self._names]
        self._found: Dict[Tuple[int, FrozenSet[_Pair]], List[float]] = {}

    def _went_down(self, router: int, far: int) -> None:
        own = frozenset(pair for pair in self._gone[router] if pair[0] == router) | {(router, far)}
        self._take(router, router, (router, own))

    def _take(self, router: int, sender: int, message: Any) -> None:
        origin, gone = message
        if len(gone) <= self._versions[router].get(origin, 0):
            return
        self._versions[router][origin] = len(gone)
        self._gone[router] |= gone
        for far in self._near[router]:
            if far != sender:
                self._send(router, far, message)
        self._has_news(router)

    def _chosen(self, router: int) -> List[Optional[int]]:
        gone, chosen = self._gone[router], []
        for prefix, rows in enumerate(self._rows):
            costs = self._costs_by(prefix, gone)
            # Of several rows that cost least the present one stays, and else the first port's counts.
            ways = [rows[router], router, *self._near[router]]
            found = [self._by(prefix, router, way, costs, gone) for way in ways]
            chosen.append(ways[found.index(min(found))] if min(found) < math.inf else None)
        return chosen

    def _costs_by(self, prefix: int, gone: FrozenSet[_Pair]) -> List[float]:
        """The least costs without these links, which are found once for all routers that know of the same."""
        if (prefix, gone) not in self._found:
            self._found[prefix, gone] = self._least(prefix, gone)
        return self._found[prefix, gone]
