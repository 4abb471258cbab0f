"""A whole network of routers in one process, which you change as you go."""

from __future__ import annotations

import copy
import ctypes
import enum
import math
import time
from ctypes import byref, c_size_t, c_uint8
from ipaddress import IPv4Address, IPv4Network
from typing import (Any, Callable, Iterable, Iterator, List, Mapping, NamedTuple, Optional, Sequence,
                    Tuple, TypeVar, Union)

from . import _library, files, graphs
from .owner import Owner
from .rows import (Address, Distance, Kind, Prefix, address_number, cost_number, distance_of, network_of,
                   number_of, prefix_parts)
from .status import (BY_NETWORK, BadCost, BadLink, BadRouters, NoClock, UnknownLink, UnknownPrefix, UnknownRouter,
                     refusal)

# A router's name: whatever can be a key of a dict, as nodes of networkx are. It is Any and not Hashable, because a
# checker of types would take no dict of your names for a dict of Hashable.
Name = Any
# The prefixes of routers, by their names: one prefix, several, or several with their costs.
Attachments = Mapping[Name, Union[Prefix, Iterable[Prefix], Mapping[Any, int]]]
# A link: the two routers' names, and its cost; or its cost from the first and its cost from the second.
LinkGiven = Union[Tuple[Name, Name, int], Tuple[Name, Name, int, int]]

# The widest limits that the library has: of routers, links, links of a router, prefixes and attachments.
_WIDEST = (65536, 65536, 32, 4294967295, 4294967295)
# Calls end after a while, so that an interrupt from the keyboard is heard and progress is told: how many seconds each is
# to take, and how many times as many steps as the one before it may do. They begin with one, because an event of a large
# network with a record can take that long.
_SECONDS, _MORE = 0.05, 4
# A settling does as many steps at a time as there are routers, and at least so many.
_SETTLES = 16384
# The largest number that can be given.
_MOST = 2 ** 64 - 1
# How many prefixes Jupyter is shown, and half as many as there are routers.
_SHOWN = 10
# What stands in the list of what was done: a step, or so many steps of a settling.
_STEP, _SETTLING = 0, 1
_RECORD = 24


class End(enum.IntEnum):
    """Why a packet goes no further.

    - DELIVERED: it has arrived: the last router is attached to the prefix of its row.
    - NO_ROUTE: no row of the last router covers the address.
    - NO_WAY: the last router's row says unreachable.
    - DEAD_LINK: the link of the row is down, or up in another session than the row's.

    >>> End.DELIVERED.name
    'DELIVERED'
    """

    DELIVERED = 0
    NO_ROUTE = 1
    NO_WAY = 2
    DEAD_LINK = 3


class StepKind(enum.IntEnum):
    """What a step does.

    - LINK_UP, LINK_DOWN, SET_COST: a link changes.
    - DELIVER: a router takes the oldest item from a neighbour, or the oldest notice of its own attachments.
    - PUBLISH: a router puts the rows that it has chosen in force, and what it holds may leave.
    - RELEASE: a router puts the oldest message that it holds on its link.
    - ATTACH, DETACH: a router is attached to a prefix, or no more.

    >>> StepKind.PUBLISH.name
    'PUBLISH'
    """

    LINK_UP = 0
    LINK_DOWN = 1
    SET_COST = 2
    DELIVER = 3
    PUBLISH = 4
    RELEASE = 5
    ATTACH = 6
    DETACH = 7


class ItemKind(enum.IntEnum):
    """What a router takes from a link: a message (UPDATE, QUERY, REPLY), or news of the link.

    - CAME_UP, WENT_DOWN: the link came up, or went down.
    - NEW_COST: the cost from the router that takes the item changed.

    >>> ItemKind.QUERY.name
    'QUERY'
    """

    UPDATE = 0
    QUERY = 1
    REPLY = 2
    CAME_UP = 3
    WENT_DOWN = 4
    NEW_COST = 5


class Step(NamedTuple):
    """A step of a network.

    `neighbour` is the other end of the link, or from whom a router takes an item: None for the notices of its
    own attachments. `prefix` and `cost`, 1 to 65535, are there where the kind needs them.

    >>> Step(StepKind.DELIVER, "b", "a").router
    'b'
    """

    kind: StepKind
    router: Name
    neighbour: Optional[Name] = None
    prefix: Optional[IPv4Network] = None
    cost: Optional[int] = None


class Item(NamedTuple):
    """An item on its way over a link. Of a message, `value` is the sender's distance; of CAME_UP and NEW_COST
    it is the cost from the router that takes the item.

    >>> Item(ItemKind.UPDATE, 1, IPv4Network("10.0.0.0/8"), 7).value
    7
    """

    kind: ItemKind
    session: int
    prefix: Optional[IPv4Network]
    value: Distance


class Entry(NamedTuple):
    """A row in force at a router: a prefix, and where packets go. `next` is the name of the next router of a
    row of kind VIA, `session` the session of that link. In other rows both are None.

    >>> print(Entry(IPv4Network("10.0.0.0/8"), Kind.VIA, "a", 1))
    10.0.0.0/8 via a, session 1
    """

    prefix: IPv4Network
    kind: Kind
    next: Optional[Name] = None
    session: Optional[int] = None

    def __str__(self) -> str:
        if self.kind == Kind.VIA:
            return f"{self.prefix} via {self.next}, session {self.session}"
        return f"{self.prefix} {self.kind.name.lower()}"


class Table(List[Entry]):
    """The rows in force at a router: a list, which Jupyter shows as a table.

    >>> Table([Entry(IPv4Network("10.0.0.0/8"), Kind.LOCAL)])._repr_html_()
    '<table><tr><th>prefix</th><th>next</th></tr><tr><td>10.0.0.0/8</td><td>local</td></tr></table>'
    """

    def _repr_html_(self) -> str:
        return files.html_table(["prefix", "next"], [str(entry).split(" ", maxsplit=1) for entry in self])


class Trace(NamedTuple):
    """The routers that a packet passes, in order, and why it goes no further than the last.

    >>> print(Trace(("b", "a"), End.DELIVERED))
    b a: delivered
    """

    routers: Tuple[Name, ...]
    end: End

    @property
    def arrives(self) -> bool:
        """Whether the packet arrives at a router that is attached to the prefix of its row.

        >>> Trace(("b",), End.NO_WAY).arrives
        False
        """
        return self.end == End.DELIVERED

    def __str__(self) -> str:
        return f"{' '.join(map(str, self.routers))}: {self.end.name.lower().replace('_', ' ')}"


class Counts(NamedTuple):
    """How many steps were done, and how many messages of each kind they put on links.

    >>> Counts(steps=9, updates=2, queries=1, replies=1).messages
    4
    """

    steps: int
    updates: int
    queries: int
    replies: int

    @property
    def messages(self) -> int:
        """All messages together.

        >>> Counts(0, 1, 2, 3).messages
        6
        """
        return self.updates + self.queries + self.replies

    def since(self, earlier: Counts) -> Counts:
        """What came after an earlier moment.

        >>> Counts(9, 3, 0, 0).since(Counts(4, 1, 0, 0))
        Counts(steps=5, updates=2, queries=0, replies=0)
        """
        return Counts(*(now - then for now, then in zip(self, earlier)))


class LinkState(NamedTuple):
    """What a link is now: its two routers, the cost from each, whether it is up, how often it came up, and
    how many items each end has yet to take.

    >>> net = Network("ab", [("a", "b", 5, 7)])
    >>> net.link("b", "a")
    LinkState(a='b', b='a', cost=7, cost_back=5, is_up=True, session=1, to_a=1, to_b=1)
    """

    a: Name
    b: Name
    cost: int
    cost_back: int
    is_up: bool
    session: int
    to_a: int
    to_b: int


class MachineState(NamedTuple):
    """What a router has of a prefix.

    - distance: what it tells its neighbours, a sum of costs or math.inf
    - feasible: its feasible distance
    - attached: the cost of its own attachment, or None
    - active: whether a diffusing computation is under way
    - owed: the neighbour to whom the computation owes a reply, or None
    - awaited: the neighbours whose replies the computation awaits
    - next: the next router that it chose, or None
    - reported: the distance that each neighbour whose link is up has reported

    >>> net = Network("ab", [("a", "b", 5)], {"a": "10.0.0.0/8"})
    >>> _ = net.settle()
    >>> state = net.state("b", "10.0.0.0/8")
    >>> state.distance, state.next, state.reported
    (6, 'a', {'a': 1})
    """

    distance: Distance
    feasible: Distance
    attached: Optional[int]
    active: bool
    owed: Optional[Name]
    awaited: Tuple[Name, ...]
    next: Optional[Name]
    reported: Mapping[Name, Distance]


class HeldMessage(NamedTuple):
    """A message that a router holds back: to which neighbour, in which session of the link, about which prefix,
    and with which distance of the router. It may leave once it is ripe.

    >>> HeldMessage(ItemKind.UPDATE, "b", 1, IPv4Network("10.0.0.0/8"), 7, ripe=False).value
    7
    """

    kind: ItemKind
    neighbour: Name
    session: int
    prefix: IPv4Network
    value: Distance
    ripe: bool


class Notice(NamedTuple):
    """A notice of a router's own attachment: its cost, or None if the router is attached no more.

    >>> Notice(IPv4Network("10.0.0.0/8"), None).cost is None
    True
    """

    prefix: IPv4Network
    cost: Optional[int]


class Held(NamedTuple):
    """What a router holds back: how many messages, how many of these may leave, how many notices of its own
    attachments it has yet to take, how often it has published, and whether it has something to publish.

    >>> Network("a", []).held("a")
    Held(messages=0, ripe=0, notices=0, generation=0, due=False)
    """

    messages: int
    ripe: int
    notices: int
    generation: int
    due: bool


def _counted(number: int, one: str, many: str = "") -> str:
    return f"{number:,} {one if number == 1 else many or one + 's'}"


def default_attachments(routers: Sequence[Name]) -> "dict[Name, IPv4Network]":
    """A prefix for each router: 10.0.0.0/24 for the first, 10.0.1.0/24 for the second, and so on.

    >>> default_attachments(["a", "b"])["b"]
    IPv4Network('10.0.1.0/24')
    """
    return {name: network_of(0x0A000000 | number << 8, 24) for number, name in enumerate(routers)}


Same = TypeVar("Same", bound="Whole")


class Whole(Owner):
    """Routers with links and attachments, and what can be asked of them. `Network` and `TimedNetwork` say what it
    is made of, and how it goes on.

    >>> net = Network("ab", [("a", "b", 5)])
    >>> isinstance(net, Whole)
    True
    """

    _kind = "network"

    # What was done to it, or is given to be done, since its opening.
    _done: Any

    def __init__(self, routers: Iterable[Name], links: Iterable[LinkGiven],
                 attachments: Optional[Attachments] = None, up: bool = True) -> None:
        super().__init__()
        self._names = tuple(routers)
        self._numbers = {name: number for number, name in enumerate(self._names)}
        if len(self._numbers) < len(self._names):
            raise BadRouters("two have one name")
        if len(self._names) > _WIDEST[0]:
            raise BadRouters(str(len(self._names)))
        given = [self._ends(link) for link in links]
        # By the numbers of its two ends, a link's number; and by router and port, the neighbour's number.
        self._links: "dict[tuple[int, int], int]" = {}
        self._neighbours: "list[list[int]]" = [[] for _ in self._names]
        self._ports: "dict[tuple[int, int], int]" = {}
        for number, (a, b, _, _) in enumerate(given):
            self._links[a, b] = self._links[b, a] = number
            for near, far in ((a, b), (b, a)):
                self._ports[near, far] = len(self._neighbours[near])
                self._neighbours[near].append(far)
        self._pairs = [(a, b) for a, b, _, _ in given]
        owners = self._owners(default_attachments(self._names) if attachments is None else attachments)
        self._prefixes = sorted({(addr, length) for addr, length, _, _ in owners})
        self._known = frozenset(self._prefixes)
        self._open(given, owners)
        self._hops = (ctypes.c_uint16 * max(1, len(self._names)))()
        if up:
            self.restore()

    def _ends(self, link: LinkGiven) -> "tuple[int, int, int, int]":
        if not 3 <= len(link) <= 4:
            raise BadLink(f"{link!r} has no two names and one or two costs")
        a, b = (self._number(name) for name in link[:2])
        costs = [self._cost(cost, f"the link of {link[0]} and {link[1]}") for cost in link[2:]]
        return a, b, costs[0], costs[-1]

    @staticmethod
    def _cost(cost: Optional[int], where: str) -> int:
        if cost is None:
            raise BadCost(f"the step names none for {where}")
        number = cost_number(cost)
        if not 1 <= number <= 65535:
            raise refusal(5, BY_NETWORK, f"{cost} of {where}")
        return number

    def _owners(self, attachments: Attachments) -> "list[tuple[int, int, int, int]]":
        if not isinstance(attachments, Mapping):
            raise TypeError(f"the attachments are {attachments!r}, and have to be a dict of prefixes by router")
        owners = []
        for name, prefixes in attachments.items():
            if isinstance(prefixes, Mapping):
                pairs = list(prefixes.items())
            elif isinstance(prefixes, (str, IPv4Network)):
                pairs = [(prefixes, 1)]
            elif isinstance(prefixes, Iterable):
                pairs = [(prefix, 1) for prefix in prefixes]
            else:
                raise TypeError(f"the attachment of {name!r} is {prefixes!r}, and has to be a prefix, several, or a dict "
                                "of their costs")
            for prefix, cost in pairs:
                number = self._number(name)
                owners.append((*prefix_parts(prefix), self._cost(cost, f"the attachment of {name}"), number))
        return owners

    def _open(self, links: "list[tuple[int, int, int, int]]",
              owners: "list[tuple[int, int, int, int]]") -> None:
        link_parts = (_library.LinkParts * max(1, len(links)))(
            *[(to, back, a, b) for a, b, to, back in links])
        owner_parts = (_library.OwnerParts * max(1, len(owners)))(
            *[(addr, cost, router, length) for addr, length, cost, router in owners])
        place = _library.FaultPlaceParts()
        status = self._new(byref(_library.LimitsParts(*_WIDEST)), len(self._names), link_parts, len(links), owner_parts,
                           len(owners), place)
        if status:
            where = ""
            if place.list == 1:
                where = self._fault_of_link(status, place.position)
            elif place.list == 2:
                addr, length, _, router = owners[place.position]
                where = f"{network_of(addr, length)} of {self._names[router]!r}"
            raise refusal(status, BY_NETWORK, where)
        self._given = (links, owners)

    def _fault_of_link(self, status: int, position: int) -> str:
        """Why the library refuses a link: which limit was met, and by whom."""
        pair = self._pairs[position]
        a, b = (self._names[end] for end in pair)
        if status == BadLink.number:
            return f"a link joins {a!r} to itself" if a == b else f"there is a second link of {a!r} and {b!r}"
        for end in pair:
            if sum(end in other for other in self._pairs[:position]) >= _library.PORTS:
                return (f"router {self._names[end]!r} would have {len(self._neighbours[end])} links, and can have "
                        f"{_library.PORTS}")
        return f"the network would have {len(self._pairs)} links, and can have {_WIDEST[1]}"

    def _new(self, limits: Any, routers: int, links: Any, link_count: int, owners: Any, owner_count: int,
             place: _library.FaultPlaceParts) -> int:
        """Has the library open the network of these parts, and answers its status."""
        raise NotImplementedError

    def to_networkx(self, down: bool = False) -> Any:
        """A graph of networkx of the network as it is now: a Graph, or a DiGraph if the two directions of a link
        differ. `from_networkx` makes the network again, in whose links all sessions begin anew.

        Edges have `weight`, the cost now, and `session`. With `down` links that are down are there, too, and
        each edge has `is_up`. Nodes have `prefixes`, a text such as "10.0.0.0/8 1, 10.1.0.0/16 3". In simulated time
        edges also have `delay`, and nodes `publication`. So networkx can write it as GraphML, GML and JSON.

        >>> net = Network("abc", [("a", "b", 5), ("b", "c", 1)])
        >>> net.fail("b", "c")
        >>> graph = net.to_networkx()
        >>> list(graph.edges(data="weight")), list(graph.nodes(data="prefixes"))[0]
        ([('a', 'b', 5)], ('a', '10.0.0.0/24 1'))
        """
        import networkx  # pylint: disable=import-outside-toplevel

        graph = self._graph(down)
        made: Any = networkx.DiGraph() if graph.is_directed() else networkx.Graph()
        made.add_nodes_from(graph.nodes.items())
        made.add_edges_from(graph.edges(data=True))
        return made

    def to_graphml(self, file: Any) -> None:
        """Writes the network as it is now to a path, or to a file that is open for text, as GraphML with all links
        and the attributes of `to_networkx`. It needs no networkx. `from_graphml` makes the network again, in which
        names are texts.

        >>> import io
        >>> net, file = Network("ab", [("a", "b", 5)], {"a": {"10.0.0.0/8": 7}}, up=False), io.StringIO()
        >>> net.to_graphml(file)
        >>> again = Network.from_graphml(io.StringIO(file.getvalue()))
        >>> again.links == net.links, again.attachments("a")
        (True, {IPv4Network('10.0.0.0/8'): 7})

        Raises ValueError if two names are the same text.
        """
        graphs.write_graphml(self._graph(True), file)

    def _graph(self, down: bool) -> graphs.Graph:
        links = [link for link in self.links if down or link.is_up]
        sides = [({"weight": link.cost, **self._edge(link.a, link.b)},
                  {"weight": link.cost_back, **self._edge(link.b, link.a)}) for link in links]
        directed = any(there != back for there, back in sides)
        edges = []
        for link, (there, back) in zip(links, sides):
            more = {"session": link.session, **({"is_up": link.is_up} if down else {})}
            edges.append((link.a, link.b, {**there, **more}))
            if directed:
                edges.append((link.b, link.a, {**back, **more}))
        prefixes = {name: ", ".join(f"{prefix} {cost}" for prefix, cost in self.attachments(name).items())
                    for name in self._names}
        return graphs.Graph({name: {"prefixes": text, **self._node(name)} for name, text in prefixes.items()},
                            edges, directed)

    def _edge(self, _near: Name, _far: Name) -> "dict[str, int]":
        """What an edge has beside its cost."""
        return {}

    def _node(self, _name: Name) -> "dict[str, int]":
        """What a node has beside its prefixes."""
        return {}

    @classmethod
    def _of_graph(cls: "type[Same]", graph: Any, attachments: Optional[Attachments], cost: graphs.CostGiven, up: bool,
                  **more: Any) -> Same:
        """The network of a graph, in which links that are down stay so."""
        links, down = graphs.links_of(graph, cost), graphs.down_of(graph)
        given = graphs.attachments_of(graph) if attachments is None else attachments
        network = cls(list(graph.nodes), links, given, up=up and not down, **more)
        for near, far, _, _ in links if up and down else ():
            if not {(near, far), (far, near)} & down:
                network.restore(near, far)
        return network

    # ---- documents

    def to_json(self, file: Any) -> None:
        """Writes what is so now as JSON to a path, or to a file that is open for text: `routers`, `links`, the rows of
        `distance_rows`, in which null stands for `inf`, and the rows in force of each router, `tables`, as texts.

        >>> import sys
        >>> Network("a", []).to_json(sys.stdout)   # doctest: +ELLIPSIS
        {"routers": ["a"], "links": [], "distances": [{"router": "a", ...}], "tables": {"a": ["10.0.0.0/24 local"]}}
        """
        files.write_text(file, files.json_text({
            "routers": self._names, "links": [link._asdict() for link in self.links], "distances": self.distance_rows(),
            "tables": {name: list(map(str, self.table(name))) for name in self._names}}))

    def to_scenario(self, file: Any) -> "dict[Any, str]":
        """Writes a scenario of the program `dualnet` to a path, or to a file that is open for text: the network as it
        was opened, with all that you have done to it since as the script. Answers the names that routers have there,
        because a scenario has only names of small letters and digits.

        Where the network settled, the script says `settle`, though you may have had it settle in part. In simulated
        time the script is empty, because `to_times` has the changes.

        >>> import sys
        >>> net = Network(["A 1", "b"], [("A 1", "b", 5)], {"b": "10.0.0.0/8"})
        >>> _ = net.settle()
        >>> net.to_scenario(sys.stdout)
        routers = [
            "a1",
            "b",
        ]
        links = [
            "a1 b 5 5",
        ]
        prefixes = [
            "10.0.0.0/8 b 1",
        ]
        script = [
            "up a1 b",
            "settle",
        ]
        {'A 1': 'a1', 'b': 'b'}

        Raises ValueError if it is more than a scenario can have, for example more than 256 routers.
        """
        names = files.short_names(self._names)
        files.write_text(file, self._scenario(names))
        return names

    def _scenario(self, names: "dict[Any, str]") -> str:
        links, owners = self._given
        script = self._script(names)
        files.check_limits(routers=len(names), links=len(links), prefixes=len(self._prefixes), attachments=len(owners),
                           commands=len(script))
        at = [names[name] for name in self._names]
        return files.document(
            routers=at, links=[f"{at[a]} {at[b]} {to} {back}" for a, b, to, back in links],
            prefixes=[f"{network_of(addr, length)} {at[router]} {cost}" for addr, length, cost, router in owners],
            script=script)

    def _script(self, _names: "dict[Any, str]") -> List[str]:
        """The commands of a scenario."""
        return []

    def view(self, path: Any) -> "dict[Any, str]":
        """Writes a page of the run to a path: one file, which you open in a browser, and which shows the network after
        each step or event. It is that of `dualnet-view`, which has to be on PATH or installed beside the package, and
        of the documents that `to_scenario` and `to_times` write. Answers the names that routers have in it.

        >>> Network("ab", [("a", "b", 5)]).view("run.html")   # doctest: +SKIP
        {'a': 'a', 'b': 'b'}

        Raises FileNotFoundError if there is no such program, RuntimeError if it fails, and what `to_scenario` raises.
        """
        names = files.short_names(self._names)
        files.page(path, {"": self._scenario(names), **self._documents(names)})
        return names

    def _documents(self, _names: "dict[Any, str]") -> "dict[str, str]":
        """What the page needs beside the scenario, by its options."""
        return {}

    # ---- what it is

    @property
    def routers(self) -> Tuple[Name, ...]:
        """The names of its routers.

        >>> Network("ab", []).routers
        ('a', 'b')
        """
        return self._names

    @property
    def prefixes(self) -> List[IPv4Network]:
        """The prefixes that can be attached, in their order.

        >>> Network("ab", []).prefixes
        [IPv4Network('10.0.0.0/24'), IPv4Network('10.0.1.0/24')]
        """
        return [network_of(*prefix) for prefix in self._prefixes]

    # ---- how it changes

    def fail(self, router: Name, other: Optional[Name] = None, *, at: Optional[int] = None) -> None:
        """The link of two routers goes down, and the messages on it are lost. With one router, all its links
        that are up go down, as if it had stopped.

        In simulated time `at` is the moment at which it is to happen, or the present one if you give none. Of a router
        it is then that those links go down which are up at that moment by what you have given so far.

        >>> net = Network("abc", [("a", "b", 1), ("b", "c", 1)])
        >>> net.fail("b")
        >>> [link.is_up for link in net.links]
        [False, False]
        >>> from tuhvondi import TimedNetwork
        >>> timed = TimedNetwork("abc", [("a", "b", 1), ("b", "c", 1)])
        >>> timed.fail("b", at=1_000_000)
        >>> timed.restore("b", at=2_000_000)
        >>> _ = timed.run_to_rest()
        >>> [link.session for link in timed.links]
        [2, 2]

        Raises UnknownRouter, UnknownLink, and IsDown if the link is down; NoClock if `at` is given and there is no
        clock, PastMoment.
        """
        self._put_links(router, other, StepKind.LINK_DOWN, at)

    def restore(self, router: Optional[Name] = None, other: Optional[Name] = None, *, at: Optional[int] = None) -> None:
        """The link of two routers comes up, in its next session. With one router all its links that are down
        come up, and with none all of the network. `at` is as for `fail`.

        >>> net = Network("abc", [("a", "b", 1), ("b", "c", 1)], up=False)
        >>> net.restore("a", "b")
        >>> net.restore()
        >>> [link.session for link in net.links]
        [1, 1]

        Raises UnknownRouter, UnknownLink, AlreadyUp if the link is up, SessionsSpent if it came up 65,535
        times, NoMemory; NoClock and PastMoment as `fail` does.
        """
        self._put_links(router, other, StepKind.LINK_UP, at)

    def _put_links(self, router: Optional[Name], other: Optional[Name], kind: StepKind, at: Optional[int]) -> None:
        """Has a link go up or down, or all of those of a router or of the network that are not."""
        if other is not None:
            self._give([Step(kind, router, other)], at)
            return
        pairs: "dict[int, tuple[Name, Name]]" = {}
        for name in self._names if router is None else (router,):
            for far in self.neighbours(name):
                pairs.setdefault(self._link(self._number(name), self._number(far)), (name, far))
        are_up = self._are_up(at)
        self._give([Step(kind, *pair) for number, pair in pairs.items()
                    if are_up(number) == (kind == StepKind.LINK_DOWN)], at)

    def set_cost(self, router: Name, other: Name, cost: int, back: Optional[int] = None, *,
                 at: Optional[int] = None) -> None:
        """The cost of a link from a router to the other, 1 to 65535, changes; with `back` that from the
        other, too. `at` is as for `fail`.

        >>> net = Network("ab", [("a", "b", 5)])
        >>> net.set_cost("a", "b", 7)
        >>> net.link("a", "b").cost, net.link("a", "b").cost_back
        (7, 5)

        Raises UnknownRouter, UnknownLink, BadCost, IsDown if the link is down, NoMemory; NoClock and PastMoment as
        `fail` does.
        """
        steps = [Step(StepKind.SET_COST, router, other, cost=cost)]
        if back is not None:
            steps.append(Step(StepKind.SET_COST, other, router, cost=back))
        self._give(steps, at)

    def attach(self, router: Name, prefix: Prefix, cost: int = 1, *, at: Optional[int] = None) -> None:
        """A router is attached to a prefix at this cost, 1 to 65535, from now on. `at` is as for `fail`.

        >>> net = Network("ab", [("a", "b", 5)], {"a": "10.0.0.0/8"})
        >>> net.attach("b", "10.0.0.0/8", cost=3)
        >>> _ = net.settle()
        >>> net.distances("10.0.0.0/8")
        {'a': 1, 'b': 3}

        Raises UnknownRouter, BadCost, UnknownPrefix if it is none of `prefixes`, NoMemory; NoClock and PastMoment as
        `fail` does.
        """
        self._give([Step(StepKind.ATTACH, router, prefix=network_of(*self._prefix(prefix)), cost=cost)], at)

    def detach(self, router: Name, prefix: Prefix, *, at: Optional[int] = None) -> None:
        """A router is attached to a prefix no more. `at` is as for `fail`.

        >>> net = Network("ab", [("a", "b", 5)], {"a": "10.0.0.0/8"})
        >>> net.detach("a", "10.0.0.0/8")
        >>> _ = net.settle()
        >>> net.distances("10.0.0.0/8")
        {'a': inf, 'b': inf}

        Raises UnknownRouter, UnknownPrefix, NotAttached, NoMemory; NoClock and PastMoment as `fail` does.
        """
        self._give([Step(StepKind.DETACH, router, prefix=network_of(*self._prefix(prefix)))], at)

    def _give(self, steps: Sequence[Step], at: Optional[int]) -> None:
        """Does these changes, or in simulated time gives them for a moment."""
        raise NotImplementedError

    def _are_up(self, _at: Optional[int]) -> Callable[[int], bool]:
        """Tells of a link whether it is up, or in simulated time whether it will be after what was given up to then."""
        return lambda number: self.link(*(self._names[end] for end in self._pairs[number])).is_up

    # ---- what it is now

    @property
    def links(self) -> List[LinkState]:
        """What each link is now.

        >>> [(link.a, link.b, link.is_up) for link in Network("ab", [("a", "b", 1)]).links]
        [('a', 'b', True)]
        """
        return [self.link(self._names[a], self._names[b]) for a, b in self._pairs]

    def link(self, router: Name, other: Name) -> LinkState:
        """What the link of two routers is now. Its first end is the router that you name first.

        >>> Network("ab", [("a", "b", 5)], up=False).link("a", "b").is_up
        False

        Raises UnknownRouter, UnknownLink.
        """
        near, far = self._number(router), self._number(other)
        parts = _library.LinkStateParts()
        self._need(self._library.network_link(self._at, self._link(near, far), byref(parts)))
        ends = [(parts.from_a, parts.to_a), (parts.from_b, parts.to_b)]
        (cost, to_near), (back, to_far) = ends if parts.a == near else ends[::-1]
        return LinkState(router, other, cost, back, bool(parts.up), parts.session, to_near, to_far)

    def neighbours(self, router: Name) -> List[Name]:
        """The routers to which a router has a link, in the order of its ports.

        >>> Network("abc", [("a", "b", 1), ("c", "a", 1)]).neighbours("a")
        ['b', 'c']

        Raises UnknownRouter.
        """
        return [self._names[far] for far in self._neighbours[self._number(router)]]

    def attachments(self, router: Name) -> "dict[IPv4Network, int]":
        """The prefixes to which a router is attached, with their costs. An attachment counts when the router
        has taken the notice of it.

        >>> Network("a", [], {"a": {"10.0.0.0/8": 7}}).attachments("a")
        {IPv4Network('10.0.0.0/8'): 7}

        Raises UnknownRouter.
        """
        states = ((prefix, self.state(router, prefix)) for prefix in self.prefixes)
        return {prefix: state.attached for prefix, state in states if state and state.attached}

    def _number(self, router: Name) -> int:
        number = self._numbers.get(router)
        if number is None:
            like = [name for name in self._names if str(name) == str(router)]
            more = f", though there is {like[0]!r}, of type {type(like[0]).__name__}" if like else ""
            raise UnknownRouter(f"{router!r}{more}")
        return number

    def _prefix(self, prefix: Prefix) -> "tuple[int, int]":
        """A prefix of the network. Of another one `inf` would say that routers are cut off from it."""
        parts = prefix_parts(prefix)
        if parts not in self._known:
            raise UnknownPrefix(f"{prefix} is none of the network's")
        return parts

    def _link(self, near: int, far: int) -> int:
        number = self._links.get((near, far))
        if number is None:
            raise UnknownLink(f"{self._names[near]!r} and {self._names[far]!r}")
        return number

    @staticmethod
    def _need(status: int, detail: str = "") -> None:
        if status:
            raise refusal(status, BY_NETWORK, detail)

    def _listed(self, parts: Any, call: Any, *place: int) -> List[Any]:
        """All that a call writes in a list, which tells if there was more than it had room for."""
        room = 64
        while True:
            found, written, more = (parts * room)(), c_size_t(), c_uint8()
            self._need(call(self._at, *place, found, room, byref(written), byref(more)))
            if not more.value:
                return found[:written.value]
            room *= 4

    def _in_parts(self, most: Optional[int], progress: Optional[Callable[[Counts], Any]],
                  call: Callable[[int, c_size_t], None], each: int = 0) -> Counts:
        """Does at most so many steps, or all, some at a time, and answers how many steps and messages these were.
        `call` does at most the number that it is given, and writes how many it has done. It raises a refusal. A part
        has `each` steps, or else as many as take about `_SECONDS`."""
        before = self.counts
        left = math.inf if most is None else number_of("number `most`", most, _MOST)
        done, part = c_size_t(), each or 1
        while left > 0:
            wanted = int(min(left, part))
            done.value, began = 0, time.perf_counter()
            call(wanted, done)
            took = time.perf_counter() - began
            if progress:
                progress(self.counts.since(before))
            if done.value < wanted:
                break
            left -= wanted
            part = each or max(1, int(wanted * min(_MORE, _SECONDS / max(took, 1e-9))))
        return self.counts.since(before)

    def _parts_of(self, step: Step) -> "tuple[_library.StepParts, str]":
        """A step as the library has it, and what a refusal says of it."""
        if not isinstance(step, Step):
            raise TypeError(f"{step!r} is no Step: give one, as Step(StepKind.LINK_DOWN, 'a', 'b')")
        kind, near = StepKind(step.kind), self._number(step.router)
        if kind in (StepKind.ATTACH, StepKind.DETACH):
            if step.prefix is None:
                raise UnknownPrefix("the step names none")
            addr, length = self._prefix(step.prefix)
            cost = self._cost(step.cost, f"the attachment of {step.router!r}") if kind == StepKind.ATTACH else 0
            return _library.StepParts(addr=addr, cost=cost, subject=near, kind=kind, len=length), str(step.prefix)
        if kind in (StepKind.PUBLISH, StepKind.RELEASE):
            return _library.StepParts(subject=near, kind=kind), ""
        if step.neighbour is None:
            if kind != StepKind.DELIVER:
                raise BadLink("the step needs `neighbour`, the router at the other end of the link")
            return _library.StepParts(subject=near, kind=kind, port=len(self._neighbours[near])), ""
        far = self._number(step.neighbour)
        link, names = self._link(near, far), f"{step.router!r} and {step.neighbour!r}"
        if kind in (StepKind.LINK_UP, StepKind.LINK_DOWN):
            return _library.StepParts(subject=link, kind=kind), names
        cost = self._cost(step.cost, f"the link of {names}") if kind == StepKind.SET_COST else 0
        return _library.StepParts(subject=near, kind=kind, port=self._ports[near, far], cost=cost), ""

    def _step_of(self, parts: _library.StepParts) -> Optional[Step]:
        """A step of the library, or None where it says that there is none."""
        if parts.kind > StepKind.DETACH:
            return None
        kind, cost = StepKind(parts.kind), parts.cost or None
        if kind in (StepKind.LINK_UP, StepKind.LINK_DOWN):
            a, b = self._pairs[parts.subject]
            return Step(kind, self._names[a], self._names[b])
        router, neighbours = self._names[parts.subject], self._neighbours[parts.subject]
        if kind in (StepKind.ATTACH, StepKind.DETACH):
            return Step(kind, router, prefix=network_of(parts.addr, parts.len), cost=cost)
        if kind in (StepKind.DELIVER, StepKind.SET_COST) and parts.port < len(neighbours):
            return Step(kind, router, self._names[neighbours[parts.port]], cost=cost)
        return Step(kind, router)

    # ---- what is shown of it

    def __repr__(self) -> str:
        kind = type(self).__name__
        if not self._handle.holds_:
            return f"{kind}, which is closed"
        down = sum(not link.is_up for link in self.links)
        links = _counted(len(self._pairs), "link") + (f" ({down:,} down)" if down else "")
        prefixes = _counted(len(self._prefixes), "prefix", "prefixes")
        return f"{kind} of {_counted(len(self._names), 'router')}, {links}, {prefixes}, {self._so_far()}"

    def _so_far(self) -> str:
        """How far it is, for people."""
        raise NotImplementedError

    def _repr_html_(self) -> str:
        """What Jupyter shows: the distances of the first routers to the first prefixes."""
        prefixes = self.prefixes[:_SHOWN] if self._handle.holds_ else []
        rows = [[name, *(self.distance(name, prefix) for prefix in prefixes)] for name in self._names[:2 * _SHOWN]]
        return f"<p>{files.html(repr(self))}</p>{files.html_table(['distance', *prefixes], rows)}"

    # ---- what can be asked

    @property
    def counts(self) -> Counts:
        """How many steps were done since the opening, and how many messages of each kind they put on links.
        The steps by which links come up at the opening count.

        >>> Network("ab", [("a", "b", 5)]).counts
        Counts(steps=1, updates=0, queries=0, replies=0)
        """
        parts = _library.NetworkCountsParts()
        self._need(self._library.network_counts(self._at, byref(parts)))
        return Counts(parts.steps, parts.updates, parts.queries, parts.replies)

    def _entry(self, router: int, parts: _library.RowParts) -> Optional[Entry]:
        if parts.kind > Kind.UNREACHABLE:
            return None
        prefix, kind = network_of(parts.addr, parts.len), Kind(parts.kind)
        if kind == Kind.VIA:
            return Entry(prefix, kind, self._names[self._neighbours[router][parts.port]], parts.session)
        return Entry(prefix, kind)

    def lookup(self, router: Name, address: Address) -> Optional[Entry]:
        """The row in force at a router with the longest prefix that covers an address, or None.

        >>> net = Network("ab", [("a", "b", 5)], {"a": "10.0.0.0/8"})
        >>> _ = net.settle()
        >>> print(net.lookup("b", "10.1.2.3"))
        10.0.0.0/8 via a, session 1

        Raises UnknownRouter.
        """
        number = self._number(router)
        addrs, answers = (ctypes.c_uint32 * 1)(address_number(address)), (_library.RowParts * 1)()
        self._need(self._library.network_lookup(self._at, number, addrs, 1, answers, 1))
        return self._entry(number, answers[0])

    def trace(self, router: Name, address: Address) -> Trace:
        """Follows a packet for an address from a router on, along the tables in force, to its end.

        No router is passed twice: that is proved.

        >>> net = Network("abc", [("a", "b", 5), ("b", "c", 5)], {"a": "10.0.0.0/8"})
        >>> net.trace("c", "10.1.2.3").end.name
        'NO_ROUTE'
        >>> _ = net.settle()
        >>> print(net.trace("c", "10.1.2.3"))
        c b a: delivered

        Raises UnknownRouter.
        """
        count, end = c_size_t(), c_uint8()
        self._need(self._library.network_trace(
            self._at, self._number(router), address_number(address), self._hops, len(self._names),
            byref(count), byref(end)))
        return Trace(tuple(self._names[number] for number in self._hops[:count.value]), End(end.value))

    def table(self, router: Name) -> Table:
        """The rows in force at a router, in the order of their prefixes.

        >>> net = Network("ab", [("a", "b", 5)])
        >>> _ = net.settle()
        >>> for row in net.table("b"):
        ...     print(row)
        10.0.0.0/24 via a, session 1
        10.0.1.0/24 local

        Raises UnknownRouter.
        """
        number = self._number(router)
        rows = (_library.RowParts * max(1, len(self._prefixes)))()
        written, more = c_size_t(), c_uint8()
        self._need(self._library.network_rows(self._at, number, rows, len(self._prefixes),
                                              byref(written), byref(more)))
        entries = (self._entry(number, parts) for parts in rows[:written.value])
        return Table(entry for entry in entries if entry is not None)

    def _machine(self, router: int, prefix: "tuple[int, int]", parts: _library.MachineParts) -> bool:
        """Writes what a router has of a prefix, and answers whether it has heard of it."""
        status = self._library.network_machine(self._at, router, *prefix, byref(parts))
        if status == UnknownPrefix.number:
            return False
        self._need(status)
        return True

    def state(self, router: Name, prefix: Prefix) -> Optional[MachineState]:
        """What a router has of a prefix, or None if it has not heard of it.

        >>> net = Network("abc", [("a", "b", 1), ("b", "c", 1)], {"a": "10.0.0.0/8"})
        >>> net.state("c", "10.0.0.0/8") is None
        True

        Raises UnknownRouter, UnknownPrefix if it is none of `prefixes`.
        """
        number = self._number(router)
        parts = _library.MachineParts()
        if not self._machine(number, self._prefix(prefix), parts):
            return None
        names = [self._names[far] for far in self._neighbours[number]]
        state = parts.state
        return MachineState(
            distance=distance_of(state.rd),
            feasible=distance_of(state.fd),
            attached=state.attached or None,
            active=bool(state.active),
            owed=names[state.owed] if state.owed < len(names) else None,
            awaited=tuple(name for name, awaits in zip(names, state.awaited) if awaits),
            next=names[parts.successor] if parts.successor < len(names) else None,
            reported={name: distance_of(it.reported) for name, it in zip(names, parts.neighbours) if it.up},
        )

    def active(self) -> "list[tuple[Name, IPv4Network]]":
        """The routers in which a diffusing computation is under way, each with its prefix.

        >>> net = Network("abc", [("a", "b", 1), ("b", "c", 1)], {"a": "10.0.0.0/8"})
        >>> _ = net.settle()
        >>> net.fail("a", "b")
        >>> net.do(Step(StepKind.DELIVER, "b", "a"))
        >>> net.active()
        [('b', IPv4Network('10.0.0.0/8'))]
        """
        parts = _library.MachineParts()
        return [(name, network_of(*prefix))
                for number, name in enumerate(self._names) for prefix in self._prefixes
                if self._machine(number, prefix, parts) and parts.state.active]

    def distance(self, router: Name, prefix: Prefix) -> Distance:
        """A router's distance to a prefix, the cost of the attachment included: a sum of costs, or math.inf.

        >>> net = Network("ab", [("a", "b", 5)], {"a": {"10.0.0.0/8": 2}})
        >>> net.distance("b", "10.0.0.0/8")
        inf
        >>> _ = net.settle()
        >>> net.distance("b", "10.0.0.0/8")
        7

        Raises UnknownRouter, UnknownPrefix if it is none of `prefixes`.
        """
        parts = _library.MachineParts()
        found = self._machine(self._number(router), self._prefix(prefix), parts)
        return distance_of(parts.state.rd) if found else math.inf

    def distances(self, prefix: Optional[Prefix] = None) -> "dict[Any, Any]":
        """The distance of each router to a prefix, or, without one, such a dict for each prefix.

        >>> net = Network("ab", [("a", "b", 5)])
        >>> _ = net.settle()
        >>> net.distances("10.0.1.0/24")
        {'a': 6, 'b': 1}
        >>> len(net.distances())
        2

        Raises UnknownPrefix if it is none of `prefixes`.
        """
        if prefix is not None:
            return {name: self.distance(name, prefix) for name in self._names}
        return {each: self.distances(each) for each in self.prefixes}

    def distance_rows(self) -> "list[dict[str, Any]]":
        """A row for each router and prefix, as `pandas.DataFrame` and `csv.DictWriter` take them.

        >>> net = Network("ab", [("a", "b", 5)], {"a": "10.0.0.0/8"})
        >>> _ = net.settle()
        >>> net.distance_rows()[1]
        {'router': 'b', 'prefix': '10.0.0.0/8', 'distance': 6, 'feasible': 6, 'next': 'a', 'active': False}
        """
        rows = []
        for prefix in self.prefixes:
            for name in self._names:
                state = self.state(name, prefix)
                rows.append({
                    "router": name, "prefix": str(prefix),
                    "distance": state.distance if state else math.inf,
                    "feasible": state.feasible if state else math.inf,
                    "next": state.next if state else None, "active": bool(state and state.active),
                })
        return rows

    def to_pandas(self) -> Any:
        """The rows of `distance_rows` as a DataFrame, if pandas is installed.

        >>> Network("a", []).to_pandas()   # doctest: +SKIP
          router       prefix  distance  feasible  next  active
        0      a  10.0.0.0/24         1         1  None   False
        """
        import pandas  # pylint: disable=import-outside-toplevel

        return pandas.DataFrame(self.distance_rows())

    def under_way(self, sender: Name, receiver: Name) -> List[Item]:
        """What a router has yet to take from a neighbour, oldest first.

        >>> net = Network("ab", [("a", "b", 5)])
        >>> net.under_way("a", "b")
        [Item(kind=<ItemKind.CAME_UP: 3>, session=1, prefix=None, value=5)]

        Raises UnknownRouter, UnknownLink.
        """
        near, far = self._number(receiver), self._number(sender)
        self._link(near, far)
        queue = self._listed(_library.ItemParts, self._library.network_queue, near, self._ports[near, far])
        return [self._item(parts) for parts in queue]

    @staticmethod
    def _item(parts: _library.ItemParts) -> Item:
        kind = ItemKind(parts.kind)
        prefix = network_of(parts.addr, parts.len) if kind <= ItemKind.REPLY else None
        return Item(kind, parts.session, prefix, distance_of(parts.value))

    def held(self, router: Name) -> Held:
        """What a router holds back until it publishes.

        >>> net = Network("ab", [("a", "b", 5)])
        >>> net.do(net.next_step("b"))   # b takes the notice that the link came up
        >>> net.held("b").messages, net.held("b").ripe
        (1, 0)

        Raises UnknownRouter.
        """
        parts = _library.GateParts()
        self._need(self._library.network_gate(self._at, self._number(router), byref(parts)))
        return Held(parts.held, parts.ripe, parts.notices, parts.generation, bool(parts.due))

    def held_messages(self, router: Name) -> List[HeldMessage]:
        """The messages that a router holds back, in the order in which they leave.

        >>> net = Network("ab", [("a", "b", 5)])
        >>> net.do(net.next_step("b"))   # b takes the notice that the link came up
        >>> [(it.kind.name, it.neighbour, it.value, it.ripe) for it in net.held_messages("b")]
        [('UPDATE', 'a', 1, False)]

        Raises UnknownRouter.
        """
        number, ripe = self._number(router), self.held(router).ripe
        far = [self._names[neighbour] for neighbour in self._neighbours[number]]
        messages = self._listed(_library.MessageParts, self._library.network_held, number)
        return [HeldMessage(ItemKind(it.kind), far[it.port], it.session, network_of(it.addr, it.len),
                            distance_of(it.value), place < ripe) for place, it in enumerate(messages)]

    def notices(self, router: Name) -> List[Notice]:
        """The notices of its own attachments that a router has yet to take, oldest first.

        >>> net = Network("ab", [], {"a": "10.0.0.0/8"})
        >>> net.attach("b", "10.0.0.0/8", 7)
        >>> net.notices("b")
        [Notice(prefix=IPv4Network('10.0.0.0/8'), cost=7)]

        Raises UnknownRouter.
        """
        notices = self._listed(_library.NoticeParts, self._library.network_notices, self._number(router))
        return [Notice(network_of(it.addr, it.len), it.cost or None) for it in notices]

    def copy(self: Same) -> Same:
        """Another network in the same state, for what-if questions.

        The library copies what is in the network, its clock and record too: that takes time and memory by its
        routers, links, rows and spells, and not by the steps that were done. `copy.copy` and `copy.deepcopy` do the
        same. A pickle of a `Network` has its steps instead, 24 bytes for each that you did and for each part of a
        settling, and does them again as it is loaded. With 200 routers and a prefix each that took a second, and
        `copy` 8 ms, so a pool of processes is better forked. A `TimedNetwork` cannot be pickled.

        >>> net = Network("ab", [("a", "b", 5)])
        >>> _ = net.settle()
        >>> other = net.copy()
        >>> other.fail("a", "b")
        >>> _ = other.settle()
        >>> net.distance("b", "10.0.0.0/24"), other.distance("b", "10.0.0.0/24")
        (6, inf)

        Raises NoMemory.
        """
        other = type(self).__new__(type(self))
        Owner.__init__(other)
        self._need(self._library.network_copy(self._at, other._at))
        for name, value in vars(self).items():
            vars(other).setdefault(name, value)
        other._hops, other._done = type(self._hops)(), self._done[:]
        return other

    __copy__ = copy

    def __deepcopy__(self: Same, memo: Any) -> Same:
        other = self.copy()
        vars(other).update(copy.deepcopy(self._own(), memo))
        return other

    def _own(self) -> "dict[str, Any]":
        """The attributes that a class of yours, or you, have given it."""
        return {name: value for name, value in vars(self).items() if not name.startswith("_")}


class Network(Whole):
    """A network of routers that route by DUAL, with the table in force at each.

    - routers: their names, 1 to 65,536; a name is whatever can be a key of a dict
    - links: tuples of two names and a cost, 1 to 65535, or two names, the cost from the first, and the cost
      from the second; at most 65,536, at most 32 at a router, and at most one between two routers
    - attachments: by router, the prefixes to which it is attached: one, several, or several with their costs
      (1 if you give none). Without them each router has a prefix of its own: 10.0.0.0/24, 10.0.1.0/24 and so
      on. No other prefix can be attached later.
    - up: whether all links come up at once; else all are down. In a large network `tuhvondi.study.start`,
      which has them come up one by one, takes far fewer steps.

    Nothing happens but by steps: those of `settle`, those that you choose (`do`), and those by which links
    and attachments change. A ring of three routers:

    >>> net = Network("abc", [("a", "b", 1), ("b", "c", 1), ("a", "c", 5)], {"a": "10.0.0.0/8"})
    >>> net
    Network of 3 routers, 3 links, 1 prefix, not settled after 3 steps
    >>> net.settle().messages > 0
    True
    >>> net.distances("10.0.0.0/8")
    {'a': 1, 'b': 2, 'c': 3}
    >>> net.fail("b", "c")
    >>> print(net.trace("c", "10.1.2.3"))   # c has not heard of it
    c: dead link
    >>> _ = net.settle()
    >>> print(net.trace("c", "10.1.2.3"))
    c a: delivered
    >>> net.distance("c", "10.0.0.0/8")
    6

    Whatever steps are done, in whatever order, it is proved of the library that no packet meets a router
    twice, and that rows lead at least cost if nothing is left to do. There is no clock:
    `TimedNetwork` has one.

    Raises BadRouters, BadLink, TooManyLinks, BadOwner, BadCost, NoMemory.
    """

    def __init__(self, routers: Iterable[Name], links: Iterable[LinkGiven],
                 attachments: Optional[Attachments] = None, *, up: bool = True) -> None:
        # The steps that were done, for pickles: a kind of record, and a step, or a seed and a number of steps.
        self._done = bytearray()
        super().__init__(routers, links, attachments, up)

    def _new(self, limits: Any, routers: int, links: Any, link_count: int, owners: Any, owner_count: int,
             place: _library.FaultPlaceParts) -> int:
        return self._library.network_within(limits, routers, links, link_count, owners, owner_count,
                                            byref(place), self._at)

    # ---- making a network of a graph

    @classmethod
    def from_networkx(cls, graph: Any, attachments: Optional[Attachments] = None, cost: graphs.CostGiven = "weight", *,
                      up: bool = True) -> Network:
        """The network of a graph of networkx, or of a graph that has its `nodes`, `edges` and `is_directed`.

        `cost` is the cost of an edge, 1 to 65535: the name of its attribute, and 1 if the edge has none; a
        number for all; or a function of the two nodes and the attributes. In a directed graph each edge has
        an edge back, and each of the two gives the cost from its first node. A name that you give has to be
        that of an attribute of some edge. If you give no attachments, nodes have those of their attribute `prefixes`,
        and a prefix each if none has one. An edge whose `is_up` is false is a link that is down.

        >>> import networkx
        >>> net = Network.from_networkx(networkx.cycle_graph(4), {0: "10.0.0.0/8"}, cost=10)
        >>> _ = net.settle()
        >>> net.distances("10.0.0.0/8")
        {0: 1, 1: 11, 2: 21, 3: 11}

        Raises BadLink for loops, for parallel edges, and for an edge without an edge back, ValueError if no edge
        has the attribute. Others are as for a Network.
        """
        return cls._of_graph(graph, attachments, cost, up)

    @classmethod
    def from_graphml(cls, path: Any, attachments: Optional[Attachments] = None, cost: graphs.CostGiven = "weight", *,
                     up: bool = True) -> Network:
        """The network of a file of GraphML. It needs no networkx. Routers are named by their labels, if each
        node has one of its own, else by their ids. `cost` is as for `from_networkx`.

        >>> import io
        >>> file = io.StringIO('''<graphml><graph edgedefault="undirected">
        ... <node id="a"/><node id="b"/><edge source="a" target="b"/></graph></graphml>''')
        >>> Network.from_graphml(file).routers
        ('a', 'b')

        Raises ValueError if the file is no GraphML. Others are as for `from_networkx`.
        """
        return cls.from_networkx(graphs.read_graphml(path), attachments, cost, up=up)

    # ---- how it goes on

    def _step(self, parts: _library.StepParts, detail: str = "") -> None:
        """Does a step, and keeps it for pickles."""
        self._need(self._library.network_step(self._at, byref(parts)), detail)
        self._done += _STEP.to_bytes(8, "little") + bytes(parts)

    def _give(self, steps: Sequence[Step], at: Optional[int]) -> None:
        if at is not None:
            raise NoClock("it is done at once, and not at a moment")
        for parts in [self._parts_of(step) for step in steps]:
            self._step(*parts)

    def _script(self, names: "dict[Any, str]") -> List[str]:
        script: List[str] = []
        for kind, parts in self._history():
            if kind == _STEP:
                step = self._step_of(_library.StepParts.from_buffer_copy(parts))
                script.append(files.command(step, names))
                continue
            seed = int.from_bytes(parts[:8], "little")
            settle = f"settle --seed {seed}" if 0 < seed < 2 ** 32 else "settle"
            script += [settle] if script[-1:] != [settle] else []
        return script

    def _history(self) -> "Iterator[tuple[int, bytes]]":
        """The records of what was done: of which kind, and what it says."""
        for at in range(0, len(self._done), _RECORD):
            yield self._done[at], bytes(self._done[at + 8:at + _RECORD])

    def settle(self, seed: int = 0, most: Optional[int] = None, *,
               progress: Optional[Callable[[Counts], Any]] = None) -> Counts:
        """Lets routers do what they have to do until nothing is left to do, or at most so many steps. Answers
        how many steps and messages these were.

        Routers take turns in the order in which you named them, or in a pseudo-random order that the seed
        determines, 1 to 2^64 - 1. Each order ends, and begins anew after 16384 steps, or after as many as there
        are routers if these are more: then an interrupt from the keyboard is heard, and `progress`, a function of
        what was done so far, is called. It is so many steps and no time, so that the same seed does the same again.

        >>> net = Network("ab", [("a", "b", 5)])
        >>> net.settle(most=3).steps, net.is_settled
        (3, False)
        >>> net.settle(seed=7, progress=lambda counts: print(counts.messages, "messages")).steps > 0, net.is_settled
        4 messages
        (True, True)

        Raises ValueError if the seed or `most` is no whole number, StepsSpent, NoMemory. The steps before stay done.
        """
        number = number_of("seed", seed, _MOST)

        def settle(wanted: int, done: c_size_t) -> None:
            status = self._library.network_settle(self._at, number, wanted, byref(done))
            if done.value:
                self._done += b"".join(it.to_bytes(8, "little") for it in (_SETTLING, number, done.value))
            self._need(status)

        return self._in_parts(most, progress, settle, max(_SETTLES, len(self._names)))

    def next_step(self, router: Name) -> Optional[Step]:
        """What a router has to do next: a release; if it has none, a publication; else a delivery from its
        lowest port that has an item; or None. `do` does it. So you build an event loop of your own.

        >>> net = Network("ab", [("a", "b", 5)])
        >>> net.next_step("b")
        Step(kind=<StepKind.DELIVER: 3>, router='b', neighbour='a', prefix=None, cost=None)

        Raises UnknownRouter.
        """
        parts = _library.StepParts()
        number = self._number(router)
        self._need(self._library.network_next_step(self._at, number, byref(parts)))
        return self._step_of(parts)

    def do(self, step: Step) -> None:
        """Does a step.

        >>> net = Network("ab", [("a", "b", 5)])
        >>> while not net.is_settled:   # b is slow
        ...     net.do(net.next_step("a") or net.next_step("b"))
        >>> net.do(Step(StepKind.LINK_DOWN, "a", "b"))
        >>> net.do(Step(StepKind.DELIVER, "a", "b"))
        >>> net.do(Step(StepKind.DELIVER, "a", "b"))
        Traceback (most recent call last):
        ...
        tuhvondi.status.NothingToDeliver: nothing is on its way to the port

        Raises what the change of its kind raises, and NothingToDeliver, NothingDue, NothingRipe, StepsSpent.
        """
        self._step(*self._parts_of(step))

    @property
    def is_settled(self) -> bool:
        """Whether nothing is left to do. Rows then lead at least cost.

        >>> Network("ab", [("a", "b", 5)]).is_settled, Network("ab", []).is_settled
        (False, True)
        """
        settled = c_uint8()
        self._need(self._library.network_is_settled(self._at, byref(settled)))
        return bool(settled.value)

    def _so_far(self) -> str:
        return f"{'settled' if self.is_settled else 'not settled'} after {_counted(self.counts.steps, 'step')}"

    # ---- pickles

    def __reduce__(self) -> Any:
        return _again, (type(self), self._names, self._given, bytes(self._done)), self._own()

    def _replay(self, done: bytes) -> None:
        """Does again what was done."""
        count = c_size_t()
        at = 0
        while at < len(done):
            if done[at] == _SETTLING:
                seed, wanted = (int.from_bytes(done[at + it:at + it + 8], "little") for it in (8, 16))
                self._need(self._library.network_settle(self._at, seed, wanted, byref(count)))
                at += _RECORD
                continue
            parts = bytearray()
            while at < len(done) and done[at] == _STEP:
                parts += done[at + 8:at + _RECORD]
                at += _RECORD
            number = len(parts) // ctypes.sizeof(_library.StepParts)
            steps = (_library.StepParts * number).from_buffer(parts)
            self._need(self._library.network_run(self._at, steps, number, byref(count)))
        self._done = bytearray(done)


def _again(kind: "type[Network]", names: Tuple[Name, ...], given: Any, done: bytes) -> Network:
    """A network to which the same is done."""
    links, owners = given
    attachments: "dict[Name, dict[IPv4Network, int]]" = {}
    for addr, length, cost, router in owners:
        attachments.setdefault(names[router], {})[network_of(addr, length)] = cost
    # A class of yours may be made of other arguments.
    network = kind.__new__(kind)
    Network.__init__(network, names, [(names[a], names[b], to, back) for a, b, to, back in links], attachments, up=False)
    network._replay(done)  # pylint: disable=protected-access
    return network
