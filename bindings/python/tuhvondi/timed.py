"""A whole network of routers in simulated time: a discrete-event simulation."""

from __future__ import annotations

from ctypes import byref, c_size_t, c_uint8, c_uint64
from ipaddress import IPv4Network
from typing import Any, Callable, Iterable, List, Mapping, NamedTuple, Optional, Sequence, Tuple, Union

from . import _library, files, graphs
from .network import Attachments, Counts, LinkGiven, Name, Step, StepKind, Whole
from .rows import network_of, number_of
from .status import BadKind, PastMoment

# The delay from one router to another: a number for all, by the two names, or a function of them.
DelayGiven = Union[int, Mapping[Tuple[Name, Name], int], Callable[[Name, Name], int]]
# How long a router takes to publish: a number for all, by its name, or a function of it.
PublicationGiven = Union[int, Mapping[Name, int], Callable[[Name], int]]
# What is told how far a run is: what was done so far, and the moment of the last event.
Progress = Callable[[Counts, int], Any]

# The last moment that the clock can show, at which nothing is done any more.
_LAST = 2 ** 64 - 1


class Event(NamedTuple):
    """A step at a moment, in microseconds since the opening, and whether it is a change that you gave.

    >>> print(Event(1500, Step(StepKind.LINK_DOWN, "a", "b"), given=True))
    1500: link down a b
    """

    moment: int
    step: Step
    given: bool

    def __str__(self) -> str:
        words = [self.step.kind.name.lower().replace("_", " "), self.step.router, *(
            it for it in self.step[2:] if it is not None)]
        return f"{self.moment}: {' '.join(map(str, words))}"


class Spell(NamedTuple):
    """From when until when something was so at a router, for a prefix, in microseconds since the opening. `end` is
    None as long as it goes on.

    >>> Spell("b", IPv4Network("10.0.0.0/8"), 3, 45).length
    42
    """

    router: Name
    prefix: IPv4Network
    begin: int
    end: Optional[int]

    @property
    def length(self) -> Optional[int]:
        """How long it was so, in microseconds, or None as long as it goes on.

        >>> Spell("b", IPv4Network("10.0.0.0/8"), 3, None).length is None
        True
        """
        return None if self.end is None else self.end - self.begin


class TimedNetwork(Whole):
    """A network of routers in simulated time. It is made of routers, links and attachments as a `Network` is.

    - delay: how long an item is on its way over a link, in microseconds: a number for all; a dict by the names
      of the router that sends and the router that receives; or a function of the two. If a dict has one
      direction alone, that counts for both. An end notices a failed link after that delay, too, and not after a
      time without a sign of life.
    - publication: how long after a router has something to publish it publishes, in microseconds: a number for
      all, a dict by name, or a function of the name.
    - up: whether all links come up at moment 0; else all are down.
    - record: whether the network keeps a record of its `computations` and `outages`. It costs time with each
      event, and memory by the routers times the prefixes and by the spells that ended.

    What is due first is done first, and the clock jumps from one event to the next. Of one moment your changes
    come first, in the order in which you gave them, and then routers in the order in which you named them. So
    what happens is determined by what you give. A link that fails, a second after the opening:

    >>> links = [("a", "b", 1), ("b", "c", 1), ("c", "a", 5)]
    >>> net = TimedNetwork("abc", links, {"a": "10.0.0.0/8"}, delay=500, publication=100)
    >>> _ = net.run_to_rest()
    >>> net.at(1_000_000, Step(StepKind.LINK_DOWN, "a", "b"))
    >>> _ = net.run_until(1_000_000)
    >>> print(net.trace("b", "10.1.2.3"))
    b: dead link
    >>> _ = net.run_to_rest()
    >>> print(net.trace("b", "10.1.2.3"), "- at rest since", net.now)
    b c a: delivered - at rest since 1002300
    >>> net
    TimedNetwork of 3 routers, 3 links (1 down), 1 prefix, at rest since 1,002,300 µs

    All that is proved of a network holds of this one at every moment, whatever the delays are. It is also
    proved that nothing is done before it is due, and that nothing that is due is left out. A record is exact: a
    spell stands in it if and only if there was one, and those that ended stand there once each, in that order.

    Raises what a `Network` raises, ValueError if a delay is none, and UnknownLink if it is of no link.
    """

    def __init__(self, routers: Iterable[Name], links: Iterable[LinkGiven],
                 attachments: Optional[Attachments] = None, *, delay: DelayGiven = 1000,
                 publication: PublicationGiven = 1000, up: bool = True, record: bool = False) -> None:
        self._delay, self._publication, self._records = delay, publication, record
        # The changes that were given, with their moments.
        self._done: List[Tuple[int, Step]] = []
        super().__init__(routers, links, attachments, up)

    def _new(self, limits: Any, routers: int, links: Any, link_count: int, owners: Any, owner_count: int,
             place: _library.FaultPlaceParts) -> int:
        for pair in self._delay if isinstance(self._delay, Mapping) else ():
            self._link(*map(self._number, pair))
        self._delays = {(near, far): self._between(near, far) for a, b in self._pairs for near, far in ((b, a), (a, b))}
        self._publications = [self._to_publish(name) for name in self._names]
        delays = (_library.DelayParts * max(1, link_count))(
            *[(self._delays[b, a], self._delays[a, b]) for a, b in self._pairs])
        publications = (c_uint64 * max(1, routers))(*self._publications)
        return self._library.network_with_delays(
            limits, routers, links, link_count, owners, owner_count, delays, link_count, publications, routers,
            bool(self._records), byref(place), self._at)

    def _between(self, sender: int, receiver: int) -> int:
        """How long an item is on its way."""
        a, b = self._names[sender], self._names[receiver]
        found = self._delay
        if callable(found):
            found = found(a, b)
        elif isinstance(found, Mapping):
            found = found[a, b] if (a, b) in found else found.get((b, a))
        return number_of(f"delay from {a!r} to {b!r}", found, _LAST)

    def _to_publish(self, name: Name) -> int:
        """How long a router takes to publish."""
        found = self._publication
        if callable(found):
            found = found(name)
        elif isinstance(found, Mapping):
            found = found.get(name)
        return number_of(f"publication of {name!r}", found, _LAST)

    # ---- making a network of a graph

    @classmethod
    def from_networkx(cls, graph: Any, attachments: Optional[Attachments] = None,
                      cost: graphs.CostGiven = "weight", *, delay: graphs.CostGiven = "delay",
                      publication: Union[str, PublicationGiven] = "publication", up: bool = True,
                      record: bool = False) -> TimedNetwork:
        """The network of a graph of networkx, as `Network.from_networkx`.

        `delay` is the delay of an edge, in microseconds: the name of its attribute, and 1000 if the edge has
        none; a number for all; or a function of the two nodes and the attributes. In a directed graph that of
        each edge counts from its first node. `publication` may be the name of an attribute of nodes, 1000 if a node
        has none.

        >>> import networkx
        >>> net = TimedNetwork.from_networkx(networkx.path_graph(3), {0: "10.0.0.0/8"}, delay=50, publication=0)
        >>> _ = net.run_to_rest()
        >>> net.now
        200

        Raises ValueError if a delay is no whole number, or if no edge has the attribute that you name. Others are as
        for `Network.from_networkx`.
        """
        return cls._of_graph(graph, attachments, cost, up, delay=graphs.delays_of(graph, delay),
                             publication=graphs.publications_of(graph, publication), record=record)

    @classmethod
    def from_graphml(cls, path: Any, attachments: Optional[Attachments] = None,
                     cost: graphs.CostGiven = "weight", *, delay: graphs.CostGiven = "delay",
                     publication: Union[str, PublicationGiven] = "publication", up: bool = True,
                     record: bool = False) -> TimedNetwork:
        """The network of a file of GraphML, as `Network.from_graphml`. `delay` and `publication` are as for
        `from_networkx`.

        >>> import io
        >>> file = io.StringIO('''<graphml><graph edgedefault="undirected">
        ... <node id="a"/><node id="b"/><edge source="a" target="b"/></graph></graphml>''')
        >>> TimedNetwork.from_graphml(file).routers
        ('a', 'b')

        Raises ValueError if the file is no GraphML. Others are as for `from_networkx`.
        """
        return cls.from_networkx(graphs.read_graphml(path), attachments, cost, delay=delay,
                                 publication=publication, up=up, record=record)

    # ---- how it goes on

    def at(self, moment: int, step: Step) -> None:
        """Gives a change that is to be done at a moment, after those that you gave before for the same one. It
        is a step of a link, a cost or an attachment. Whether it can be done shows when its moment comes.

        >>> net = TimedNetwork("ab", [("a", "b", 5)], up=False)
        >>> net.at(30, Step(StepKind.LINK_UP, "a", "b"))
        >>> net.at(70, Step(StepKind.SET_COST, "a", "b", cost=9))
        >>> print(net.next_event)
        30: link up a b

        Raises UnknownRouter, UnknownLink, BadCost, BadKind if it is a step that routers do, PastMoment,
        NoMemory.
        """
        parts, detail = self._parts_of(step)
        if step.kind in (StepKind.DELIVER, StepKind.PUBLISH, StepKind.RELEASE):
            raise BadKind("routers deliver, publish and release by themselves: give a change of a link, a cost or an "
                          "attachment")
        number = number_of("moment", moment, _LAST)
        status = self._library.network_at(self._at, number, byref(parts))
        if status == PastMoment.number:
            raise PastMoment(f"{number}, and it is {self.now}")
        self._need(status, detail)
        self._done.append((number, self._step_of(parts) or step))

    def _give(self, steps: Sequence[Step], at: Optional[int]) -> None:
        for step in steps:
            self._parts_of(step)
        for step in steps:
            self.at(self.now if at is None else at, step)

    def _are_up(self, at: Optional[int]) -> Callable[[int], bool]:
        moment = self.now if at is None else number_of("moment", at, _LAST)
        ends = {}
        for when, step in sorted(self._done, key=lambda each: each[0]):
            if when <= moment and step.kind in (StepKind.LINK_UP, StepKind.LINK_DOWN):
                ends[self._link(self._number(step.router), self._number(step.neighbour))] = step.kind
        return lambda number: ends.get(number) == StepKind.LINK_UP

    def withdraw(self) -> Optional[Event]:
        """Takes the first of the changes that are to be done off the list, or answers None. So you go on if a
        run has stopped at a change that is refused.

        >>> net = TimedNetwork("ab", [("a", "b", 5)])
        >>> net.at(30, Step(StepKind.LINK_UP, "a", "b"))   # it is up then
        >>> net.run_to_rest()
        Traceback (most recent call last):
        ...
        tuhvondi.status.AlreadyUp: the link is up: 30: link up a b
        >>> print(net.withdraw())
        30: link up a b
        >>> net.run_to_rest().updates, net.is_at_rest
        (4, True)
        """
        parts = _library.EventParts()
        self._need(self._library.network_withdraw(self._at, byref(parts)))
        event = self._event_of(parts)
        if event is not None:
            self._done.remove(event[:2])
        return event

    def run_until(self, moment: int, most: Optional[int] = None, *, progress: Optional[Progress] = None) -> Counts:
        """Does what is due up to a moment, that included, or at most so many events. Answers how many steps and
        messages these were. `now` is then the moment of the last of them. About twenty times a second an interrupt
        from the keyboard is heard, and `progress`, a function of what was done so far and of `now`, is called.

        >>> net = TimedNetwork("ab", [("a", "b", 5)], {"a": "10.0.0.0/8"}, delay=500, publication=100)
        >>> net.run_until(599).steps, net.now   # the link came up, and both routers heard of it
        (3, 500)
        >>> print(net.next_event)
        600: publish a

        Raises ValueError if the moment or `most` is no whole number, TimeSpent, StepsSpent, NoMemory, and what a
        change raises that cannot be done. That change stays the next event. The events before stay done.
        """
        number = number_of("moment", moment, _LAST)
        return self._run(most, progress,
                         lambda wanted, done: self._library.network_run_until(self._at, number, wanted, done))

    def run_to_rest(self, most: Optional[int] = None, *, progress: Optional[Progress] = None) -> Counts:
        """Does all that is left to do, as `run_until` does. `now` is then the moment since which the network is
        at rest.

        >>> net = TimedNetwork("ab", [("a", "b", 5)], {"a": "10.0.0.0/8"}, delay=500, publication=100)
        >>> moments = []
        >>> net.run_to_rest(progress=lambda counts, now: moments.append(now)).steps, net.now
        (9, 1700)
        >>> moments[-1]
        1700
        >>> net.distances("10.0.0.0/8")
        {'a': 1, 'b': 6}
        """
        return self._run(most, progress,
                         lambda wanted, done: self._library.network_run_to_rest(self._at, wanted, done))

    def _run(self, most: Optional[int], progress: Optional[Progress], call: Callable[[int, Any], int]) -> Counts:
        def run(wanted: int, done: c_size_t) -> None:
            status = call(wanted, byref(done))
            if status:
                event = self.next_event
                self._need(status, str(event) if event else "")

        def tell(counts: Counts) -> None:
            if progress:
                progress(counts, self.now)

        return self._in_parts(most, tell if progress else None, run)

    # ---- documents

    def _edge(self, near: Name, far: Name) -> "dict[str, int]":
        return {"delay": self._delays[self._number(near), self._number(far)]}

    def _node(self, name: Name) -> "dict[str, int]":
        return {"publication": self._publications[self._number(name)]}

    def to_times(self, file: Any) -> "dict[Any, str]":
        """Writes what `dualnet time` reads beside a scenario to a path, or to a file that is open for text: the delays,
        and all changes that you have given since the opening. With `to_scenario` it does the same run again. Answers
        the names that routers have there, which are those of `to_scenario`.

        >>> import sys
        >>> net = TimedNetwork("ab", [("a", "b", 5)], delay={("a", "b"): 500, ("b", "a"): 700}, publication=100)
        >>> net.fail("a", "b", at=9000)
        >>> net.to_times(sys.stdout)
        links = [
            "a b 500 700",
        ]
        routers = [
            "a 100",
            "b 100",
        ]
        changes = [
            "0 up a b",
            "9000 down a b",
        ]
        {'a': 'a', 'b': 'b'}

        Raises ValueError if there are more changes than such a document can have, 10,000.
        """
        names = files.short_names(self._names)
        files.write_text(file, self._documents(names)["--times"])
        return names

    def _documents(self, names: "dict[Any, str]") -> "dict[str, str]":
        files.check_limits(commands=len(self._done))
        at = [names[name] for name in self._names]
        return {"--times": files.document(
            links=[f"{at[a]} {at[b]} {self._delays[a, b]} {self._delays[b, a]}" for a, b in self._pairs],
            routers=[f"{name} {delay}" for name, delay in zip(at, self._publications)],
            changes=[f"{moment} {files.command(step, names)}" for moment, step in self._done])}

    # ---- what time it is

    @property
    def now(self) -> int:
        """The moment of the last event, in microseconds since the opening.

        >>> TimedNetwork("ab", []).now
        0
        """
        moment = c_uint64()
        self._need(self._library.network_now(self._at, byref(moment)))
        return moment.value

    @property
    def next_event(self) -> Optional[Event]:
        """What is done next, or None if nothing is left to do.

        >>> print(TimedNetwork("ab", [("a", "b", 5)]).next_event)
        0: link up a b
        """
        parts = _library.EventParts()
        self._need(self._library.network_next_event(self._at, byref(parts)))
        return self._event_of(parts)

    @property
    def is_at_rest(self) -> bool:
        """Whether nothing is left to do: each change that you gave is done, and the network is settled. Rows
        then lead at least cost.

        >>> TimedNetwork("ab", [("a", "b", 5)]).is_at_rest, TimedNetwork("ab", []).is_at_rest
        (False, True)
        """
        rests = c_uint8()
        self._need(self._library.network_is_at_rest(self._at, byref(rests)))
        return bool(rests.value)

    def _so_far(self) -> str:
        return f"at rest since {self.now:,} µs" if self.is_at_rest else f"not at rest at {self.now:,} µs"

    # ---- what went on, and what goes on

    def computations(self, start: int = 0) -> List[Spell]:
        """The computations that ended, in the order in which they did: from when until when the machine of a router
        for a prefix awaited replies. The list only grows. `start` leaves out so many at its beginning, so you
        read it on from where you were.

        >>> links = [("a", "b", 1), ("b", "c", 1), ("c", "a", 5)]
        >>> net = TimedNetwork("abc", links, {"a": "10.0.0.0/8"}, delay=500, publication=100, record=True)
        >>> net.at(1_000_000, Step(StepKind.LINK_DOWN, "a", "b"))
        >>> _ = net.run_to_rest()
        >>> for spell in net.computations():
        ...     print(spell.router, spell.begin, spell.length)
        b 1000500 1200

        Raises NoRecord if the network was made without `record=True`.
        """
        return self._spells(self._library.network_computations, number_of("start", start, _LAST))

    def computing(self) -> List[Spell]:
        """The computations that go on now, by prefixes and then by routers.

        >>> links = [("a", "b", 1), ("b", "c", 1), ("c", "a", 5)]
        >>> net = TimedNetwork("abc", links, {"a": "10.0.0.0/8"}, delay=500, publication=100, record=True)
        >>> net.at(1_000_000, Step(StepKind.LINK_DOWN, "a", "b"))
        >>> _ = net.run_until(1_001_000)
        >>> net.computing()
        [Spell(router='b', prefix=IPv4Network('10.0.0.0/8'), begin=1000500, end=None)]

        Raises NoRecord.
        """
        return self._spells(self._library.network_computing)

    def outages(self, start: int = 0) -> List[Spell]:
        """The outages that ended, in the order in which they did: from when until when a router was cut off from a
        prefix. That is, links that were up led from it to a router that was attached to the prefix, and the rows
        that routers had published did not. `start` is as for `computations`.

        >>> net = TimedNetwork("ab", [("a", "b", 5)], {"a": "10.0.0.0/8"}, delay=500, publication=100, record=True)
        >>> _ = net.run_to_rest()
        >>> net.outages()
        [Spell(router='b', prefix=IPv4Network('10.0.0.0/8'), begin=0, end=1200)]

        Raises NoRecord if the network was made without `record=True`.
        """
        return self._spells(self._library.network_outages, number_of("start", start, _LAST))

    def cut_off(self) -> List[Spell]:
        """The outages that go on now, by prefixes and then by routers. At rest there are none.

        >>> net = TimedNetwork("ab", [("a", "b", 5)], {"a": "10.0.0.0/8"}, delay=500, publication=100, record=True)
        >>> _ = net.run_until(700)
        >>> net.cut_off()
        [Spell(router='b', prefix=IPv4Network('10.0.0.0/8'), begin=0, end=None)]

        Raises NoRecord.
        """
        return self._spells(self._library.network_cut_off)

    def _spells(self, call: Callable[..., int], *start: int) -> List[Spell]:
        """The spells that a call writes."""
        found = self._listed(_library.SpellParts, call, *start)
        return [Spell(self._names[parts.router], network_of(parts.addr, parts.len), getattr(parts, "from"),
                      None if parts.to == _LAST else parts.to) for parts in found]

    def _event_of(self, parts: _library.EventParts) -> Optional[Event]:
        """An event of the library, or None where it says that there is none."""
        step = self._step_of(parts.step)
        return None if step is None else Event(parts.moment, step, bool(parts.given))
