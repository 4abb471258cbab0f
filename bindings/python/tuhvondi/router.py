"""One router of a network. You bring it what its links bring, and forward by its rows."""

from __future__ import annotations

import ctypes
import enum
import math
from ctypes import byref, c_size_t, c_uint8, c_uint64
from ipaddress import IPv4Network
from typing import Any, Iterator, Mapping, NamedTuple, Optional, Sequence

from . import _library
from .owner import Owner
from .rows import Distance, Prefix, Row, cost_number, distance_of, network_of, number_of, prefix_parts, row_of
from .status import NothingDue, NothingRipe, UnknownPort, UnknownPrefix, refusal


class MessageKind(enum.IntEnum):
    """What a message asks for.

    - UPDATE: it is news, and needs no answer.
    - QUERY: it is a question: the receiver owes a reply.
    - REPLY: it is the answer to a query.

    >>> MessageKind.QUERY.name
    'QUERY'
    """

    UPDATE = 0
    QUERY = 1
    REPLY = 2


class Message(NamedTuple):
    """A message between two routers: the sender's distance to a prefix.

    `distance` is a sum of costs, or math.inf. `port` is that by which the message leaves or came. `session`
    is the session of the link in which it was sent.

    >>> sent = Message(MessageKind.UPDATE, IPv4Network("10.0.0.0/8"), 7, port=0, session=1)
    >>> sent._replace(port=2)   # the receiver's port
    Message(kind=<MessageKind.UPDATE: 0>, prefix=IPv4Network('10.0.0.0/8'), distance=7, port=2, session=1)
    """

    kind: MessageKind
    prefix: IPv4Network
    distance: Distance
    port: int
    session: int


class RouterCounts(NamedTuple):
    """What a router has.

    - prefixes: how many prefixes it has heard of
    - changed: how many rows a publication would put in force
    - held: how many messages it holds
    - ripe: how many of these may leave
    - generation: how often it published
    - due: whether a publication is due

    >>> Router([1]).counts()
    RouterCounts(prefixes=0, changed=0, held=0, ripe=0, generation=0, due=False)
    """

    prefixes: int
    changed: int
    held: int
    ripe: int
    generation: int
    due: bool


class PrefixState(NamedTuple):
    """What a router knows of a prefix.

    - distance: what it tells its neighbours, a sum of costs or math.inf
    - feasible: its feasible distance
    - attached: the cost of its own attachment, or None
    - chosen, published: the row that it chose, and the one that is in force, or None
    - active: whether a diffusing computation is under way
    - owed: the port to which the computation owes a reply, or None
    - awaited: the ports whose replies the computation awaits

    >>> state = Router([], {"10.0.0.0/8": 5}).state("10.0.0.0/8")
    >>> state.distance, state.attached, state.active, str(state.published)
    (5, 5, False, '10.0.0.0/8 local')
    """

    distance: Distance
    feasible: Distance
    attached: Optional[int]
    chosen: Optional[Row]
    published: Optional[Row]
    active: bool
    owed: Optional[int]
    awaited: tuple[int, ...]


class Publication(NamedTuple):
    """The rows that are in force from now on and were not, in the order of their prefixes.

    `generation` says how often the router has published. If `more` is true there was no room for all rows:
    publish again, and until then no message leaves.

    >>> router = Router([])
    >>> router.attach("10.0.0.0/8")
    >>> [str(row) for row in router.publish().rows]
    ['10.0.0.0/8 local']
    """

    rows: list[Row]
    generation: int
    more: bool


def state_of(parts: _library.PrefixStateParts) -> PrefixState:
    """A state of the library."""
    return PrefixState(
        distance=distance_of(parts.rd),
        feasible=distance_of(parts.fd),
        attached=parts.attached or None,
        chosen=row_of(parts.chosen),
        published=row_of(parts.published),
        active=bool(parts.active),
        owed=None if parts.owed == _library.NO_PORT else parts.owed,
        awaited=tuple(port for port, awaits in enumerate(parts.awaited) if awaits),
    )


def message_of(parts: _library.MessageParts) -> Message:
    """A message of the library."""
    return Message(MessageKind(parts.kind), network_of(parts.addr, parts.len), distance_of(parts.value),
                   parts.port, parts.session)


class Router(Owner):
    """One router that routes by DUAL. Its neighbours are whatever you make them.

    `costs` has the cost of each port's link from here, 1 to 65535: a port for each, at most 32, numbered from
    0. `attachments` has the prefixes to which the router itself is attached, with their costs. The router may
    know `most_prefixes` prefixes. All links are down, and the rows of the attachments are in force.

    Go through these steps, again and again:

    1. Tell the router what happened: `link_up`, `link_down`, `link_cost`, `message`, `attach`, `detach`.
    2. `publish`, and forward by the rows: put them into an `Image`, for example.
    3. Only then `release` messages, and put them on their links. If the link of a message is in another
       session by now, drop the message.

    Two routers with a link, at cost 5 from each:

    >>> near, far = Router([5], {"10.0.0.0/8": 1}), Router([5])
    >>> near.link_up(0, session=1, cost=5)
    >>> far.link_up(0, session=1, cost=5)
    >>> _ = near.publish()
    >>> for message in near.released():   # it leaves near by port 0, and comes to far at port 0
    ...     far.message(message)
    >>> for row in far.publish().rows:
    ...     print(row)
    10.0.0.0/8 via 0 1
    >>> far.state("10.0.0.0/8").distance
    6

    If every router of a network is of this library, and every program keeps the six duties of
    docs/daemons.md, it is proved that no packet meets a router twice. `examples/python/own_loop.py` has an
    event loop with delays.

    Raises TooManyPorts, BadCost, TooManyPrefixes, NoMemory.
    """

    _kind = "router"

    def __init__(self, costs: Sequence[int], attachments: Optional[Mapping[Any, int]] = None,
                 most_prefixes: int = 4096) -> None:
        super().__init__()
        if most_prefixes < 0:
            raise ValueError(f"a router cannot know {most_prefixes} prefixes")
        numbers = [cost_number(cost) for cost in costs]
        ports = (ctypes.c_uint32 * max(1, len(numbers)))(*numbers)
        owned = (attachments or {}).items()
        parts = (_library.AttachmentParts * max(1, len(owned)))()
        for each, (prefix, cost) in zip(parts, owned):
            each.addr, each.len = prefix_parts(prefix)
            each.cost = cost_number(cost)
        self._need(self._library.router_new(ports, len(numbers), parts, len(owned), most_prefixes, self._at))

    @staticmethod
    def _need(status: int) -> None:
        if status:
            raise refusal(status)

    @staticmethod
    def _port(port: int) -> int:
        if not 0 <= port < _library.PORTS:
            raise UnknownPort(str(port))
        return port

    def link_up(self, port: int, session: int, cost: int) -> None:
        """The link of a port came up, in this session, at this cost from here, 1 to 65535.

        The session, 1 to 65535, is the same at both ends, and later than each that the link had before.

        >>> router = Router([1])
        >>> router.link_up(0, session=1, cost=7)
        >>> router.link_up(0, session=2, cost=7)
        Traceback (most recent call last):
        ...
        tuhvondi.status.AlreadyUp: the link is up

        Raises BadCost, UnknownPort, AlreadyUp, OtherSession, NoMemory.
        """
        session = number_of("session", session, 65535)
        self._need(self._library.router_link_up(self._at, self._port(port), session, cost_number(cost)))

    def link_down(self, port: int) -> None:
        """The link of a port went down, with all that was on its way.

        >>> router = Router([1])
        >>> router.link_down(0)
        Traceback (most recent call last):
        ...
        tuhvondi.status.IsDown: the link is down

        Raises UnknownPort, IsDown, NoMemory.
        """
        self._need(self._library.router_link_down(self._at, self._port(port)))

    def link_cost(self, port: int, cost: int) -> None:
        """The cost from here of a port's link is now this, 1 to 65535. The link is up.

        >>> router = Router([1])
        >>> router.link_up(0, 1, cost=7)
        >>> router.link_cost(0, 9)

        Raises BadCost, UnknownPort, IsDown, NoMemory.
        """
        self._need(self._library.router_link_cost(self._at, self._port(port), cost_number(cost)))

    def message(self, message: Message) -> None:
        """A message came to its port.

        >>> router = Router([1])
        >>> router.link_up(0, 1, cost=7)
        >>> net = IPv4Network("10.0.0.0/8")
        >>> router.message(Message(MessageKind.UPDATE, net, 3, port=0, session=1))
        >>> router.state(net).distance
        10
        >>> router.message(Message(MessageKind.REPLY, net, 3, port=0, session=1))
        Traceback (most recent call last):
        ...
        tuhvondi.status.Unasked: it answers what nobody asked

        A message of a session that is over raises OtherSession: go on. What no router sends raises Unasked or
        AskedTwice: end the session of the link. Others: UnknownPort, IsDown, TooManyPrefixes, NoMemory.
        """
        value = _library.INFINITY if message.distance == math.inf else message.distance
        addr, length = prefix_parts(message.prefix)
        parts = _library.MessageParts(
            addr=addr, value=number_of("distance", int(value), _library.INFINITY),
            session=number_of("session", message.session, 65535), len=length,
            kind=MessageKind(message.kind), port=self._port(message.port))
        self._need(self._library.router_message(self._at, byref(parts)))

    def attach(self, prefix: Prefix, cost: int = 1) -> None:
        """The router is attached to a prefix, at this cost, 1 to 65535, from now on.

        >>> router = Router([])
        >>> router.attach("10.0.0.0/8", cost=5)
        >>> router.state("10.0.0.0/8").distance
        5

        Raises BadCost, TooManyPrefixes, NoMemory.
        """
        self._need(self._library.router_attached(self._at, *prefix_parts(prefix), cost_number(cost)))

    def detach(self, prefix: Prefix) -> None:
        """The router is attached to a prefix no more.

        >>> router = Router([], {"10.0.0.0/8": 1})
        >>> router.detach("10.0.0.0/8")
        >>> router.state("10.0.0.0/8").distance
        inf

        Raises NotAttached, NoMemory.
        """
        self._need(self._library.router_detached(self._at, *prefix_parts(prefix)))

    def counts(self) -> RouterCounts:
        """What the router has.

        >>> router = Router([])
        >>> router.attach("10.0.0.0/8")
        >>> router.counts().changed, router.counts().due
        (1, True)
        """
        parts = _library.CountsParts()
        self._need(self._library.router_counts(self._at, byref(parts)))
        return RouterCounts(parts.prefixes, parts.changed, parts.held, parts.ripe, parts.generation,
                            bool(parts.due))

    def __repr__(self) -> str:
        if not self._handle.holds_:
            return "Router, which is closed"
        counts = self.counts()
        return (f"Router of {counts.prefixes:,} prefixes, {counts.changed:,} rows to publish, {counts.held:,} messages held, "
                f"generation {counts.generation}")

    def publish(self, room: Optional[int] = None) -> Optional[Publication]:
        """Puts the rows that the router chose in force, and gives them; None if nothing is due.

        With `room` there are at most so many rows. Forward by these rows before you tell the router anything
        more, and before you `release` messages.

        >>> router = Router([])
        >>> router.attach("10.0.0.0/8")
        >>> router.attach("11.0.0.0/8")
        >>> router.publish(room=1).more, router.publish(room=1).more, router.publish()
        (True, False, None)

        Raises BadCount if room is 0 and there are rows, and GenerationsSpent.
        """
        most = self.counts().changed if room is None else room
        if most < 0:
            raise ValueError(f"there is no room of {most} rows")
        parts = (_library.RowParts * max(1, most))()
        written, more, generation = c_size_t(), c_uint8(), c_uint64()
        status = self._library.router_publish(self._at, parts, most, byref(written), byref(more),
                                              byref(generation))
        if status == NothingDue.number:
            return None
        self._need(status)
        rows = [row for row in map(row_of, parts[:written.value]) if row is not None]
        return Publication(rows, generation.value, bool(more.value))

    def release(self) -> Optional[Message]:
        """Takes the oldest message that may leave, or None if none may.

        It is for the link of its port and session alone. If that session has ended, drop the message.

        >>> router = Router([3], {"10.0.0.0/8": 1})
        >>> router.link_up(0, 1, cost=3)
        >>> router.release() is None   # nothing leaves before the publication
        True
        >>> _ = router.publish()
        >>> router.release().distance
        1
        """
        parts = _library.MessageParts()
        status = self._library.router_release(self._at, byref(parts))
        if status == NothingRipe.number:
            return None
        self._need(status)
        return message_of(parts)

    def released(self) -> Iterator[Message]:
        """Takes all messages that may leave, one by one.

        >>> list(Router([1]).released())
        []
        """
        while True:
            message = self.release()
            if message is None:
                return
            yield message

    def state(self, prefix: Prefix) -> Optional[PrefixState]:
        """What the router knows of a prefix, or None if it has not heard of it.

        >>> Router([]).state("10.0.0.0/8") is None
        True
        """
        parts = _library.PrefixStateParts()
        status = self._library.router_state(self._at, *prefix_parts(prefix), byref(parts))
        if status == UnknownPrefix.number:
            return None
        self._need(status)
        return state_of(parts)

    def rows(self) -> list[Row]:
        """The row that the router chose for each prefix of which it has heard, in the order of the prefixes.

        >>> [str(row) for row in Router([], {"11.0.0.0/8": 1, "10.0.0.0/8": 1}).rows()]
        ['10.0.0.0/8 local', '11.0.0.0/8 local']
        """
        most = self.counts().prefixes
        parts, written = (_library.RowParts * max(1, most))(), c_size_t()
        self._need(self._library.router_rows(self._at, parts, most, byref(written)))
        return [row for row in map(row_of, parts[:written.value]) if row is not None]

    def forget(self, prefix: Prefix) -> None:
        """Forgets a prefix of which the router knows nothing any more. Then take its row out of your table.

        >>> router = Router([], {"10.0.0.0/8": 1})
        >>> router.detach("10.0.0.0/8")
        >>> _ = router.publish()
        >>> router.forget("10.0.0.0/8")
        >>> router.counts().prefixes
        0

        Raises UnknownPrefix, and StillUsed if something is still known.
        """
        self._need(self._library.router_forget(self._at, *prefix_parts(prefix)))
