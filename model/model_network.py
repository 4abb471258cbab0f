"""Routers, links, and the steps that they do, as the model has them."""

from collections import Counter, deque
from collections.abc import Callable
from itertools import cycle
from typing import Any, NamedTuple

from model_machine import COST, DOWN, INF, ONE, UP, Machine, Send

MAX_SESSION = 65535
MAX_STEPS = 1_000_000

LOCAL, UNREACHABLE = "local", "unreachable"


class Refused(Exception):
    """A step that is not lawful. Its text is the refusal's number and name."""


def read_addr(text: str) -> int:
    return int.from_bytes(bytes(map(int, text.split("."))))


class Prefix(NamedTuple):
    """Prefixes are ordered by address, then by length."""

    addr: int
    length: int

    @classmethod
    def read(cls, text: str) -> "Prefix":
        addr, length = text.split("/")
        return cls(read_addr(addr), int(length))

    def __str__(self) -> str:
        return f"{'.'.join(str(byte) for byte in self.addr.to_bytes(4))}/{self.length}"


class Notice(NamedTuple):
    """What a link tells its ends of itself: UP, DOWN or COST."""

    kind: str
    session: int
    cost: int


class Message(NamedTuple):
    """What a router tells a neighbour: UPDATE, QUERY or REPLY."""

    kind: str
    prefix: Prefix
    value: int


class AttachmentNotice(NamedTuple):
    """What a router is told of its own attachment: its cost, or none where it is gone."""

    prefix: Prefix
    cost: int | None


class Held(NamedTuple):
    """A message in a router's gate, with its port's session at the time it was sent."""

    port: "Port"
    session: int
    message: Message


class Via(NamedTuple):
    """A table's entry that leads over a port, in one session of its link."""

    port: "Port"
    session: int

    def leads(self) -> bool:
        """Whether a packet goes over the link now."""
        return self.port.link.is_up_in(self.session)

    def __str__(self) -> str:
        return f"via {self.port.other.router.name} {self.session}"


Entry = str | Via


class Port:
    """A router's end of a link: as the link has it, and as the router knows it by its notices."""

    def __init__(self, link: "Link", router: "Router", link_cost: int) -> None:
        self.link = link
        self.router = router
        self.link_cost = link_cost
        self.other: Port
        self.inbox: deque[Notice | Message] = deque()
        self.up = False
        self.session = 0
        self.cost = 0

    def put(self, item: Notice | Message) -> None:
        """Puts an item where the router will take it."""
        self.inbox.append(item)
        self.router.is_idle = False


class Link:
    """A link between two routers."""

    def __init__(self, a: "Router", b: "Router", from_a: int, from_b: int) -> None:
        self.ports = Port(self, a, from_a), Port(self, b, from_b)
        self.up = False
        self.session = 0
        for port, other in zip(self.ports, reversed(self.ports)):
            port.other = other
            port.router.ports.append(port)

    def is_up_in(self, session: int) -> bool:
        return self.up and self.session == session


class Router:
    """A router: its machines, the tables of its rows, and the gate that holds what it sends."""

    def __init__(self, name: str, offer: str = ONE, most: int = 8) -> None:
        self.name = name
        self.offer = offer
        self.most = most
        self.ports: list[Port] = []
        self.machines: dict[Prefix, Machine] = {}
        self.control: dict[Prefix, Entry] = {}
        self.published: dict[Prefix, Entry] = {}
        self.changed: set[Prefix] = set()
        # The next hops beside the rows: those offered, those published, and where they differ.
        self.offered: dict[Prefix, list[Via]] = {}
        self.hops: dict[Prefix, list[Via]] = {}
        self.changed_hops: set[Prefix] = set()
        # The costs at which it is attached, and the notices of them that it has yet to take.
        self.attachments: dict[Prefix, int] = {}
        self.notices: deque[AttachmentNotice] = deque()
        self.gate: deque[Held] = deque()
        self.ripe = 0
        self.generation = 0
        self.is_idle = False

    def open_attached(self, prefix: Prefix, cost: int) -> None:
        """Is attached to a prefix from the start. Its ports have to be there."""
        self.attachments[prefix] = cost
        self.machines[prefix] = Machine(self.ports, cost)
        self.control[prefix] = self.published[prefix] = LOCAL
        self.hops[prefix] = []

    def is_due(self) -> bool:
        return bool(self.changed or self.changed_hops) or self.ripe < len(self.gate)

    def accept(self, number: int, item: Notice | Message) -> None:
        """Takes an item from a port."""
        if isinstance(item, Message):
            machine = self._machine(item.prefix)
            self._send(item.prefix, machine.meet(item.kind, number, item.value))
            return
        port = self.ports[number]
        if item.kind == DOWN:
            port.up = False
        else:
            port.up, port.session, port.cost = True, item.session, item.cost
        for prefix in sorted(self.machines):
            self._send(prefix, self.machines[prefix].meet(item.kind, number, INF))

    def accept_notice(self) -> None:
        """Takes the oldest notice of its attachments."""
        prefix, cost = self.notices.popleft()
        self._send(prefix, self._machine(prefix).notice(cost))

    def _machine(self, prefix: Prefix) -> Machine:
        if prefix not in self.machines:
            self.machines[prefix] = Machine(self.ports, None)
        return self.machines[prefix]

    def _send(self, prefix: Prefix, sends: list[Send]) -> None:
        """Holds what a machine sends, and chooses its row anew."""
        for to, what, distance in sends:
            port = self.ports[to]
            self.gate.append(Held(port, port.session, Message(what, prefix, distance)))
        entry = self._entry(self.machines[prefix])
        self.control[prefix] = entry
        if entry == self.published.get(prefix):
            self.changed.discard(prefix)
        else:
            self.changed.add(prefix)
        ports = self.machines[prefix].offered(self.offer, self.most)
        self.offered[prefix] = [Via(self.ports[q], self.ports[q].session) for q in ports]
        if self.offer == ONE or self.offered[prefix] == self.hops.get(prefix):
            self.changed_hops.discard(prefix)
        else:
            self.changed_hops.add(prefix)

    def _entry(self, machine: Machine) -> Entry:
        if machine.successor is None:
            return UNREACHABLE
        if machine.is_local():
            return LOCAL
        port = self.ports[machine.successor]
        return Via(port, port.session)

    def publish(self) -> None:
        for prefix in self.changed:
            self.published[prefix] = self.control[prefix]
        self.changed.clear()
        for prefix in self.changed_hops:
            self.hops[prefix] = self.offered[prefix]
        self.changed_hops.clear()
        self.ripe = len(self.gate)
        self.generation += 1

    def lookup(self, addr: int) -> tuple[Prefix, Entry] | None:
        """The longest match over the published rows."""
        for length in range(32, -1, -1):
            prefix = Prefix(addr >> (32 - length) << (32 - length), length)
            if prefix in self.published:
                return prefix, self.published[prefix]
        return None


Step = tuple[Callable[..., None], *tuple[Any, ...]]


class Network:
    """Routers and links, and the steps that they do."""

    def __init__(
        self, routers: list[str], links: list[str], prefixes: list[str], offer: str = ONE, most: int = 8
    ) -> None:
        self.steps = 0
        # How many messages of each kind were put on links.
        self.sent: Counter[str] = Counter()
        self.routers = {name: Router(name, offer, most) for name in routers}
        self.links: list[Link] = []
        # The number of a router's port, by the names of the router and of the other end.
        self.numbers: dict[tuple[str, str], int] = {}
        for line in links:
            a, b, from_a, from_b = line.split()
            ends = self.routers[a], self.routers[b]
            self.numbers[a, b], self.numbers[b, a] = (len(end.ports) for end in ends)
            self.links.append(Link(*ends, int(from_a), int(from_b)))
        for line in prefixes:
            prefix, router, *cost = line.split()
            self.routers[router].open_attached(Prefix.read(prefix), int(cost[0]) if cost else 1)

    def port(self, name: str, peer: str) -> Port:
        return self.routers[name].ports[self.numbers[name, peer]]

    def link_up(self, link: Link) -> None:
        if link.up:
            raise Refused("13 AlreadyUp")
        if link.session == MAX_SESSION:
            raise Refused("15 SessionsSpent")
        link.up = True
        link.session += 1
        for port in link.ports:
            port.put(Notice(UP, link.session, port.link_cost))

    def link_down(self, link: Link) -> None:
        if not link.up:
            raise Refused("14 IsDown")
        link.up = False
        for port in link.ports:
            port.inbox = deque(item for item in port.inbox if isinstance(item, Notice))
            port.put(Notice(DOWN, link.session, 0))

    def set_cost(self, port: Port, cost: int) -> None:
        if not port.link.up:
            raise Refused("14 IsDown")
        port.link_cost = cost
        port.put(Notice(COST, port.link.session, cost))

    def attach(self, router: Router, prefix: Prefix, cost: int) -> None:
        router.attachments[prefix] = cost
        self._tell(router, AttachmentNotice(prefix, cost))

    def detach(self, router: Router, prefix: Prefix) -> None:
        if prefix not in router.attachments:
            raise Refused("29 NotAttached")
        del router.attachments[prefix]
        self._tell(router, AttachmentNotice(prefix, None))

    def _tell(self, router: Router, notice: AttachmentNotice) -> None:
        router.notices.append(notice)
        router.is_idle = False

    def take_notice(self, router: Router) -> None:
        if not router.notices:
            raise Refused("16 NothingToDeliver")
        router.accept_notice()

    def deliver(self, router: Router, number: int) -> None:
        inbox = router.ports[number].inbox
        if not inbox:
            raise Refused("16 NothingToDeliver")
        router.accept(number, inbox.popleft())

    def publish(self, router: Router) -> None:
        if not router.is_due():
            raise Refused("17 NothingDue")
        router.publish()

    def may_release(self, router: Router) -> bool:
        return router.ripe > 0

    def release(self, router: Router) -> None:
        if not self.may_release(router):
            raise Refused("18 NothingRipe")
        held = router.gate.popleft()
        router.ripe = max(0, router.ripe - 1)
        if held.port.link.is_up_in(held.session):
            held.port.other.put(held.message)
            self.sent[held.message.kind] += 1

    def do(self, step: Step) -> None:
        if self.steps == MAX_STEPS:
            raise Refused("19 JournalFull")
        call, *args = step
        call(*args)
        self.steps += 1

    def next_step(self, router: Router) -> Step | None:
        """What a router does in its turn."""
        if self.may_release(router):
            return self.release, router
        if router.is_due():
            return self.publish, router
        for number, port in enumerate(router.ports):
            if port.inbox:
                return self.deliver, router, number
        if router.notices:
            return self.take_notice, router
        return None

    def settle_drawn(self, seed: int) -> None:
        """The same, but after each turn a router is drawn, and the first from it on that has
        something to do is next: by xorshift of 64 bits (Marsaglia 2003), of which the highest 16
        count."""
        routers = list(self.routers.values())
        state = seed or 2**64 - 1
        while any(self.next_step(router) for router in routers):
            state ^= state << 13 & 2**64 - 1
            state ^= state >> 7
            state ^= state << 17 & 2**64 - 1
            first = (state >> 48) % len(routers)
            self.do(next(filter(None, map(self.next_step, routers[first:] + routers[:first]))))

    def settle(self) -> None:
        """Turns of all routers, until none has anything to do. One without work is idle until an
        item comes."""
        idle = 0
        for router in cycle(self.routers.values()):
            step = None if router.is_idle else self.next_step(router)
            if step is not None:
                self.do(step)
                idle = 0
                continue
            router.is_idle = True
            idle += 1
            if idle == len(self.routers):
                return
