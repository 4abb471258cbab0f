"""The DUAL machine of one router for one prefix, as the model has it."""

from collections.abc import Sequence
from typing import Protocol

INF = 4294967295

UP, DOWN, COST = "up", "down", "cost"
ATTACHED, DETACHED = "attached", "detached"
UPDATE, QUERY, REPLY = "update", "query", "reply"

# Which next hops a router offers beside its rows: none, feasible ones at the least distance, or all feasible ones.
ONE, EQUAL, FEASIBLE = "one", "equal", "feasible"

# A port, the kind of the message that is sent there, and its distance.
Send = tuple[int, str, int]


class Neighbour(Protocol):
    """A port as its router knows it: whether its link is up, and the link's cost from here."""

    up: bool
    cost: int


class Machine:
    """One router's DUAL machine for one prefix. All machines of a router look at its ports.

    The router's own attachment is one way more, numbered by how many ports there are: it reports 0,
    and is neither sent to nor awaited."""

    def __init__(self, ports: Sequence[Neighbour], attachment: int | None) -> None:
        self.ports = ports
        self.attachment = attachment
        self.values = [INF] * len(ports)
        self.rd = self.fd = INF if attachment is None else attachment
        self.successor = None if attachment is None else len(ports)
        # The computation under way: none where the origin state is none. Its distance is `rd`.
        self.origin: int | None = None
        self.awaited: set[int] = set()
        self.debt: int | None = None

    def meet(self, kind: str, port: int, value: int = INF) -> list[Send]:
        """Meets an event of a port that shows it already, and answers what is sent, in order."""
        if kind in (UPDATE, QUERY, REPLY, UP):
            self.values[port] = value
        if kind == UP:
            return [(port, UPDATE, self.rd)] if self.rd < INF else []
        return self._decide(kind, port, kind == DOWN and port == self.successor)

    def notice(self, attachment: int | None) -> list[Send]:
        """Meets a notice of the attachment: its cost, or that it is gone."""
        self.attachment = attachment
        lost = attachment is None and self.is_local()
        return self._decide(DETACHED if attachment is None else ATTACHED, len(self.ports), lost)

    def is_local(self) -> bool:
        return self.successor == len(self.ports)

    def may_forward(self, port: int) -> bool:
        """Whether packets may go over a port: the neighbour there reported less than the feasible distance, and is in reach."""
        return self.ports[port].up and self.values[port] < self.fd and self._sum(port) < INF

    def offered(self, offer: str, most: int) -> list[int]:
        """The ports that it offers: the nearest first, of equal ones the successor, and then the lower port."""
        ports = [] if offer == ONE or self.is_local() else [q for q in range(len(self.ports)) if self.may_forward(q)]
        if offer == EQUAL:
            least = self._choice()[1]
            ports = [q for q in ports if self._sum(q) == least]
        return sorted(ports, key=lambda q: (self._sum(q), q != self.successor, q))[:most]

    def _decide(self, kind: str, port: int, lost: bool) -> list[Send]:
        if lost:
            self.successor = None
        if self.origin is None:
            return self._meet_passive(port if kind == QUERY else None)
        return self._meet_active(kind, port, lost)

    def _meet_passive(self, asker: int | None) -> list[Send]:
        holds, least, successor = self._choice()
        if holds:
            return self._choose(least, successor, asker)
        if asker is None:
            return self._begin(1, None)
        if asker == self.successor:
            return self._begin(3, asker)
        queries = self._begin(1, None)
        return [(asker, REPLY, self.rd), *queries]

    def _meet_active(self, kind: str, port: int, lost: bool) -> list[Send]:
        sends: list[Send] = []
        if kind in (REPLY, DOWN):
            self.awaited.discard(port)
        if lost:
            self.origin, self.debt = 0, None
        elif kind == QUERY and port == self.successor:
            self.origin, self.debt = 2, port
        elif self._by_successor() > self.rd:
            self.origin = {1: 0, 0: 0, 3: 2, 2: 2}[self.origin]
        if kind == QUERY and port != self.successor:
            sends.append((port, REPLY, self.rd))
        return sends if self.awaited else sends + self._complete()

    def _begin(self, origin: int, debt: int | None) -> list[Send]:
        """Begins a computation."""
        self.origin, self.debt = origin, debt
        self.rd = self._by_successor()
        asked = [q for q, port in enumerate(self.ports) if port.up]
        self.awaited = set(asked)
        return [(q, QUERY, self.rd) for q in asked] if asked else self._complete()

    def _complete(self) -> list[Send]:
        """Ends a computation. In the origin states 1 and 3 the condition always holds."""
        self.fd = self.rd
        holds, least, successor = self._choice()
        if not holds:
            return self._begin({0: 1, 2: 3}[self.origin], self.debt)
        asker, self.origin, self.debt = self.debt, None, None
        return self._choose(least, successor, asker)

    def _choose(self, least: int, successor: int | None, asker: int | None) -> list[Send]:
        """Is passive by this successor. The asker gets a reply, the others hear of a change."""
        changed = least != self.rd
        self.successor, self.rd, self.fd = successor, least, min(self.fd, least)
        sends = [] if asker is None else [(asker, REPLY, least)]
        if changed:
            for q, port in enumerate(self.ports):
                if port.up and q != asker:
                    sends.append((q, UPDATE, least))
        return sends

    def _choice(self) -> tuple[bool, int, int | None]:
        """Whether the condition holds, the least sum, and the successor to choose."""
        sums = [(self._sum(q), q) for q, port in enumerate(self.ports) if port.up]
        if self.attachment is not None:
            sums.append((self.attachment, len(self.ports)))
        least = min(sums)[0] if sums else INF
        if least == INF:
            return self.fd == INF, INF, None
        feasible = [q for total, q in sums if total == least and self._reported(q) < self.fd]
        if not feasible:
            return False, least, None
        return True, least, self.successor if self.successor in feasible else feasible[0]

    def _reported(self, way: int) -> int:
        return self.values[way] if way < len(self.ports) else 0

    def _sum(self, port: int) -> int:
        return min(self.values[port] + self.ports[port].cost, INF)

    def _by_successor(self) -> int:
        if self.successor is None:
            return INF
        if self.is_local():
            return INF if self.attachment is None else self.attachment
        return self._sum(self.successor)

    def __str__(self) -> str:
        mode = "passive" if self.origin is None else f"active {self.origin}"
        rd, fd = ("inf" if d == INF else d for d in (self.rd, self.fd))
        return f"{mode} RD {rd} FD {fd}"
