"""What happens in a trial: one event at a time, each undone again before the next, or storms of many at once."""

import signal
import time
from dataclasses import dataclass
from random import Random
from typing import Callable

from routers import Daemons, Dualnetd
from topology import is_connected

# What happens to a link; trials/loops says what each is.
LINKS = ("cut", "admin", "onesided", "onecut", "silent", "deaf", "oneway")
# What happens to a router, and what undoes it.
ROUTERS = {"freeze": "thaw", "kill": "restart", "withdraw": "attach"}
KINDS = (*LINKS, *ROUTERS, "blip", "cost")
NFT_KINDS = ("deaf", "oneway")
# What happens to dualnetd alone: a router's line of a neighbour goes, or its kernel refuses routes.
OWN_KINDS = {"remove": "readd", "refuse": "accept"}
COSTS = (1, 5, 20, 60)
BLIP_SECONDS = 0.05
# BIRD compares its routes with the kernel's once a minute.
SETTLE_SECONDS = 70
# In a storm: seconds between events, and until one is undone. Some are near the 0.5 s after which dualnetd takes a
# neighbour for silent, and the 4 s of the others' fast timers.
PAUSES = (0, 0.02, 0.05, 0.1, 0.3, 0.6)
LASTS = {
    "freeze": (0.3, 0.5, 0.6, 1, 3.6, 4, 4.4, 5),
    "kill": (0.05, 0.3, 1, 2, 5),
    "withdraw": (0.02, 0.2, 1, 3),
    # Some for longer than a filter could be kept by time.
    "remove": (0.1, 0.6, 2, 8, 16),
    "refuse": (0.2, 1, 3, 5),
    "deaf": (0.2, 0.5, 0.6, 2, 3.6, 6, 16),
}
LINK_LASTS = (0, 0.05, 0.2, 0.4, 0.5, 0.6, 1, 2, 3.6, 3.9, 4.2, 4.5, 6)

Undo = Callable[[], None]


@dataclass
class Event:
    """An event, when it was, and what became of the packets that were sent between it and the next one: how many were
    lost, and how many came by more hops than there are routers; how many TTLs expired meanwhile; and the seconds for which
    the flow that was hit worst was without delivery, those of the event's router left out."""

    kind: str
    ns: int
    of: str | None = None
    link: int | None = None
    router: int | None = None
    sent: int = 0
    lost: int = 0
    too_many_hops: int = 0
    expired: int = 0
    outage: float = 0.0


class Happenings:
    """Events of these kinds, drawn at random, until a moment of time.monotonic()."""

    def __init__(self, daemons: Daemons, random: Random, kinds: list[str], until: float) -> None:
        self.daemons, self.random, self.kinds, self.until = daemons, random, kinds, until
        self.place, self.network = daemons.place, daemons.network
        self.events: list[Event] = []
        self.down: set[int] = set()
        # By router: what has happened to it, and is not undone yet.
        self.busy: dict[int, str] = {}

    def note(self, kind: str, of: str | None = None, link: int | None = None, router: int | None = None) -> None:
        self.events.append(Event(kind, time.monotonic_ns(), of, link, router))

    def hold(self, seconds: float) -> None:
        time.sleep(max(0.0, min(seconds, self.until - time.monotonic())))

    def settle(self) -> None:
        """Waits until all routers have a route to each prefix of others again."""
        until = min(self.until, time.monotonic() + SETTLE_SECONDS)
        while time.monotonic() < until and any(map(self.place.missing, range(self.network.routers))):
            time.sleep(0.2)

    # ---- single events: each gives what undoes it, if it is not over at once

    def change_link(self, kind: str, link: int) -> Undo:
        end = self.random.randrange(2)
        self.note(kind, link=link)
        self.place.change(kind, link, end, True)
        self.down.add(link)

        def repair() -> None:
            self.note("repair", of=kind, link=link)
            self.place.change(kind, link, end, False)
            self.down.discard(link)

        return repair

    def blip(self, link: int) -> None:
        end = self.random.randrange(2)
        self.note("blip", link=link)
        self.place.change("onesided", link, end, True)
        time.sleep(BLIP_SECONDS)
        self.place.change("onesided", link, end, False)

    def change_cost(self, link: int) -> None:
        end = self.random.randrange(2)
        if self.busy.get(self.network.links[link][end], "withdraw") == "withdraw":
            self.note("cost", link=link)
            self.daemons.cost(link, end, self.random.choice(COSTS))

    def change_router(self, kind: str, router: int) -> Undo:
        daemons = self.daemons
        does: dict[str, Undo] = {
            "freeze": lambda: daemons.tell(router, signal.SIGSTOP),
            "thaw": lambda: daemons.tell(router, signal.SIGCONT),
            "kill": lambda: daemons.kill(router),
            "restart": lambda: daemons.start(router),
            "withdraw": lambda: daemons.withdraw(router),
            "attach": lambda: daemons.attach(router),
        }
        self.note(kind, router=router)
        does[kind]()
        self.busy[router] = kind

        def undo() -> None:
            self.note(ROUTERS[kind], of=kind, router=router)
            does[ROUTERS[kind]]()
            del self.busy[router]

        return undo

    def change_own(self, kind: str, link: int) -> Undo:
        daemons = self.daemons
        assert isinstance(daemons, Dualnetd)
        router = self.network.links[link][self.random.randrange(2)]
        self.note(kind, link=link, router=router)
        if kind == "remove":
            daemons.take_out(router, link)
        else:
            daemons.refuse(router)
            self.busy[router] = kind

        def undo() -> None:
            self.note(OWN_KINDS[kind], of=kind, link=link, router=router)
            if kind == "remove":
                daemons.put_back(router, link)
            else:
                daemons.accept(router)
                del self.busy[router]

        return undo

    # ---- one at a time

    def one_at_a_time(self, count: int) -> None:
        """So many events, those of each kind equally often; no link is taken without which routers cannot meet."""
        spare = [k for k in range(len(self.network.links)) if is_connected(self.network, k)]
        order: list[str] = []
        for _ in range(count):
            order = order or self.random.sample(self.kinds, len(self.kinds))
            kind = order.pop()
            if time.monotonic() + self.daemons.wait(kind) + self.daemons.up > self.until:
                return
            if kind in ROUTERS:
                undo: Undo | None = self.change_router(kind, self.random.randrange(self.network.routers))
            elif kind in LINKS:
                undo = self.change_link(kind, self.random.choice(spare))
            elif kind in OWN_KINDS:
                undo = self.change_own(kind, self.random.choice(spare))
            else:
                undo = None
                (self.blip if kind == "blip" else self.change_cost)(self.random.choice(spare))
            self.hold(self.daemons.wait(kind))
            if undo:
                undo()
                self.hold(self.daemons.up + (2.5 if kind == "kill" else 0))
            self.settle()

    # ---- storms

    def draw(self, kind: str) -> Undo | None:
        """Has an event of this kind happen, if there is still something that it may happen to."""
        link, router = self.random.randrange(len(self.network.links)), self.random.randrange(self.network.routers)
        if kind in ROUTERS:
            same = list(self.busy.values()).count(kind)
            most = 3 if kind == "withdraw" else -(-self.network.routers // 10)
            return self.change_router(kind, router) if router not in self.busy and same < most else None
        if kind in OWN_KINDS:
            free = all(self.busy.get(end, "kill") == "kill" and (kind == "remove" or end not in self.busy)
                       for end in self.network.links[link][:2])
            return self.change_own(kind, link) if free and not self.taken_out(link) else None
        if kind == "cost":
            self.change_cost(link)
        elif link not in self.down and kind == "blip":
            self.blip(link)
        elif link not in self.down and len(self.down) <= len(self.network.links) // 4:
            return self.change_link(kind, link)
        return None

    def taken_out(self, link: int) -> bool:
        """Whether an end of the link has no line of the other."""
        assert isinstance(self.daemons, Dualnetd)
        return any(k == link for _, k in self.daemons.without)

    def storm(self, seconds: float) -> None:
        """Events all the time; what fails comes back, sooner or later, while other things fail."""
        pending: list[tuple[float, Undo]] = []
        until = min(self.until, time.monotonic() + seconds)
        while time.monotonic() < until:
            now = time.monotonic()
            for _, undo in [one for one in pending if one[0] <= now]:
                undo()
            pending = [one for one in pending if one[0] > now]
            kind = self.random.choice(self.kinds)
            if undo := self.draw(kind):
                pending.append((now + self.random.choice(LASTS.get(kind, LINK_LASTS)), undo))
            time.sleep(self.random.choice(PAUSES))
        for _, undo in pending:
            undo()
        time.sleep(6)
