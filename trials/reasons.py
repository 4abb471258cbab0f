"""Why packets came back to a router: what trials/relay.c saw of their ways, beside what trials/noted.c noted of the routers.

A packet that moves while tables change may come back to a router for one of two reasons (docs/daemons.md). That router has
published a better way since; or, while the packet was at a router on its way, the feasible distance there, for the prefix by
which it came, rose and was published. The time on a link counts as time at the router across.

What a daemon publishes is in force some time between the call and the kernel's answer, and what a new process clears some time
before its first session. A router looks a packet up between its coming and its going on, because it may wait there for a link
address. So each of these has an interval, and a packet has a reason if some moments in them give one."""

import struct
from collections import Counter
from collections.abc import Iterator
from ipaddress import IPv4Address
from itertools import groupby
from operator import itemgetter
from pathlib import Path
from typing import Any, NamedTuple

from packets import PACKET
from topology import Network

HOP = struct.Struct("<QQQBBB5x")
INFINITY = 2**32 - 1
VIA = 1
# How far the moments of two processes may be apart.
SLACK_NS = 1_000_000
FOREVER = 2**63
Prefix = tuple[int, int]
Interval = tuple[int, int]


class Change(NamedTuple):
    """Something gets a value at a moment of an interval; `anew`: because a process began anew, or forgot the prefix."""

    begin: int
    end: int
    value: int | None
    anew: bool = False


class Router:
    """What was noted of a router: of each prefix its feasible distance, the one that it has published, and the kind of its row."""

    def __init__(self, path: Path) -> None:
        self.chosen: dict[Prefix, list[Change]] = {}
        self.published: dict[Prefix, list[Change]] = {}
        self.rows: dict[Prefix, list[Change]] = {}
        lines = [line.split() for line in path.read_text(encoding="utf-8").splitlines()] if path.exists() else []
        stands, ups = moments(lines, ("stands", "new")), moments(lines, ("up", "new"))
        for (kind, begun, done, *numbers), stand, up in zip(lines, stands, ups):
            begin, end, prefix = int(begun), int(done), tuple(map(int, numbers[:2]))
            if kind == "chosen":
                self.put(self.chosen, prefix, Change(begin, end, int(numbers[2])))
            elif kind in ("published", "row"):
                self.put(self.published if kind == "published" else self.rows, prefix, Change(begin, stand, int(numbers[2])))
            elif kind == "new":
                for one in list(self.chosen):
                    self.lose(one, begin, up)
            elif kind == "gone":
                self.lose(prefix, begin, end)

    def put(self, changes: dict[Prefix, list[Change]], prefix: Prefix, change: Change) -> None:
        for all_of in self.chosen, self.published:
            all_of.setdefault(prefix, [Change(0, 0, INFINITY)])
        self.rows.setdefault(prefix, [Change(0, 0, None)])
        changes[prefix].append(change)

    def lose(self, prefix: Prefix, begin: int, end: int) -> None:
        for changes, value in (self.chosen, INFINITY), (self.published, INFINITY), (self.rows, None):
            self.put(changes, prefix, Change(begin, end, value, True))

    def matches(self, address: int, when: Interval) -> list[Prefix]:
        """The prefixes by which a packet may have gone on."""
        found = []
        for addr, length in sorted(self.rows, key=lambda prefix: -prefix[1]):
            if (address ^ addr) >> (32 - length):
                continue
            kinds = possible(self.rows[addr, length], when)
            found += [(addr, length)] * (VIA in kinds)
            if None not in kinds:
                break
        return found

    def is_better(self, address: int, left: Interval, back: Interval) -> bool:
        """Whether it has published a better way for a packet since it left, until the hop by which it came back."""
        for prefix in self.matches(address, left):
            if min(possible(self.published[prefix], back)) < max(possible(self.published[prefix], left)):
                return True
            for addr, length in self.rows:
                rows = self.rows[addr, length]
                if (length >= prefix[1] and (addr, length) != prefix and not (address ^ addr) >> (32 - length)
                        and None in possible(rows, left) and set(possible(rows, back)) - {None}):
                    return True
        return False

    def has_risen(self, prefix: Prefix, there: Interval) -> bool:
        """Whether a rise for the prefix was begun and published while a packet was there."""
        rises = list(risen(self.chosen.get(prefix, []), there))
        shown = list(risen(self.published.get(prefix, []), there))
        return any(show.anew or any(rise.begin <= show.end + SLACK_NS for rise in rises) for show in shown)


def moments(lines: list[list[str]], kinds: tuple[str, ...]) -> list[int]:
    """For each line when the next one of these kinds behind it began."""
    found, last = [], FOREVER
    for line in reversed(lines):
        found.append(last)
        last = int(line[1]) if line[0] in kinds else last
    return found[::-1]


def possible(changes: list[Change], when: Interval) -> list[int | None]:
    """The values that there may be at a moment of an interval."""
    ends = [*(change.end for change in changes[1:]), FOREVER]
    begin, end = when[0] - SLACK_NS, when[1] + SLACK_NS
    return [change.value for change, over in zip(changes, ends) if change.begin <= end and begin <= over]


def risen(changes: list[Change], there: Interval) -> Iterator[Change]:
    begin, end = there[0] - SLACK_NS, there[1] + SLACK_NS
    for before, change in zip(changes, changes[1:]):
        if change.value > before.value and change.begin <= end and begin <= change.end:
            yield change


class Way(NamedTuple):
    """The routers that a packet came to, and when each but the last looked it up. If it was lost, it may not have been let in
    there."""

    number: int
    address: int
    routers: list[int]
    looked: list[Interval]
    is_lost: bool


def ways(folder: Path, network: Network) -> Iterator[Way]:
    """The ways of all packets that came to a router again."""
    packets = (folder / "packets").read_bytes()
    homes = [int(IPv4Address(a.address())) for a in network.attachments[: network.routers]]
    for number, hops in groupby(sorted(HOP.iter_unpack((folder / "hops").read_bytes())), itemgetter(0)):
        if number * PACKET.size >= len(packets):
            continue
        at, _, _, copies, _, source, target = PACKET.unpack_from(packets, number * PACKET.size)
        routers, looked = [source], []
        for _, came, left, link, end, _ in hops:
            ends = network.links[link][:2]
            if ends[end] != routers[-1]:
                raise ValueError(f"packet {number} leaves router {ends[end]}, and was at {routers}")
            routers.append(ends[1 - end])
            looked.append((at, came))
            at = left
        if len(set(routers)) < len(routers):
            yield Way(number, homes[target], routers, looked, copies == 0)


def explain(way: Way, notes: list[Router]) -> set[str]:
    """The reasons for which a packet came back, and `unexplained` if it came back once without one."""
    found: set[str] = set()
    last: dict[int, int] = {}
    for back, router in enumerate(way.routers):
        why = set()
        at = last.get(router, back)
        if at < back and notes[router].is_better(way.address, way.looked[at], way.looked[back - 1]):
            why.add("better")
        for k in range(at + 1, back):
            there = way.looked[k - 1][0], way.looked[k][1]
            prefixes = notes[way.routers[k - 1]].matches(way.address, way.looked[k - 1])
            if any(notes[way.routers[k]].has_risen(prefix, there) for prefix in prefixes):
                why.add("rose")
        if at < back and not why:
            why.add("dropped" if way.is_lost and back == len(way.routers) - 1 else "unexplained")
        found |= why
        last[router] = back
    return found


def explained(folder: Path, network: Network) -> dict[str, Any]:
    """How many packets came back, and for which reasons; and which of them for none."""
    notes = [Router(folder / f"r{router}.notes") for router in range(network.routers)]
    counts: Counter[str] = Counter()
    strange = []
    for way in ways(folder, network):
        why = explain(way, notes)
        counts["returned"] += why != {"dropped"}
        counts.update(why)
        if "unexplained" in why:
            strange.append(way._asdict())
    names = "returned", "better", "rose", "dropped", "unexplained"
    return {**{name: counts[name] for name in names}, "strange": strange[:10]}
