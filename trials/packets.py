"""What became of the packets of a trial: reads what trials/traffic.c wrote."""

import struct
from bisect import bisect_right
from collections import Counter
from pathlib import Path
from typing import Any

from events import Event
from topology import Network

PACKET = struct.Struct("<QQBBBBB3x")
# TTLs that expire within this time of each other are of one loop.
LOOP_GAP_NS = 250_000_000


def count_packets(path: Path, events: list[Event], network: Network, rate: float, ttl: int) -> Counter[str]:
    """Counts each packet for the last event before it was sent: the first of `events` begins before all packets."""
    total: Counter[str] = Counter()
    # A packet that meets no router twice is forwarded by all routers but the first and the last one at most.
    least = ttl - (network.routers - 2)
    times = [event.ns for event in events]
    lost: list[Counter[tuple[int, int]]] = [Counter() for _ in events]
    for sent, _, came, copies, error, source, target in PACKET.iter_unpack(path.read_bytes()):
        at = bisect_right(times, sent) - 1
        event = events[at]
        event.sent += 1
        total["unsent"] += error != 0
        total["twice"] += copies > 1
        if came == 0:
            event.lost += 1
            lost[at][source, target] += 1
        elif came < least:
            event.too_many_hops += 1
    flows = network.routers * (network.routers - 1)
    for event, by_flow in zip(events, lost):
        counted = [count for flow, count in by_flow.items() if event.router not in flow]
        event.outage = round(max(counted, default=0) * flows / rate, 3)
    return total


def count_expired(path: Path, events: list[Event]) -> float:
    """Counts each expired TTL (the kernel's InHdrErrors) for the last event before it: the seconds that the longest loop
    lasted."""
    times = [event.ns for event in events]
    begun = last = longest = 0
    for line in path.read_text().splitlines():
        ns, _, count = map(int, line.split())
        events[bisect_right(times, ns) - 1].expired += count
        begun = ns if ns - last > LOOP_GAP_NS else begun
        last = ns
        longest = max(longest, last - begun)
    return round(longest / 1e9, 2)


def analyse(folder: Path, events: list[Event], network: Network, rate: float, ttl: int) -> dict[str, Any]:
    """Counts all packets for their events, and gives the sums."""
    total = count_packets(folder / "packets", events, network, rate, ttl)
    longest = count_expired(folder / "expired", events)
    sums = {key: sum(getattr(event, key) for event in events) for key in ("sent", "lost", "too_many_hops", "expired")}
    return {
        **sums,
        "unsent": total["unsent"],
        "twice": total["twice"],
        "looped": sums["too_many_hops"] + sums["expired"],
        "longest_loop": longest,
    }
