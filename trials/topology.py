"""Networks of a trial: routers, links with costs, and who is attached to which prefix."""

import math
import re
import sys
from ipaddress import IPv4Address, IPv4Network
from pathlib import Path
from random import Random
from typing import NamedTuple

ROOT = Path(__file__).resolve().parent.parent
sys.path.insert(0, str(ROOT / "model"))

# What a trial of the daemon takes from model comes from here, since this knows where it is.
from built import built
from networks import Scenario, ups

__all__ = ["ROOT", "Attachment", "Link", "Network", "built", "draw", "is_connected"]

MOST_ROUTERS = 64


class Link(NamedTuple):
    """Two routers, and the cost from each."""

    a: int
    b: int
    cost_a: int
    cost_b: int

    def other(self, router: int) -> int:
        return self.b if router == self.a else self.a


class Attachment(NamedTuple):
    prefix: str
    router: int
    cost: int

    def address(self) -> str:
        """The first address of the prefix after its own."""
        return self.prefix.split("/")[0][:-1] + "1"


class Network(NamedTuple):
    """A topology; routers go by number and link k's ends have addresses of their own."""

    routers: int
    links: list[Link]
    attachments: list[Attachment]

    def covering(self, address: str) -> list[str]:
        """The prefixes that match an address, longest first."""
        nets = {IPv4Network(a.prefix) for a in self.attachments}
        found = [net for net in nets if IPv4Address(address) in net]
        return [str(net) for net in sorted(found, key=lambda net: -net.prefixlen)]

    def scenario(self, costs: dict[tuple[int, int], int]) -> Scenario:
        """The same network for the program, with these costs of each link from each end."""
        links = [f"r{link.a} r{link.b} {costs[k, 0]} {costs[k, 1]}" for k, link in enumerate(self.links)]
        names = [f"r{i}" for i in range(self.routers)]
        prefixes = [f"{a.prefix} r{a.router} {a.cost}" for a in self.attachments]
        states = [f"state {name} {a.prefix}" for name in names for a in self.attachments]
        return Scenario(names, links, prefixes, [*ups(links), "settle", *states])


def pairs(shape: str, routers: int, random: Random) -> list[tuple[int, int]]:
    """The links of a ring, of a square grid, or of a random tree and 7 links more for 10 routers."""
    if shape == "ring":
        return [(i, (i + 1) % routers) for i in range(routers)]
    if shape == "grid":
        side = math.isqrt(routers)
        right = [(i, i + 1) for i in range(routers) if (i + 1) % side]
        return right + [(i, i + side) for i in range(routers - side)]
    tree = [(random.randrange(i), i) for i in range(1, routers)]
    others = [(a, b) for b in range(routers) for a in range(b) if (a, b) not in tree]
    return tree + random.sample(others, min(len(others), routers * 7 // 10))


def draw(topology: str, random: Random, prefixes: int = 0, nested: bool = False) -> Network:
    """A network by its name, as ring6, grid9 or rand20, with costs of 1 to 20.

    Router r is attached to 10.100.r.0/24. Nested: the last router also to 10.100.0.0/20, and the first one to
    10.100.0.0/16. So many prefixes of 172.16.0.0/12 more are shared out among all routers."""
    found = re.fullmatch(r"(ring|grid|rand)(\d+)", topology)
    routers = int(found[2]) if found else 0
    if not found or not 3 <= routers <= MOST_ROUTERS or (found[1] == "grid" and math.isqrt(routers) ** 2 != routers):
        raise ValueError(f"{topology} is no topology: ringN, gridN (N a square) or randN, N from 3 to {MOST_ROUTERS}")
    links = [Link(a, b, random.randint(1, 20), random.randint(1, 20)) for a, b in pairs(found[1], routers, random)]
    attachments = [Attachment(f"10.100.{r}.0/24", r, 1) for r in range(routers)]
    if nested:
        attachments += [Attachment("10.100.0.0/20", routers - 1, 1), Attachment("10.100.0.0/16", 0, 1)]
    first = int(IPv4Address("172.16.0.0"))
    for k in range(prefixes):
        attachments.append(Attachment(f"{IPv4Address(first + (k << 8))}/24", k * routers // prefixes, 1))
    return Network(routers, links, attachments)


def is_connected(network: Network, down: int) -> bool:
    """Whether all routers reach each other without this link."""
    seen, todo = {0}, [0]
    while todo:
        here = todo.pop()
        for k, link in enumerate(network.links):
            if k != down and here in (link.a, link.b) and link.other(here) not in seen:
                seen.add(link.other(here))
                todo.append(link.other(here))
    return len(seen) == network.routers
