#!/usr/bin/env python3
"""Writes the scenarios of the benchmark of settling.

    python3 model/networks.py FOLDER

writes grid.toml, line.toml, flap.toml, star.toml, mesh.toml and outage.toml, and each once more with a
`report` at its end, as grid-report.toml and so on.
"""

import sys
from pathlib import Path
from random import Random
from typing import NamedTuple

SEED = 1993
SIDE = 16
ROUTERS = SIDE * SIDE
# A run has a million steps at most, which bounds the prefixes: with all links up at once the grid with
# 64 prefixes would take more than four million, so `grid` settles after each link.
PREFIXES = 64
FLAPPING_PREFIXES = 8
FLAPS = 1000
# A router has 32 ports at most.
LEAVES = 32
LEAF_FLAPS = 16
MESH_ROUTERS = 80
MESH_LINKS = 200
OUTAGE_LEAVES = 16
OUTAGE_PREFIXES = 4096


class Scenario(NamedTuple):
    """The four lists of a scenario."""

    routers: list[str]
    links: list[str]
    prefixes: list[str]
    script: list[str]

    def with_commands(self, *commands: str) -> "Scenario":
        return self._replace(script=[*self.script, *commands])

    def toml(self) -> str:
        """The scenario's text. No line of a scenario has a character that needs an escape."""
        lists = []
        for key, lines in self._asdict().items():
            items = "".join(f'    "{line}",\n' for line in lines)
            lists.append(f"{key} = [\n{items}]\n")
        return "\n".join(lists)


def ups(links: list[str]) -> list[str]:
    """The commands that bring the links up, in their order."""
    return ["up {} {}".format(*link.split()[:2]) for link in links]


def square(count: int) -> Scenario:
    """A square of routers with costs of 1 to 9, not the same both ways, and prefixes spread over it."""
    random = Random(SEED)
    links = []
    for here in range(ROUTERS):
        right, below = here + 1, here + SIDE
        for there in [right] * (right % SIDE != 0) + [below] * (below < ROUTERS):
            links.append(f"r{here} r{there} {random.randint(1, 9)} {random.randint(1, 9)}")
    prefixes = [f"10.0.{k}.0/24 r{k * ROUTERS // count}" for k in range(count)]
    routers = [f"r{k}" for k in range(ROUTERS)]
    return Scenario(routers, links, prefixes, [])


def grid() -> Scenario:
    """The square, which settles after each link."""
    scenario = square(PREFIXES)
    return scenario.with_commands(*[it for up in ups(scenario.links) for it in (up, "settle")])


def line() -> Scenario:
    """A line of routers, with the greatest cost on each link."""
    routers = [f"r{k}" for k in range(ROUTERS)]
    links = [f"r{k} r{k + 1} 65535 65535" for k in range(ROUTERS - 1)]
    last = f"state r{ROUTERS - 1} 10.0.0.0/8"
    return Scenario(routers, links, ["10.0.0.0/8 r0"], [*ups(links), "settle", last])


def flap() -> Scenario:
    """The square, and a link in its middle that goes down and comes up a thousand times."""
    here = ROUTERS // 2 + SIDE // 2
    flaps = [f"down r{here} r{here + 1}", "settle", f"up r{here} r{here + 1}", "settle"] * FLAPS
    scenario = square(FLAPPING_PREFIXES)
    return scenario.with_commands(*ups(scenario.links), "settle", *flaps)


def star() -> Scenario:
    """A hub with as many leaves as it has ports, and prefixes at two leaves each; the leaves go and come."""
    random = Random(SEED)
    routers = ["hub", *[f"leaf{k}" for k in range(LEAVES)]]
    links = [f"hub leaf{k} {random.randint(1, 9)} {random.randint(1, 9)}" for k in range(LEAVES)]
    prefixes = [
        f"10.0.{k}.0/24 leaf{(k + half * LEAVES // 2) % LEAVES}"
        for k in range(PREFIXES)
        for half in range(2)
    ]
    flaps = [
        command
        for k in range(LEAVES)
        for command in (f"down hub leaf{k}", "settle", f"up hub leaf{k}", "settle")
    ] * LEAF_FLAPS
    return Scenario(routers, links, prefixes, [*ups(links), "settle", *flaps])


def mesh() -> Scenario:
    """Routers in a ring with links across it, all of which come up at once."""
    random = Random(SEED)
    pairs = [(k, (k + 1) % MESH_ROUTERS) for k in range(MESH_ROUTERS)]
    while len(pairs) < MESH_LINKS:
        pair = random.randrange(MESH_ROUTERS), random.randrange(MESH_ROUTERS)
        if pair[0] != pair[1] and pair not in pairs and pair[::-1] not in pairs:
            pairs.append(pair)
    links = [f"r{a} r{b} {random.randint(1, 9)} {random.randint(1, 9)}" for a, b in pairs]
    prefixes = [f"10.0.{k}.0/24 r{k}" for k in range(PREFIXES)]
    routers = [f"r{k}" for k in range(MESH_ROUTERS)]
    scenario = Scenario(routers, links, prefixes, ups(links))
    return scenario.with_commands("settle")


def outage() -> Scenario:
    """A hub that is attached to many prefixes, and leaves: all links come up, and all go down at once."""
    leaves = [f"leaf{k}" for k in range(OUTAGE_LEAVES)]
    links = [f"hub {leaf} 1 1" for leaf in leaves]
    prefixes = [f"10.{k // 256}.{k % 256}.0/24 hub" for k in range(OUTAGE_PREFIXES)]
    scenario = Scenario(["hub", *leaves], links, prefixes, [*ups(links), "settle"])
    return scenario.with_commands(*[f"down hub {leaf}" for leaf in leaves], "settle")


SCENARIOS = {"grid": grid, "line": line, "flap": flap, "star": star, "mesh": mesh, "outage": outage}


def main(words: list[str]) -> None:
    folder = Path(words[0])
    for name, make in SCENARIOS.items():
        scenario = make()
        (folder / f"{name}.toml").write_text(scenario.toml())
        (folder / f"{name}-report.toml").write_text(scenario.with_commands("report").toml())


if __name__ == "__main__":
    main(sys.argv[1:])
