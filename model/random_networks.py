#!/usr/bin/env python3
"""Writes a random scenario: a small network and a script of 200 commands.

    python3 model/random_networks.py SEED > SCENARIO.toml

The same seed gives the same scenario. Each step is tried, so that none of them ends the run.
"""

import sys
from ipaddress import IPv4Network
from random import Random

from model import Session
from model_network import Network
from networks import Scenario, ups

COMMANDS = 200


def random_links(random: Random, routers: list[str]) -> list[str]:
    """A tree that joins all routers, and some links more. Small costs make equal sums likely."""
    pairs = [(random.choice(routers[:k]), routers[k]) for k in range(1, len(routers))]
    for a in routers:
        for b in routers:
            if a < b and (a, b) not in pairs and (b, a) not in pairs and random.random() < 0.3:
                pairs.append((a, b))
    random.shuffle(pairs)
    most = random.choice([1, 3, 10, 65535])
    return [f"{a} {b} {random.randint(1, most)} {random.randint(1, most)}" for a, b in pairs]


def random_prefixes(random: Random, routers: list[str]) -> list[IPv4Network]:
    """Distinct prefixes, many of them inside another."""
    prefixes = [IPv4Network("10.0.0.0/8")]
    for _ in range(random.randint(0, 5)):
        outer = random.choice(prefixes)
        length = min(32, outer.prefixlen + random.randint(0, 12))
        inside = int(outer.network_address) + random.getrandbits(32 - outer.prefixlen)
        prefix = IPv4Network((inside, length), strict=False)
        if prefix not in prefixes:
            prefixes.append(prefix)
    if random.random() < 0.3:
        prefixes.append(IPv4Network("0.0.0.0/0"))
    random.shuffle(prefixes)
    return prefixes


def random_attachments(random: Random, routers: list[str], prefixes: list[IPv4Network]) -> list[str]:
    """Each prefix at one to three routers; a line without a cost says 1."""
    lines = []
    for prefix in prefixes:
        for router in random.sample(routers, random.choice([1, 1, 2, 3])):
            lines.append(f"{prefix} {router}{random.choice(['', ' 1', ' 2', ' 7'])}")
    random.shuffle(lines)
    return lines


# How often which commands are drawn, and those of a session besides.
COMMANDS_OF_NETWORKS = {
    "try": 80, "settle": 2, "state": 6, "table": 3, "next": 3, "queue": 3, "held": 3, "lookup": 3, "trace": 6,
    "report": 1,
}  # fmt: skip
COMMANDS_OF_SESSIONS = COMMANDS_OF_NETWORKS | {"drawn": 1, "count": 2, "up": 1, "down": 1}


class Script:
    """Random commands. The model does each of them, so that most of the steps tried are lawful."""

    def __init__(
        self,
        random: Random,
        network: Network,
        prefixes: list[IPv4Network],
        weights: dict[str, int] = COMMANDS_OF_NETWORKS,
    ) -> None:
        self.random = random
        self.weights = weights
        self.network = network
        self.session = Session(network)
        self.prefixes = prefixes
        self.commands: list[str] = []

    def add(self, command: str) -> None:
        self.commands.append(command)
        for _ in self.session.answers(command.split()):
            pass

    def router(self) -> str:
        return self.random.choice(list(self.network.routers))

    def ends(self) -> str:
        """The two ends of a link, in either order."""
        ports = self.random.choice(self.network.links).ports
        names = [port.router.name for port in ports]
        return " ".join(self.random.sample(names, 2))

    def addr(self) -> str:
        """An address, most often one of a prefix."""
        prefix = self.random.choice([*self.prefixes, IPv4Network("0.0.0.0/0")])
        return str(prefix[self.random.getrandbits(32 - prefix.prefixlen)])

    def lawful_steps(self) -> list[str]:
        """What routers can do now."""
        steps = []
        for name, router in self.network.routers.items():
            steps += [f"release {name}"] * (router.ripe > 0)
            steps += [f"publish {name}"] * router.is_due()
            for port in router.ports:
                steps += [f"deliver {name} {port.other.router.name}"] * (len(port.inbox) > 0)
            steps += [f"deliver {name} {name}"] * (len(router.notices) > 0)
        return steps

    def step(self) -> str:
        lawful = self.lawful_steps()
        if lawful and self.random.random() < 0.75:
            return self.random.choice(lawful)
        kinds = ["up", "down", "cost", "attach", "detach", "deliver", "publish", "release"]
        kind = self.random.choice(kinds)
        match kind:
            case "publish" | "release":
                return f"{kind} {self.router()}"
            case "attach":
                cost = self.random.choice([1, 2, 5, 20, 65535])
                return f"attach {self.router()} {self.random.choice(self.prefixes)} {cost}"
            case "detach":
                return f"detach {self.router()} {self.random.choice(self.prefixes)}"
            case "cost":
                return f"cost {self.ends()} {self.random.choice([1, 2, 5, 20, 65535])}"
            case _:
                return f"{kind} {self.ends()}"

    def command(self) -> str:
        kind = self.random.choices(list(self.weights), list(self.weights.values()))[0]
        match kind:
            case "try":
                return f"try {self.step()}"
            case "drawn":
                return f"settle --seed {self.random.getrandbits(32)}"
            case "state":
                return f"state {self.router()} {self.random.choice(self.prefixes)}"
            case "table" | "next" | "held" | "up" | "down":
                return f"{kind} {self.router()}"
            case "queue":
                name = self.router()
                return f"queue {self.random.choice([self.ends(), f'{name} {name}'])}"
            case "lookup":
                return f"lookup {self.router()} {self.addr()}"
            case "trace":
                return f"trace {self.router()} {self.addr()}{self.random.choice(['', ' --through'])}"
            case _:
                return kind


def random_scenario(seed: int, weights: dict[str, int] = COMMANDS_OF_NETWORKS) -> Scenario:
    random = Random(seed)
    routers = [f"r{k}" for k in range(random.randint(3, 8))]
    links = random_links(random, routers)
    prefixes = random_prefixes(random, routers)
    attachments = random_attachments(random, routers, prefixes)
    script = Script(random, Network(routers, links, attachments), prefixes, weights)
    for up in ups(links):
        if random.random() < 0.8:
            script.add(up)
    if random.random() < 0.7:
        script.add("settle")
    while len(script.commands) < COMMANDS - 2:
        script.add(script.command())
    return Scenario(routers, links, attachments, [*script.commands, "settle", "report"])


def main(words: list[str]) -> None:
    print(random_scenario(int(words[0]), COMMANDS_OF_SESSIONS).toml(), end="")


if __name__ == "__main__":
    main(sys.argv[1:])
