#!/usr/bin/env python3
"""A plain model of a network of routers that route by DUAL.

    python3 model/model.py [--time] SCENARIO.toml

does the script of a scenario and prints what `dualnet run` prints for it. It shares no code with
the program, and is there to be compared with it: in what it prints, and in how long it takes. It
presumes a scenario without faults, and Python 3.11. It has no `inject` and `drain`: at one of these
it ends with status 1. It does `save` and `restore` as the program does with `--no-journal`. With
`--time` it says on standard error how many steps it did, in how many seconds.
"""

import sys
import time
import tomllib
from collections import Counter
from collections.abc import Iterator
from copy import deepcopy

from model_machine import COST, DOWN, INF, QUERY, REPLY, UPDATE
from model_network import Message, Network, Prefix, Refused, Router, Step, Via, read_addr


class UnknownCommand(Exception):
    """The model has no such command."""


def step_of(network: Network, words: list[str]) -> Step:
    """The step that a command says."""
    match words:
        case ["up", a, b]:
            return network.link_up, network.port(a, b).link
        case ["down", a, b]:
            return network.link_down, network.port(a, b).link
        case ["cost", a, b, cost]:
            return network.set_cost, network.port(a, b), int(cost)
        case ["attach", a, prefix, cost]:
            return network.attach, network.routers[a], Prefix.read(prefix), int(cost)
        case ["detach", a, prefix]:
            return network.detach, network.routers[a], Prefix.read(prefix)
        case ["deliver", a, b] if a == b:
            return network.take_notice, network.routers[a]
        case ["deliver", a, b]:
            return network.deliver, network.routers[a], network.numbers[a, b]
        case ["publish", a]:
            return network.publish, network.routers[a]
        case ["release", a]:
            return network.release, network.routers[a]
    raise UnknownCommand(" ".join(words))


def trace(router: Router, addr: int, through: bool = False) -> tuple[list[str], str]:
    """The routers that a packet meets, while one prefix matches it or through, and how it ends."""
    path: list[str] = []
    first: Prefix | None = None
    while True:
        path.append(router.name)
        row = router.lookup(addr)
        if row is None:
            return path, "no route"
        prefix, entry = row
        if first is not None and prefix != first and not through:
            return path, "crossed"
        if entry == "local":
            return path, "delivered"
        if not isinstance(entry, Via):
            return path, "unreachable"
        if not entry.leads():
            return path, "dead link"
        first, router = prefix, entry.port.other.router


def machine_line(router: Router, prefix: Prefix) -> str:
    machine = router.machines.get(prefix)
    if machine is None:
        return f"{router.name} {prefix} unheard"
    return f"{router.name} {prefix} {machine} {router.control[prefix]}"


def step_words(network: Network, router: Router) -> str:
    """What a router has to do next, as a command."""
    match network.next_step(router):
        case None:
            return "nothing"
        case call, _ if call == network.release:
            return f"release {router.name}"
        case call, _ if call == network.publish:
            return f"publish {router.name}"
        case call, _ if call == network.take_notice:
            return f"deliver {router.name} {router.name}"
        case _, _, number:
            return f"deliver {router.name} {router.ports[number].other.router.name}"
    raise ValueError("no router does this")


def message_words(message: Message, session: int) -> str:
    value = "inf" if message.value == INF else message.value
    return f"{message.kind} {message.prefix} RD {value} session {session}"


def queue(network: Network, name: str, peer: str) -> Iterator[str]:
    """What a router has yet to take from a neighbour, or of its own attachments."""
    if name == peer:
        for prefix, cost in network.routers[name].notices:
            yield f"detached {prefix}" if cost is None else f"attached {prefix} cost {cost}"
        return
    port = network.port(name, peer)
    for item in port.inbox:
        if isinstance(item, Message):
            yield message_words(item, port.link.session)
        else:
            cost = "" if item.kind == DOWN else f" {item.cost}" if item.kind == COST else f" cost {item.cost}"
            yield f"{item.kind}{cost} session {item.session}"


def report(network: Network) -> Iterator[str]:
    for link in network.links:
        a, b = link.ports
        state = f"{'up' if link.up else 'down'} {link.session}"
        costs, queued = f"{a.link_cost} {b.link_cost}", f"{len(a.inbox)} {len(b.inbox)}"
        yield f"link {a.router.name} {b.router.name} {state} {costs} queued {queued}"
    for router in network.routers.values():
        held = f"held {len(router.gate)} ripe {router.ripe}"
        yield f"{router.name} gen {router.generation} {held} attach {len(router.notices)}"
        for prefix in sorted(router.machines):
            yield machine_line(router, prefix)


def put_links(network: Network, name: str, up: bool) -> None:
    """Puts each link of a router up or down that is not, in the order of the links."""
    router = network.routers[name]
    for link in network.links:
        if link.up != up and any(port.router is router for port in link.ports):
            network.do((network.link_up if up else network.link_down, link))


def answers(network: Network, words: list[str]) -> Iterator[str]:
    """Does a command, and gives the lines that it prints."""
    match words:
        case ["settle"]:
            network.settle()
        case ["settle", "--seed", seed]:
            network.settle_drawn(int(seed))
        case ["up", name]:
            put_links(network, name, up=True)
        case ["down", name]:
            put_links(network, name, up=False)
        case ["report"]:
            yield from report(network)
        case ["try", *step]:
            try:
                network.do(step_of(network, step))
                yield "done"
            except Refused as refusal:
                yield f"refused {refusal}"
        case ["state", name, prefix]:
            yield machine_line(network.routers[name], Prefix.read(prefix))
        case ["table", name]:
            for prefix, entry in sorted(network.routers[name].published.items()):
                yield f"{name} {prefix} {entry}"
        case ["next", name]:
            yield f"next {name}: {step_words(network, network.routers[name])}"
        case ["queue", name, peer]:
            for item in queue(network, name, peer):
                yield f"queue {name} from {peer}: {item}"
        case ["held", name]:
            router = network.routers[name]
            for number, held in enumerate(router.gate):
                words = message_words(held.message, held.session)
                ripe = "ripe" if number < router.ripe else "not ripe"
                yield f"held {name} to {held.port.other.router.name}: {words} {ripe}"
        case ["lookup", name, addr]:
            row = network.routers[name].lookup(read_addr(addr))
            yield f"lookup {name} {addr}: " + ("none" if row is None else f"{row[0]} {row[1]}")
        case ["trace", name, addr]:
            path, end = trace(network.routers[name], read_addr(addr))
            yield f"trace {name} {addr}: {' '.join(path)} {end}"
        case ["trace", name, addr, "--through"]:
            path, end = trace(network.routers[name], read_addr(addr), through=True)
            yield f"trace {name} {addr} --through: {' '.join(path)} {end}"
        case _:
            network.do(step_of(network, words))


class Session:
    """A network, the one that was saved, and what was done since the last count."""

    def __init__(self, network: Network) -> None:
        self.network = network
        self.saved: Network | None = None
        self.counted = self.totals()

    def totals(self) -> Counter[str]:
        return Counter(steps=self.network.steps) + self.network.sent

    def answers(self, words: list[str]) -> Iterator[str]:
        """Does a command, and gives the lines that it prints."""
        match words:
            case ["count"]:
                now = self.totals()
                steps, updates, queries, replies = (
                    now[what] - self.counted[what] for what in ["steps", UPDATE, QUERY, REPLY]
                )
                self.counted = now
                yield f"count: {steps} steps, {updates} updates {queries} queries {replies} replies"
            case ["save"]:
                self.saved = deepcopy(self.network)
            case ["restore"]:
                if self.saved is None:
                    raise Refused("55 NothingSaved")
                before = self.totals()
                self.network = deepcopy(self.saved)
                # What is taken back was done all the same.
                for what, total in self.totals().items():
                    self.counted[what] += total
                self.counted.subtract(before)
            case _:
                yield from answers(self.network, words)


def play(session: Session, script: list[str]) -> int:
    """Does a script, and gives the program's status."""
    for position, line in enumerate(script):
        try:
            for answer in session.answers(line.split()):
                print(answer)
        except Refused as refusal:
            print(f"dualnet: {refusal} at script {position}", file=sys.stderr)
            return 2
        except UnknownCommand as command:
            print(f"model.py: it has no command `{command}`", file=sys.stderr)
            return 1
    print(f"done: {session.network.steps} steps")
    return 0


def main(words: list[str]) -> int:
    is_timed = words[:1] == ["--time"]
    if len(words) != 1 + is_timed or words[-1].startswith("-"):
        print("usage: python3 model/model.py [--time] SCENARIO.toml", file=sys.stderr)
        return 2
    try:
        with open(words[-1], "rb") as file:
            scenario = tomllib.load(file)
        network = Network(scenario["routers"], scenario["links"], scenario["prefixes"])
        start = time.perf_counter()
        session = Session(network)
        status = play(session, scenario["script"])
    except OSError as fault:
        print(f"model.py: {fault}", file=sys.stderr)
        return 1
    except (LookupError, TypeError, ValueError) as fault:
        print(f"model.py: it presumes a scenario without faults: {fault!r}", file=sys.stderr)
        return 1
    seconds = time.perf_counter() - start
    if is_timed:
        steps = session.network.steps
        print(f"{steps} steps, {seconds:.2f} s, {steps / seconds:.0f} steps/s", file=sys.stderr)
    return status


if __name__ == "__main__":
    sys.exit(main(sys.argv[1:]))
