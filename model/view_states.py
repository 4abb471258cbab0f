#!/usr/bin/env python3
"""Writes the states of a scenario's run, as the page reads them, by the plain model.

    python3 model/view_states.py [--every E] SCENARIO.toml

One JSON object a line: the opening of the run, then the state at the start, after each E-th step (1)
and after the last, each with only what has changed. It presumes a scenario without faults.
"""

import json
import sys
import tomllib
from collections import Counter
from collections.abc import Iterator
from typing import Any

from model import answers
from model_machine import INF
from model_network import Message, Network, Port, Prefix, Router, Step, Via


def step_text(step: Step) -> str:
    """A step as a script says it."""
    call, *args = step
    match call.__name__, args:
        case ("link_up" | "link_down") as name, [link]:
            a, b = (port.router.name for port in link.ports)
            return f"{name.removeprefix('link_')} {a} {b}"
        case "set_cost", [port, cost]:
            return f"cost {port.router.name} {port.other.router.name} {cost}"
        case "deliver", [router, number]:
            return f"deliver {router.name} {router.ports[number].other.router.name}"
        case "take_notice", [router]:
            return f"deliver {router.name} {router.name}"
        case name, [router, *rest]:
            return " ".join([name, router.name, *map(str, rest)])
    raise ValueError("no step")


class Recorder(Network):
    """A network that writes its states. It looks only at what a step may have touched."""

    def __init__(self, scenario: dict[str, list[str]], every: int = 1) -> None:
        super().__init__(scenario["routers"], scenario["links"], scenario["prefixes"])
        self.every = every
        self.states: list[str] = []
        self.list = list(self.routers.values())
        prefixes = {Prefix.read(line.split()[0]) for line in scenario["prefixes"]}
        self.prefixes = {prefix: number for number, prefix in enumerate(sorted(prefixes))}
        self.router_numbers = {router: number for number, router in enumerate(self.list)}
        self.places = {port: (k, e) for k, link in enumerate(self.links) for e, port in enumerate(link.ports)}
        self.kept: dict[Any, Any] = {}
        self.last = ""
        self.touched_routers = set(self.list)
        self.touched_ports = set(self.places)
        # Since the last state: what was taken of a port's items before its link went down, and whether it did.
        self.taken: Counter[Port] = Counter()
        self.lost: set[Port] = set()
        self.write()

    def do(self, step: Step) -> None:
        call, *args = step
        before = self.touches(call.__name__, args)
        super().do(step)
        self.last = step_text(step)
        self.touched_ports.update(before)
        if call.__name__ == "link_down":
            self.lost.update(before)
        elif call.__name__ == "deliver" and before[0] not in self.lost:
            self.taken[before[0]] += 1
        if self.steps % self.every == 0:
            self.write()

    def touches(self, name: str, args: list[Any]) -> list[Port]:
        """The ports that a step may change; it notes the router."""
        if name in ("link_up", "link_down"):
            return list(args[0].ports)
        if name == "set_cost":
            return [args[0]]
        router = args[0]
        self.touched_routers.add(router)
        if name == "deliver":
            return [router.ports[args[1]]]
        return [router.gate[0].port.other] if name == "release" and router.gate else []

    def finish(self) -> None:
        """Writes the state after the last step, unless it was written."""
        if self.steps % self.every:
            self.write()

    def write(self) -> None:
        state: dict[str, Any] = {"kind": "state", "number": self.steps}
        if self.steps:
            state["step"] = self.last
        routers = sorted(self.touched_routers, key=self.router_numbers.get)
        ports = sorted(self.touched_ports, key=self.places.get)
        parts: dict[str, Any] = {}
        parts["links"] = self.links_changed(sorted({self.places[port][0] for port in ports}))
        parts["routers"] = [record for r in routers for record in self.new("router", r, self.router_record(r))]
        parts["machines"] = [
            record
            for r in routers
            for prefix, machine in sorted(r.machines.items())
            for record in self.new("machine", (r, prefix), self.machine_record(r, prefix, machine))
        ]
        parts["queues"] = [queue for port in ports for queue in self.queue_change(port)]
        state.update((key, part) for key, part in parts.items() if part)
        self.states.append(json.dumps(state, separators=(",", ":")))
        self.touched_routers, self.touched_ports, self.lost = set(), set(), set()
        self.taken.clear()

    def new(self, kind: str, key: Any, record: dict[str, Any]) -> list[dict[str, Any]]:
        """The record, where it is not the one that was written last."""
        if self.kept.get((kind, key)) == record:
            return []
        self.kept[kind, key] = record
        return [record]

    def links_changed(self, numbers: list[int]) -> list[dict[str, Any]]:
        return [record for k in numbers for record in self.new("link", k, self.link_record(k))]

    def link_record(self, number: int) -> dict[str, Any]:
        link = self.links[number]
        costs = [port.link_cost for port in link.ports]
        return {"link": number, "up": link.up, "session": link.session, "costs": costs}

    def router_record(self, router: Router) -> dict[str, Any]:
        return {
            "router": self.router_numbers[router],
            "generation": router.generation,
            "held": len(router.gate),
            "ripe": router.ripe,
            "notices": len(router.notices),
        }

    def machine_record(self, router: Router, prefix: Prefix, machine: Any) -> dict[str, Any]:
        record: dict[str, Any] = {"router": self.router_numbers[router], "prefix": self.prefixes[prefix]}
        record["rd"], record["fd"] = (None if d == INF else d for d in (machine.rd, machine.fd))
        if machine.origin is not None:
            record["active"] = machine.origin
            record["awaits"] = sorted(self.places[router.ports[q]][0] for q in machine.awaited)
        record["chosen"] = self.entry(router.control.get(prefix))
        record["published"] = self.entry(router.published.get(prefix))
        return record

    def entry(self, entry: Any) -> Any:
        return [self.places[entry.port][0], entry.session] if isinstance(entry, Via) else entry

    def queue_change(self, port: Port) -> list[dict[str, Any]]:
        """What became of a queue: some taken, perhaps messages lost, some put."""
        before, now = self.kept.get(("queue", port), []), list(port.inbox)
        self.kept["queue", port] = now
        here = {id(item) for item in now}
        left = [k for k, item in enumerate(before) if id(item) in here]
        taken = min(self.taken[port], len(before))
        kept = [k for k in range(taken, len(before)) if not isinstance(before[k], Message)]
        # Notices that outlived the messages and were taken then count as taken at first.
        if port in self.lost and kept != left:
            taken = left[0] if left else len(before)
        change: dict[str, Any] = {}
        if taken:
            change["take"] = taken
        if len(left) < len(before) - taken:
            change["lose"] = True
        if put := now[len(left):]:
            change["put"] = [self.item(item) for item in put]
        link, end = self.places[port]
        return [{"link": link, "end": end, **change}] if change else []

    def item(self, item: Any) -> list[Any]:
        if isinstance(item, Message):
            return [item.kind, self.prefixes[item.prefix], None if item.value == INF else item.value]
        return [item.kind] if item.kind == "down" else [item.kind, item.cost]

    def opening(self) -> str:
        names = [str(prefix) for prefix in self.prefixes]
        links = [[self.router_numbers[port.router] for port in link.ports] for link in self.links]
        opening = {"kind": "opening", "format": 1, "steps": self.steps, "every": self.every}
        opening |= {"routers": list(self.routers), "links": links, "prefixes": names}
        return json.dumps(opening, separators=(",", ":"))


def lines(scenario: dict[str, list[str]], every: int = 1) -> Iterator[str]:
    """The lines of the states of a scenario."""
    network = Recorder(scenario, every)
    for command in scenario["script"]:
        if command.split()[0] not in ("inject", "drain"):
            for _ in answers(network, command.split()):
                pass
    network.finish()
    yield network.opening()
    yield from network.states


def main(words: list[str]) -> None:
    every = int(words[1]) if words[0] == "--every" else 1
    with open(words[-1], "rb") as file:
        scenario = tomllib.load(file)
    for line in lines(scenario, every):
        print(line)


if __name__ == "__main__":
    main(sys.argv[1:])
