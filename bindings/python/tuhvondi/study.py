"""Studies: each link or router of a network fails alone, from one settled state.

>>> from tuhvondi import Network, TimedNetwork, study
>>> net = Network("abcd", [("a", "b", 1), ("b", "c", 1), ("c", "d", 1), ("d", "a", 1)])
>>> _ = net.settle()
>>> outcomes = study.run(net, study.failures(net, "each-link"))
>>> [outcome.failed for outcome in outcomes]
['a - b', 'b - c', 'c - d', 'd - a']
>>> sum(outcome.cut for outcome in outcomes)   # a ring has another way round
0

`python3 -m tuhvondi study FILE` does that with a file of GraphML.

There is no clock: time is counted in *rounds*. In a round each router has one turn, and does one step: it
takes an item, publishes, or puts a message on its link.

By time, and beside two protocols that you know, is another study (`--timed`):

>>> links = [("a", "b", 1), ("b", "c", 1), ("c", "d", 1), ("d", "a", 1)]
>>> net = TimedNetwork("abcd", links, {"a": "10.0.0.0/8"}, delay=500, publication=100, record=True)
>>> _ = net.run_to_rest()
>>> for outcome in study.run_timed(net, [("a", "b")]):
...     print(outcome.protocol, outcome.rest, outcome.lost, outcome.looped, outcome.messages)
DUAL 2300 3000 0 3
distance vector 1800 3000 0 3
link state 2100 2200 2 6

No loops is not no loss. A router that runs DUAL and has no feasible neighbour has no way until all have replied. The
others take a way at once, over which packets may circle meanwhile.
"""

from __future__ import annotations

import argparse
import collections
import csv
import gc
import json
import math
import multiprocessing
import multiprocessing.connection
import os
import random
import statistics
import sys
from ctypes import byref, c_size_t, c_uint8, c_uint16, c_uint32
from typing import (Any, Callable, Dict, Iterable, Iterator, List, NamedTuple, Optional, Sequence, Set, TextIO, Tuple,
                    Union)

from . import _library, baselines, graphs
from .network import Attachments, End, ItemKind, Name, Network, StepKind, Whole, default_attachments
from .rows import network_of
from .status import IsDown, Refused
from .timed import TimedNetwork

__all__ = ["Outcome", "TimedOutcome", "failures", "start", "watch", "run", "run_timed", "write_csv", "write_json",
           "summary", "plot"]

# What fails: a router, or the two ends of a link.
Failure = Tuple[Name, ...]
# What the plots show: a measure, and what is written below it; of a study without a clock, and of one by time.
PLOTS = {
    "messages": "messages",
    "rounds": "rounds to rest",
    "active_routers": "active routers",
    "outage_most": "longest outage, in rounds",
}
TIMED_PLOTS = {
    "messages": "messages",
    "rest": "µs to rest",
    "back": "µs until the last flow is back",
    "lost": "lost flow-µs",
}


class Outcome(NamedTuple):
    """What came of a failure. A *flow* is a router and a prefix: its packets go from the router to the first
    address of the prefix.

    - failed: the names of the link's ends, or of the router
    - rounds: how many rounds it took until nothing was left to do; in a round each router has one turn
    - steps, updates, queries, replies, messages: how many there were, the steps of the failure itself
      included
    - active_routers: in how many routers a diffusing computation was under way
    - computations: for how many routers and prefixes one was
    - interrupted: how many flows had no way for a time
    - interrupted_at_once: how many of these at once
    - outage_mean, outage_most: for how many rounds an interrupted flow had none
    - cut: how many flows have no way any more

    >>> Outcome._fields[:3]
    ('failed', 'rounds', 'steps')
    """

    failed: str
    rounds: int
    steps: int
    updates: int
    queries: int
    replies: int
    messages: int
    active_routers: int
    computations: int
    interrupted: int
    interrupted_at_once: int
    outage_mean: float
    outage_most: int
    cut: int


class TimedOutcome(NamedTuple):
    """What came of a failure by one protocol. A *flow* is a router and a prefix, and it has an outage while links lead
    there and rows do not.

    - failed: the names of the link's ends, or of the router
    - protocol: "DUAL", "distance vector" or "link state"
    - rest: how many microseconds it took until nothing was left to do
    - back: how many until the last outage ended
    - lost: how long the outages were, all together
    - flows: how many flows had one
    - looped: the packets of how many flows circled at some moment; with DUAL it is proved that none do
    - messages: how many there were

    >>> TimedOutcome._fields[:3]
    ('failed', 'protocol', 'rest')
    """

    failed: str
    protocol: str
    rest: int
    back: int
    lost: int
    flows: int
    looped: int
    messages: int


AnyOutcome = Union[Outcome, TimedOutcome]


class _Flows:
    """Which flows have a way, and since when others have none. Flows that have none at the beginning do not
    count.
    """

    def __init__(self, network: Network) -> None:
        self._at, self._trace = network._at, network._library.network_trace
        self._count = len(network.routers)
        self._hops, self._passed, self._end = (c_uint16 * self._count)(), c_size_t(), c_uint8()
        nets = [network_of(*prefix) for prefix in network._prefixes]
        self._addrs = [int(net.network_address) for net in nets]
        # For each prefix those to which its rows can lead.
        self._led = [[to for to, other in enumerate(nets) if other.network_address in net] for net in nets]
        # By prefix and router, whether packets arrive: at the beginning, and now.
        self._began = [[self._arrives(router, to) for router in range(self._count)] for to in range(len(nets))]
        self._now = [list(each) for each in self._began]
        self._lost: Set[Tuple[int, int]] = set()
        # When a flow lost its way (true) or had one again: the round, and the flow.
        self._changes: List[Tuple[int, bool, Tuple[int, int]]] = []

    def _arrives(self, router: int, to: int) -> bool:
        self._trace(self._at, router, self._addrs[to], self._hops, self._count, byref(self._passed),
                    byref(self._end))
        return self._end.value == End.DELIVERED

    def look(self, round_: int, prefixes: Iterable[int], changed: Sequence[int]) -> None:
        """Looks at the flows to which rows of these prefixes can lead, after these routers have changed their
        rows, or links of theirs have failed.

        If packets of each changed router arrive as before, or are lost as before, so are those of all others.
        For a packet either passes no changed router, or shares the end of the first that it passes.
        """
        for to in {to for prefix in prefixes for to in self._led[prefix]}:
            if all(self._arrives(router, to) == self._now[to][router] for router in changed):
                continue
            for router, began in enumerate(self._began[to]):
                arrives = self._arrives(router, to)
                if began and arrives != self._now[to][router]:
                    (self._lost.discard if arrives else self._lost.add)((router, to))
                    self._changes.append((round_, not arrives, (router, to)))
                self._now[to][router] = arrives

    def measures(self) -> Dict[str, Any]:
        """What an Outcome says of flows."""
        begun: Dict[Tuple[int, int], int] = {}
        outages: Dict[Tuple[int, int], int] = collections.Counter()
        most = 0
        for round_, is_lost, flow in self._changes:
            if flow in self._lost:
                continue
            if is_lost:
                begun[flow] = round_
                most = max(most, len(begun))
            else:
                outages[flow] += round_ - begun.pop(flow)
        return {
            "interrupted": len(outages), "interrupted_at_once": most,
            "outage_mean": round(statistics.mean(outages.values()), 3) if outages else 0.0,
            "outage_most": max(outages.values(), default=0), "cut": len(self._lost),
        }


class _Turns:
    """Lets routers take turns, and keeps who was active."""

    def __init__(self, network: Network, seed: int) -> None:
        self._network, self._at, self._library = network, network._at, network._library
        self._draw = random.Random(seed) if seed else None
        self._order = list(range(len(network.routers)))
        self._prefixes = network._prefixes
        self._numbers = {prefix: number for number, prefix in enumerate(self._prefixes)}
        # Of which prefixes each router has heard since it published, and whether it may have something to do.
        self._heard: List[Set[int]] = [set() for _ in self._order]
        self._may_work = [True] * len(self._order)
        self._machine, self._step = _library.MachineParts(), _library.StepParts()
        self._items, self._written, self._more = (_library.ItemParts * 1)(), c_size_t(), c_uint8()
        self._answers = (_library.RowParts * 1)()
        self.active: Set[Tuple[int, int]] = set()
        self.rounds = 0
        self.flows = _Flows(network)

    def run(self, failure: Failure) -> None:
        """Has a link or a router fail, and goes on until nothing is left to do."""
        ends = failure if len(failure) > 1 else (*failure, *self._network.neighbours(failure[0]))
        self._network.fail(*failure)
        self.flows.look(0, range(len(self._prefixes)), [self._network._number(name) for name in ends])
        while True:
            if self._draw:
                self._draw.shuffle(self._order)
            self.rounds += 1
            is_busy = False
            for router in self._order:
                if self._may_work[router]:
                    self._may_work[router] = self._turn(router)
                    is_busy = is_busy or self._may_work[router]
            if not is_busy:
                self.rounds -= 1
                return

    def _turn(self, router: int) -> bool:
        """Lets a router do a step, and answers whether it had one to do."""
        self._library.network_next_step(self._at, router, byref(self._step))
        kind = self._step.kind
        if kind == StepKind.DELIVER:
            prefixes = self._coming(router)
            self._network._step(self._step)
            self._heard[router].update(prefixes)
            self.active.update((router, prefix) for prefix in prefixes if self._is_active(router, prefix))
        elif kind == StepKind.PUBLISH:
            heard = sorted(self._heard[router])
            before = [self._row(router, prefix) for prefix in heard]
            self._network._step(self._step)
            changed = [prefix for prefix, row in zip(heard, before) if self._row(router, prefix) != row]
            self.flows.look(self.rounds, changed, [router])
            self._heard[router].clear()
        elif kind == StepKind.RELEASE:
            self._network._step(self._step)
            for neighbour in self._network._neighbours[router]:
                self._may_work[neighbour] = True
        return kind <= StepKind.DETACH

    def _is_active(self, router: int, prefix: int) -> bool:
        is_known = self._network._machine(router, self._prefixes[prefix], self._machine)
        return bool(is_known and self._machine.state.active)

    def _coming(self, router: int) -> Sequence[int]:
        """The prefixes of which the item tells that the router takes now: all, if it is no message."""
        status = self._library.network_queue(self._at, router, self._step.port, self._items, 1,
                                             byref(self._written), byref(self._more))
        if status or self._items[0].kind > ItemKind.REPLY:
            return range(len(self._prefixes))
        return [self._numbers[self._items[0].addr, self._items[0].len]]

    def _row(self, router: int, prefix: int) -> Tuple[int, ...]:
        """The row by which a router forwards to the first address of a prefix."""
        addr = (c_uint32 * 1)(self._prefixes[prefix][0])
        self._library.network_lookup(self._at, router, addr, 1, self._answers, 1)
        row = self._answers[0]
        return row.addr, row.len, row.kind, row.port, row.session


def failures(network: Whole, which: str = "each-link") -> List[Failure]:
    """What can fail alone: with "each-link" each link that is up, with "each-router" each router.

    >>> failures(Network("ab", [("a", "b", 1)]), "each-router")
    [('a',), ('b',)]

    Raises ValueError if it is neither.
    """
    if which == "each-router":
        return [(name,) for name in network.routers]
    if which == "each-link":
        return [(link.a, link.b) for link in network.links if link.is_up]
    raise ValueError(f"{which} is neither each-link nor each-router")


def start(network: Network) -> Network:
    """Brings up the links that are down, from the cheapest on, and lets the network settle after each. For a
    large network that takes a fifth of the steps that it takes if all come up at once.

    >>> start(Network("ab", [("a", "b", 1)], up=False)).is_settled
    True
    """
    for link in sorted(network.links, key=lambda link: link.cost + link.cost_back):
        if not link.is_up:
            network.restore(link.a, link.b)
            network.settle()
    network.settle()
    return network


def watch(network: Network, failure: Failure, seed: int = 0) -> Outcome:
    """Has a link or a router of this network fail, lets routers take turns until nothing is left to do, and
    says what came of it. They take turns in their order, or with a seed in a random order that is another in
    each round.

    >>> net = start(Network("abc", [("a", "b", 1), ("b", "c", 1)], {"a": "10.0.0.0/8"}))
    >>> outcome = watch(net, ("a", "b"))
    >>> outcome.queries, outcome.active_routers, outcome.interrupted, outcome.cut
    (2, 2, 0, 2)

    Raises what `Network.fail` raises.
    """
    return _outcome(network, failure, _Turns(network, seed))


def _outcome(network: Network, failure: Failure, turns: _Turns) -> Outcome:
    before = network.counts
    turns.run(failure)
    counts = network.counts.since(before)
    return Outcome(
        failed=" - ".join(map(str, failure)), rounds=turns.rounds, **counts._asdict(),
        messages=counts.messages, active_routers=len({router for router, _ in turns.active}),
        computations=len(turns.active), **turns.flows.measures())


def _checked(network: Whole, failure: Failure) -> Failure:
    """A failure that can be, before another process finds that it cannot."""
    if not isinstance(failure, (tuple, list)) or not 1 <= len(failure) <= 2:
        raise ValueError(f"{failure!r} is no failure: give a tuple of a router, or of the two ends of a link")
    network.neighbours(failure[0])
    if len(failure) == 2 and not network.link(*failure).is_up:
        raise IsDown(f"{failure[0]!r} and {failure[1]!r}")
    return failure


def run(network: Network, given: Iterable[Failure], processes: int = 1, seed: int = 0) -> List[Outcome]:
    """What comes of each failure alone, in the order given. The network stays as it is.

    Each failure has a process of its own, which begins as a copy of this one (a fork), so all begin in the
    state in which the network is now. At most so many run side by side. Call it before your program starts
    threads.

    >>> net = start(Network("abc", [("a", "b", 1), ("b", "c", 1)]))
    >>> [outcome.cut for outcome in run(net, failures(net), processes=2)]
    [4, 4]
    >>> net.trace("c", "10.0.0.1").arrives
    True

    Raises ValueError if something is left to do in the network, or what is to fail is no tuple of one or two names,
    UnknownRouter, UnknownLink, IsDown if the link is down, and RuntimeError if a process dies.
    """
    if not network.is_settled:
        raise ValueError("something is left to do in the network: settle it first")
    failing = [_checked(network, failure) for failure in given]
    turns = _Turns(network, seed)
    return _forked(lambda failure: _outcome(network, failure, turns), failing, processes)


def run_timed(network: TimedNetwork, given: Iterable[Failure], processes: int = 1) -> List[TimedOutcome]:
    """What comes of each failure alone by DUAL, by a distance vector and by link state (`tuhvondi.baselines`): three
    outcomes for each, which begin with the rows that the network has now. The network stays as it is, and has to keep a
    record. Processes are as for `run`.

    >>> net = TimedNetwork("ab", [("a", "b", 1)], {"a": "10.0.0.0/8"}, record=True)
    >>> _ = net.run_to_rest()
    >>> [outcome.flows for outcome in run_timed(net, [("a",)])]
    [0, 0, 0]

    Raises ValueError if the network is not at rest, NoRecord, and what `run` raises.
    """
    if not network.is_at_rest:
        raise ValueError("something is left to do in the network: run it to rest first")
    failing, seen = [_checked(network, failure) for failure in given], len(network.outages())

    def outcomes(failure: Failure) -> List[TimedOutcome]:
        failed, began = " - ".join(map(str, failure)), network.now
        dual = network.copy()
        dual.fail(*failure)
        messages, spells = dual.run_to_rest().messages, dual.outages(seen)
        found = [TimedOutcome(
            failed, "DUAL", dual.now - began, max((spell.end or 0 for spell in spells), default=began) - began,
            sum(spell.length or 0 for spell in spells), len({spell[:2] for spell in spells}), 0, messages)]
        for kind in (baselines.DistanceVector, baselines.LinkState):
            other = kind(network)
            other.fail(*failure)
            found.append(TimedOutcome(failed, other.protocol, other.rest, other.back, sum(other.outages.values()),
                                      len(other.outages), len(other.looped), other.messages))
        return found

    return [outcome for each in _forked(outcomes, failing, processes) for outcome in each]


def _forked(work: Callable[[Failure], Any], failing: Sequence[Failure], processes: int) -> List[Any]:
    """What this work answers of each failure, in a process of its own."""
    if processes < 1:
        raise ValueError(f"nothing can be done by {processes} processes")
    forks = multiprocessing.get_context("fork")
    waiting = list(enumerate(failing))[::-1]
    outcomes: Dict[int, Any] = {}
    running: Dict[Any, Tuple[int, Failure, Any]] = {}
    gc.freeze()  # so that children do not copy what they only look at
    try:
        while waiting or running:
            while waiting and len(running) < processes:
                number, failure = waiting.pop()
                receiver, sender = forks.Pipe(duplex=False)
                process = forks.Process(target=lambda: sender.send(work(failure)), daemon=True)
                process.start()
                sender.close()
                running[receiver] = (number, failure, process)
            for receiver in multiprocessing.connection.wait(list(running)):
                number, failure, process = running.pop(receiver)
                try:
                    outcomes[number] = receiver.recv()
                except EOFError:
                    process.join()
                    raise RuntimeError(f"the process of {failure} ended with {process.exitcode}") from None
                finally:
                    receiver.close()
                process.join()
    finally:
        gc.unfreeze()
        for _, _, process in running.values():
            process.terminate()
            process.join()
    return [outcomes[number] for number in sorted(outcomes)]


def write_csv(outcomes: Sequence[AnyOutcome], file: TextIO) -> None:
    """Writes a table with a line for each failure. Open the file with newline="".

    >>> write_csv([], sys.stdout)   # doctest: +ELLIPSIS
    failed,rounds,steps,updates,queries,replies,messages,active_routers,...,cut
    """
    lines = csv.writer(file, lineterminator="\n")
    lines.writerow((outcomes[0] if outcomes else Outcome)._fields)
    lines.writerows(outcomes)


def write_json(outcomes: Iterable[AnyOutcome], file: TextIO) -> None:
    """Writes a list with an object for each failure.

    >>> write_json([], sys.stdout)
    []
    """
    json.dump([outcome._asdict() for outcome in outcomes], file, indent=1)
    file.write("\n")


def _measures(outcomes: Sequence[AnyOutcome]) -> "Iterator[tuple[str, dict[str, list[float]]]]":
    """What is written of each measure that is plotted, and its values by protocol, from the least on."""
    for field, what in (TIMED_PLOTS if isinstance(next(iter(outcomes), None), TimedOutcome) else PLOTS).items():
        values: Dict[str, List[float]] = {}
        for outcome in outcomes:
            values.setdefault(getattr(outcome, "protocol", ""), []).append(getattr(outcome, field))
        yield what, {protocol: sorted(each) for protocol, each in values.items()}


def summary(outcomes: Sequence[AnyOutcome]) -> str:
    """The distribution of each measure that is plotted: its median, the value that 95 % are not above, and the largest.

    >>> net = start(Network("abc", [("a", "b", 1), ("b", "c", 1)]))
    >>> print(summary(run(net, failures(net))))
    2 failures: median / 95 % / most
    messages: 4 / 4 / 4
    rounds to rest: 11 / 11 / 11
    active routers: 2 / 2 / 2
    longest outage, in rounds: 0 / 0 / 0
    """
    lines = [f"{len({outcome.failed for outcome in outcomes})} failures: median / 95 % / most"]
    for what, by_protocol in _measures(outcomes):
        for protocol, values in by_protocol.items():
            three = statistics.median(values), values[math.ceil(0.95 * len(values)) - 1], values[-1]
            name = f"{what}, {protocol}" if protocol else what
            lines.append(f"{name}: {' / '.join(f'{value:,.10g}' for value in three)}")
    return "\n".join(lines)


def plot(outcomes: Sequence[AnyOutcome], file: Any, title: str = "") -> None:
    """Draws the share of failures up to each value of four measures, on logarithmic axes, if matplotlib is installed: a
    curve for each protocol. The format is that of the file's name: SVG, PDF, PNG.

    >>> plot([], "study.svg")   # doctest: +SKIP
    """
    # No window is opened: that needs this other class than pyplot.
    from matplotlib.figure import Figure  # pylint: disable=import-outside-toplevel

    figure = Figure(figsize=(9, 6), layout="constrained")
    figure.suptitle(title)
    for axes, (what, by_protocol) in zip(figure.subplots(2, 2).flat, _measures(outcomes)):
        for protocol, values in by_protocol.items():
            shares = [number / len(values) for number in range(len(values) + 1)]
            axes.step([0, *values], shares, where="post", label=protocol)
        # Below the least value the axis is straight, because a logarithm of 0 is none.
        least = min((value for values in by_protocol.values() for value in values if value), default=1)
        axes.set_xscale("symlog", linthresh=least)
        axes.set(xlabel=what, ylabel="share of failures", xlim=(0, None), ylim=(0, 1.02))
        if len(by_protocol) > 1:
            axes.legend()
    figure.savefig(file)


def _number_or_name(text: str) -> Union[int, str]:
    return int(text) if text.isdecimal() else text


def _first(graph: Any, most: Optional[int]) -> Optional[Attachments]:
    """A prefix for each of so many routers, those with the most edges; or for all."""
    if most is None:
        return None
    edges: Dict[Any, int] = dict.fromkeys(graph.nodes, 0)
    for near, far in graph.edges():
        edges[near] += 1
        edges[far] += 1
    return default_attachments(sorted(edges, key=lambda name: -edges[name])[:most])


def _count(text: str) -> int:
    number = int(text)
    if number < 1:
        raise argparse.ArgumentTypeError("it is below 1")
    return number


def main(words: Optional[Sequence[str]] = None) -> int:
    """The program `python3 -m tuhvondi study`, and its status: 0 if all was done, else 1; 2 for words that it
    does not know.
    """
    parser = argparse.ArgumentParser(
        prog="python3 -m tuhvondi study",
        description="Each link or router of a topology fails alone, from one settled state.",
        epilog="Without --csv, --json and --plot the table is printed. A round is a turn of each router, and counts "
        "where there is no clock.")
    parser.add_argument("graph", help="a file of GraphML: at most 65,536 nodes and edges, 32 edges at a node")
    parser.add_argument("--fail", choices=("each-link", "each-router"), default="each-link",
                        help="what fails alone (each-link)")
    for name, how, kind, default, text in (
        ("--processes", "N", _count, 1, "so many run side by side (1)"),
        ("--cost", "KEY", str, "weight", "the edges' attribute with the cost, 1 to 65535 (weight); an edge "
         "without it costs 1"),
        ("--prefixes", "N", _count, None, "so many routers, those with the most links, have a prefix (all)"),
        ("--seed", "N", int, 0, "routers take turns in a random order (in their own)"),
        ("--delay", "KEY", _number_or_name, "delay", "with --timed: the edges' attribute with the delay in "
         "microseconds (delay), of which an edge without it has 1000; or a number for all"),
        ("--publication", "N", int, 1000, "with --timed: the microseconds that a router takes to publish (1000)"),
        ("--csv", "FILE", str, None, "write the table as CSV"),
        ("--json", "FILE", str, None, "write the table as JSON"),
        ("--plot", "FILE", str, None, "draw the distributions, if matplotlib is installed: SVG, PDF or PNG by its name"),
    ):
        parser.add_argument(name, metavar=how, type=kind, default=default, help=text)
    parser.add_argument("--timed", action="store_true", help="by time, beside a distance vector and link state")
    given = parser.parse_args(words)
    try:
        if given.plot:
            __import__("matplotlib")
        graph = graphs.read_graphml(given.graph)
        attachments = _first(graph, given.prefixes)
        outcomes: Sequence[AnyOutcome]
        if given.timed:
            timed = TimedNetwork.from_networkx(graph, attachments, given.cost, delay=given.delay,
                                               publication=given.publication, record=True)
            timed.run_to_rest()
            outcomes = run_timed(timed, failures(timed, given.fail), given.processes)
        else:
            network = start(Network.from_networkx(graph, attachments, given.cost, up=False))
            outcomes = run(network, failures(network, given.fail), given.processes, given.seed)
        for name, write in ((given.csv, write_csv), (given.json, write_json)):
            if name:
                with open(name, "w", encoding="utf-8", newline="") as file:
                    write(outcomes, file)
        if given.plot:
            plot(outcomes, given.plot, os.path.basename(given.graph))
        if not given.csv and not given.json and not given.plot:
            write_csv(outcomes, sys.stdout)
    except (OSError, ValueError, LookupError, ImportError, RuntimeError, Refused) as error:
        print(f"study: {error}", file=sys.stderr)
        return 1
    print(summary(outcomes), file=sys.stderr)
    return 0
