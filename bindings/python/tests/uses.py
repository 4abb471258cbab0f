"""Uses of the package with variables of plain types. A checker of types has to pass this file, and tests run it."""

from ipaddress import IPv4Network
from typing import TYPE_CHECKING, Dict, List, Optional, Tuple

import tuhvondi
from tuhvondi import Counts, Network, Step, StepKind, TimedNetwork, study

LINKS: List[Tuple[str, str, int]] = [("a", "b", 1), ("b", "c", 1), ("a", "c", 5)]
ONE: Dict[str, str] = {"a": "10.0.0.0/8"}
SEVERAL: Dict[str, List[str]] = {"a": ["10.0.0.0/8", "192.0.2.0/24"]}
COSTS: Dict[str, Dict[str, int]] = {"a": {"10.0.0.0/8": 7}}
NETS: Dict[int, IPv4Network] = {0: IPv4Network("10.0.0.0/8")}
DELAYS: Dict[Tuple[str, str], int] = {("a", "b"): 5, ("b", "c"): 5, ("a", "c"): 7}
PUBLICATIONS: Dict[str, int] = {"a": 1, "b": 2, "c": 3}


def of_names(near: str, far: str) -> int:
    return len(near) + len(far)


def settled() -> Network:
    made = [Network("abc", LINKS, given) for given in (ONE, None)]
    made += [Network("abc", LINKS, SEVERAL), Network("abc", LINKS, COSTS)]
    both: List[Tuple[int, int, int, int]] = [(0, 1, 5, 7)]
    Network(range(2), both, NETS).settle(seed=3, most=5)
    network = made[0].copy()
    counts: Counts = network.settle(progress=lambda so_far: print(so_far.messages))
    network.fail("a", "b")
    network.set_cost("b", "c", 3)
    step: Optional[Step] = network.next_step("a")
    if step is not None:
        network.do(step)
    names: List[str] = [name.upper() for name in network.neighbours("a")]
    rows: List[str] = [str(entry) for entry in network.table("b")]
    print(counts.messages, names, rows, network.distances("10.0.0.0/8")["a"])
    return study.start(made[1])


def timed() -> TimedNetwork:
    TimedNetwork("abc", LINKS, ONE, delay=of_names, publication=len)
    network = TimedNetwork("abc", LINKS, ONE, delay=DELAYS, publication=PUBLICATIONS, record=True)
    network.at(10, Step(StepKind.SET_COST, "a", "b", cost=9))
    network.fail("b", at=1_000)
    network.run_to_rest(progress=lambda so_far, now: print(so_far.steps, now))
    lengths: List[Optional[int]] = [spell.length for spell in network.outages()]
    print(lengths, network.now)
    return network


def router() -> tuhvondi.Router:
    attachments: Dict[str, int] = {"10.0.0.0/8": 1}
    return tuhvondi.Router([5], attachments)


if TYPE_CHECKING:  # what a checker has to find
    timed().at("1s", Step(StepKind.LINK_DOWN, "a", "b"))  # type: ignore[arg-type]
    settled().run_to_rest()  # type: ignore[attr-defined]
    Network("ab", [("a", "b")])  # type: ignore[list-item]
