"""Routers in processes of their own: each end of a link begins and ends its sessions by itself.

What may happen to them, and what is claimed of them after each step, as the definitions of `daemon_laws` have it. The
machine is that of the plain model. Functions that say what may be, and functions that say what happens, are small, so that
`trials/processes` can plant an error in one of them."""

from collections import deque
from collections.abc import Callable, Iterable
from dataclasses import dataclass
from ipaddress import IPv4Network
from typing import Any, NamedTuple

from model_machine import COST, DOWN, EQUAL, INF, ONE, QUERY, REPLY, UP, Machine, Send

# A prefix is its place here. They are in order, by address, then by length.
PREFIXES = [IPv4Network(it) for it in ("0.0.0.0/0", "10.0.0.0/8", "10.1.0.0/16", "10.1.2.0/24", "10.2.0.0/16")]
# Of each prefix: the prefixes that cover an address which it matches longest, from the longest on.
COVERS = [[q for q in reversed(range(len(PREFIXES))) if p.subnet_of(PREFIXES[q])] for p in PREFIXES]

LOCAL, UNREACHABLE = "local", "unreachable"

# What may be wrong: with packets on their way, after a step, and at rest.
MARKED, UNMARKED = "a packet that tells its session comes back", "a packet that tells no session comes back"
MIXED, UNMARKED_MIXED = f"{MARKED}, by rows of both kinds", f"{UNMARKED}, by rows of both kinds"
REFUSED, STANDS = "a message of the present session is refused", "a row of a forgotten prefix stands"
STUCK = "a machine has no step for what it meets"
ACTIVE, NOT_BEST = "a machine is active at rest", "a row at rest is not the best"
NOT_WHOLE = "something counts as lost in a session that both ends may still come into"
OTHER_HOPS = "other next hops are in force at rest than are offered"
HOP_NOT_BEST = "a next hop at rest does not lead nearer, or one of equal cost not along a least walk"


class Via(NamedTuple):
    """An entry that leads over a port, in a session of its link."""

    port: int
    session: int


class End(NamedTuple):
    """An end of a link."""

    router: int
    port: int

    def __str__(self) -> str:
        return f"{self.router}.{self.port}"


class Message(NamedTuple):
    """A message that a router holds for a port, or that left by it, with the session of the port as it was made."""

    port: int
    session: int
    kind: str
    prefix: int
    value: int


class Plan(NamedTuple):
    """What a run begins with: its prefixes, the end across from each end, and of each router its costs and attachments."""

    prefixes: list[int]
    far: dict[End, End]
    costs: list[list[int]]
    attachments: list[dict[int, int]]


Entry = str | Via
Happening = tuple[str, *tuple[Any, ...]]


@dataclass
class Port:
    cost: int
    up: bool = False
    session: int = 0

    def is_in(self, session: int) -> bool:
        return self.up and self.session == session


class Router:
    """The router of one process: its machines, its rows, and what it holds."""

    def __init__(self, costs: list[int], attachments: dict[int, int], machine: type[Machine] = Machine) -> None:
        self.machine = machine
        self.ports = [Port(cost) for cost in costs]
        self.attachments = dict(attachments)
        self.machines = {prefix: machine(self.ports, cost) for prefix, cost in attachments.items()}
        self.control: dict[int, Entry] = dict.fromkeys(attachments, LOCAL)
        self.published = dict(self.control)
        # Which next hops it offers beside its rows, and those in force.
        self.offer, self.most = ONE, 0
        self.hops: dict[int, list[Via]] = {}
        self.gate: deque[Message] = deque()
        self.ripe = 0
        # Rows and next hops of the process before that still stand. While no port is up a packet may go by any of them.
        self.left: dict[int, set[Entry]] = {}

    def meets(self, prefix: int, event: Callable[[Machine], list[Send]]) -> None:
        """The machine of a prefix meets an event. What it sends is held, and its row is chosen anew."""
        machine = self.machines.get(prefix) or self.machines.setdefault(prefix, self.machine(self.ports, None))
        for port, kind, value in event(machine):
            self.gate.append(Message(port, self.ports[port].session, kind, prefix, value))
        q = machine.successor
        self.control[prefix] = UNREACHABLE if q is None else LOCAL if machine.is_local() else Via(q, self.ports[q].session)

    def all_meet(self, kind: str, port: int) -> None:
        for prefix in sorted(self.machines):
            self.meets(prefix, lambda machine: machine.meet(kind, port))

    def over(self, ports: Iterable[int]) -> list[Via]:
        return [Via(q, self.ports[q].session) for q in ports]

    def offered(self, prefix: int) -> list[Via]:
        return self.over(self.machines[prefix].offered(self.offer, self.most))

    def feasible(self, prefix: int) -> list[Via]:
        """The next hops that it might put in force now."""
        machine = self.machines.get(prefix)
        return self.over(q for q in range(len(self.ports)) if machine and machine.may_forward(q))

    def changed(self) -> list[int]:
        """The prefixes whose rows are chosen and not in force, or beside whose rows other next hops are, in order."""
        return sorted(prefix for prefix, entry in self.control.items()
                      if entry != self.published.get(prefix) or (self.offer != ONE and self.offered(prefix) != self.hops.get(prefix)))

    def longest(self, covers: list[int]) -> list[Entry]:
        """Where a packet may go by the rows that match longest, of those in force and of the chosen ones."""
        shown = next(([self.published[p], *self.hops.get(p, [])] for p in covers if p in self.published), [])
        return shown + next(([self.control[p], *self.feasible(p)] for p in covers if p in self.control), [])

    def of_both_kinds(self, covers: list[int]) -> list[Entry]:
        """Where it may go while rows and next hops are put in force, some of them and then the others."""
        entries = [entry for prefix in covers for entry in self.left.get(prefix, ())]
        for prefix in covers:
            entries += [rows[prefix] for rows in (self.control, self.published) if prefix in rows]
            entries += [*self.hops.get(prefix, []), *self.feasible(prefix)]
            if prefix in self.published:
                break
        return entries


class Processes:
    """Routers, what is on its way to each end, the last session of each of which something is left, that of the message
    that it took last, and of which sessions a message to it was lost."""

    machine = Machine

    def __init__(self, plan: Plan) -> None:
        self.prefixes, self.far = plan.prefixes, dict(plan.far)
        self.routers = [Router(costs, attachments, self.machine) for costs, attachments in zip(plan.costs, plan.attachments)]
        self.coming: dict[End, deque[Message]] = {end: deque() for end in plan.far}
        self.last = dict.fromkeys(plan.far, 0)
        self.heard = dict.fromkeys(plan.far, 0)
        self.lost: dict[End, set[int]] = {end: set() for end in plan.far}
        self.faults: list[str] = []

    def port(self, end: End) -> Port:
        return self.routers[end.router].ports[end.port]

    # ---- what may be; a planted error gives one of these, or one of what happens, another body

    def first_session(self, end: End) -> int:
        """The least session in which an end may come up."""
        return self.last[end] + 1

    def waits(self, end: End) -> bool:
        """Whether the message that comes next is of a session that the end has not been in yet."""
        return self.coming[end][0].session > self.last[end]

    def session_fault(self, port: Port, session: int) -> str | None:
        return None if port.is_in(session) else "of another session" if port.up else "of a link that is down"

    def kind_fault(self, machine: Machine | None, port: int, kind: str) -> str | None:
        is_active = machine is not None and machine.origin is not None
        if kind == QUERY:
            return "a second query" if is_active and machine.debt == port else None
        return "a reply not awaited" if kind == REPLY and not (is_active and port in machine.awaited) else None

    def sent(self, port: Port, message: Message) -> list[Message]:
        """What goes on its way where a message leaves its router by this port."""
        return [message] if port.is_in(message.session) else []

    def may_release(self, router: Router) -> bool:
        return router.ripe > 0

    def part(self, changed: list[int], n: int) -> list[int]:
        return changed[:n]

    def knows_nothing(self, it: Machine) -> bool:
        is_unreported = all(not port.up or value == INF for port, value in zip(it.ports, it.values))
        is_idle = it.origin is None and it.attachment is None and it.successor is None
        return is_idle and it.rd == it.fd == INF and is_unreported

    def may_forget(self, router: Router, prefix: int) -> bool:
        return self.knows_nothing(router.machines[prefix]) and router.published.get(prefix) == UNREACHABLE

    def leads(self, near: End, session: int) -> bool:
        """Whether a packet that tells its session goes over a link, by a row of this session."""
        return self.port(self.far[near]).is_in(session)

    def lets_in(self, end: End) -> bool:
        """Whether one that tells none is let in: while the end is in the session of the message that it took last."""
        return self.port(end).is_in(self.heard[end])

    def enters(self, near: End, session: int) -> bool:
        return self.lets_in(self.far[near])

    def outlives(self, near: End, session: int, i: int) -> bool:
        """Whether a packet on its way from an end is not lost where the process of router i begins anew."""
        far = self.far[near]
        return i != far.router and (i != near.router or session <= self.own_session(far))

    def may_lack(self, router: Router, prefix: int) -> bool:
        """Whether a half-written table may have no row of a prefix: where none was published."""
        return prefix not in router.published

    def goes_with(self, old: int, new: int) -> int:
        """The feasible distance that goes with a row that has been chosen, where the old row went with the old one."""
        return new

    def comes_in_order(self, end: End, session: int) -> bool:
        """Whether a packet that tells no session comes before each message of a session later than that of its row."""
        return self.heard[end] <= session

    # ---- what happens; each says in a word what it was

    def up(self, end: End, session: int, cost: int) -> str:
        port = self.port(end)
        if port.up or session < self.first_session(end):
            return "cannot come up"
        port.up, port.session, port.cost = True, session, cost
        self.clears(end.router)
        self.last[end] = max(self.last[end], session)
        self.routers[end.router].all_meet(UP, end.port)
        return f"comes up {'where the other end is' if self.is_up_at(end) else 'alone'}"

    def down(self, end: End) -> str:
        was_up_at = self.is_up_at(end)
        if self.port(end).up:
            self.port(end).up = False
            self.routers[end.router].all_meet(DOWN, end.port)
        return f"goes down {'where the other end stays' if was_up_at else 'alone'}"

    def cost(self, end: End, cost: int) -> str:
        if self.port(end).up:
            self.port(end).cost = cost
            self.routers[end.router].all_meet(COST, end.port)
        return "has another cost"

    def attaches(self, i: int, prefix: int, cost: int | None) -> str:
        router = self.routers[i]
        if router.attachments.pop(prefix, None) is None and cost is None:
            return "is not attached"
        router.attachments |= {} if cost is None else {prefix: cost}
        router.meets(prefix, lambda machine: machine.notice(cost))
        return "detaches" if cost is None else "attaches"

    def takes(self, end: End) -> str:
        if not self.coming[end] or self.waits(end):
            return "waits"
        _, session, kind, prefix, value = self.coming[end].popleft()
        router, port = self.routers[end.router], self.port(end)
        fault = self.session_fault(port, session) or self.kind_fault(router.machines.get(prefix), end.port, kind)
        if fault is not None:
            self.faults += [REFUSED] * port.is_in(session)
            return f"refuses: {fault}"
        self.heard[end] = session
        router.meets(prefix, lambda machine: machine.meet(kind, end.port, value))
        return f"takes: {kind}"

    def loses(self, end: End) -> str:
        if self.coming[end]:
            self.lost[end].add(self.coming[end].popleft().session)
        return "loses"

    def publishes(self, i: int) -> str:
        router = self.routers[i]
        router.published, router.ripe = dict(router.control), len(router.gate)
        router.hops = {prefix: router.offered(prefix) for prefix in router.control}
        return "publishes"

    def publishes_some(self, i: int, n: int) -> str:
        router = self.routers[i]
        changed = router.changed()
        for prefix in self.part(changed, n):
            router.published[prefix], router.hops[prefix] = router.control[prefix], router.offered(prefix)
        return f"publishes {'all rows, and ripens nothing' if n >= len(changed) else 'some rows'}"

    def forgets(self, i: int, prefix: int) -> str:
        router = self.routers[i]
        if prefix not in router.machines or not self.may_forget(router, prefix):
            return "may not forget"
        del router.machines[prefix], router.control[prefix]
        router.published.pop(prefix, None)
        router.hops.pop(prefix, None)
        shorter = next((router.published[p] for p in COVERS[prefix] if p in router.published), None)
        if isinstance(shorter, Via):
            shorter = "leads on" if self.leads(End(i, shorter.port), shorter.session) else "is dead"
        return f"forgets: {f'a shorter row {shorter}' if shorter else 'no shorter row'}"

    def releases(self, i: int) -> str:
        router = self.routers[i]
        if not self.may_release(router):
            return "nothing is ripe"
        message = router.gate.popleft()
        router.ripe = max(0, router.ripe - 1)
        sent = self.sent(router.ports[message.port], message)
        self.coming[self.far[End(i, message.port)]].extend(sent)
        return "releases" if sent else "releases what is dropped"

    def offers(self, i: int, offer: str, most: int) -> str:
        router = self.routers[i]
        router.offer, router.most, router.hops = offer, most, {}
        return f"offers {offer}"

    def own_session(self, end: End) -> int:
        """The last session that the process at an end was in."""
        return self.port(end).session

    def latest_coming(self, end: End) -> int:
        """The latest session of a message that is on its way over a link, either way."""
        return max((it.session for at in (end, self.far[end]) for it in self.coming[at]), default=0)

    def last_anew(self, i: int, end: End) -> int:
        """What an end has to exceed once the process of router i begins anew: of which something is left."""
        last, far = self.last[end], self.far[end]
        if end.router == i:
            return min(last, max(self.own_session(far), self.latest_coming(end)))
        return max(self.own_session(end), min(last, self.latest_coming(end))) if far.router == i else last

    def heals(self, i: int, anew: dict[End, int], end: End, session: int) -> bool:
        """Whether what was lost in a session counts no more: an end of the link may come into it again."""
        return any(anew[one] < session <= self.last[one] for one in (end, self.far[end]))

    def begins_anew(self, i: int, costs: list[int], attachments: dict[int, int]) -> str:
        anew = {end: self.last_anew(i, end) for end in self.far}
        is_less = any(anew[end] < self.last[end] for end in self.far)
        for end in self.far:
            self.lost[end] = {session for session in self.lost[end] if not self.heals(i, anew, end, session)}
            self.heard[end] = 0 if end.router == i else self.heard[end]
        self.last = anew
        old = self.routers[i]
        self.routers[i] = Router(costs, attachments, self.machine)
        for prefix, entry in old.published.items():
            self.routers[i].left[prefix] = {entry, *old.hops.get(prefix, []), *old.left.pop(prefix, ())}
        self.routers[i].left |= old.left
        return f"begins anew{', and sessions may be used again' * is_less}"

    def clears(self, i: int) -> None:
        """The process clears the rows of the one before, before its first port is up."""
        self.routers[i].left = {}

    def may_rewire(self, a: End, c: End) -> bool:
        """Whether the links at two ends may exchange their other ends: all four are in no session."""
        ends = {a, c, self.far[a], self.far[c]}
        return len(ends) == 4 and not any(self.port(end).up for end in ends)

    def last_rewired(self, end: End) -> int:
        return max(self.own_session(end), self.own_session(self.far[end]))

    def rewires(self, a: End, c: End) -> str:
        if not self.may_rewire(a, c) or a.router == c.router or self.far[a].router == self.far[c].router:
            return "may not get another neighbour"
        b, d = self.far[a], self.far[c]
        self.far = self.far | {a: c, c: a, b: d, d: b}
        self.last |= {end: self.last_rewired(end) for end in (a, b, c, d)}
        for end in a, b, c, d:
            self.coming[end].clear()
            self.lost[end], self.heard[end] = set(), 0
        return "gets another neighbour"

    def does(self, happening: Happening) -> str:
        self.faults = []
        name, *args = happening
        try:
            return getattr(self, name)(*args)
        except KeyError:
            self.faults.append(STUCK)
            return "is stuck"

    def work(self) -> list[Happening]:
        """What may happen where no process finds anything new."""
        work: list[Happening] = [("takes", end) for end in self.far if self.coming[end] and not self.waits(end)]
        for i, router in enumerate(self.routers):
            changed = router.changed()
            work += [("publishes", i)] * (router.ripe < len(router.gate) or len(changed) > 0)
            work += [("publishes_some", i, n + 1) for n in range(len(changed))]
            work += [("releases", i)] * self.may_release(router)
            work += [("forgets", i, prefix) for prefix in router.machines if self.may_forget(router, prefix)]
        return work

    def shape(self, i: int) -> tuple:
        """What a router forwards by, and what it lets in."""
        it = self.routers[i]
        heard = [self.heard[End(i, port)] for port in range(len(it.ports))]
        hops = [[*it.hops.get(prefix, []), None, *it.feasible(prefix)] for prefix in self.prefixes]
        return dict(it.control), dict(it.published), hops, it.left, [(port.up, port.session) for port in it.ports], heard

    # ---- what is claimed

    def wrong(self, are_rows_same: bool = False) -> list[str]:
        """What is wrong after a step."""
        wrong = list(self.faults)
        if not all(it.machines.keys() == it.control.keys() >= it.published.keys() >= it.hops.keys() for it in self.routers):
            wrong.append(STANDS)
        if any(max(lost) > max(self.last[end], self.last[self.far[end]]) for end, lost in self.lost.items() if lost):
            wrong.append(NOT_WHOLE)
        for prefix in [] if are_rows_same else self.prefixes:
            for leads, fault, fault_of_both in (self.leads, MARKED, MIXED), (self.enters, UNMARKED, UNMARKED_MIXED):
                if self.has_circle(Router.of_both_kinds, COVERS[prefix], leads):
                    wrong.append(fault if self.has_circle(Router.longest, COVERS[prefix], leads) else fault_of_both)
        return wrong

    def has_circle(self, rows: Callable, covers: list[int], leads: Callable[[End, int], bool]) -> bool:
        """Whether a packet may come back to a router, by these rows of each that cover its address."""
        hops = [self.hops(i, rows(router, covers), leads) for i, router in enumerate(self.routers)]
        left = set(range(len(hops)))
        while ends := {i for i in left if not hops[i] & left}:
            left -= ends
        return bool(left)

    def hops(self, i: int, entries: list[Entry], leads: Callable[[End, int], bool]) -> set[int]:
        hops = set()
        for entry in entries:
            if isinstance(entry, Via) and leads(end := End(i, entry.port), entry.session):
                hops.add(self.far[end].router)
        return hops

    def is_up_at(self, end: End) -> bool:
        """Whether the other end is in the session that this one is in."""
        return self.port(end).up and self.port(self.far[end]).is_in(self.port(end).session)

    def best(self, prefix: int) -> list[int]:
        """The least costs to an attached router, by rounds over all links that are up (Bellman and Ford)."""
        costs = [router.attachments.get(prefix, INF) for router in self.routers]
        for _ in self.routers:
            for end in filter(self.is_up_at, self.far):
                costs[end.router] = min(costs[end.router], costs[self.far[end].router] + self.port(end).cost)
        return costs

    def is_whole(self) -> bool:
        """Whether nothing was lost of a session that an end is in."""
        return not any(self.port(end).up and self.port(end).session in self.lost[end] for end in self.far)

    def wrong_at_rest(self) -> list[str]:
        """What is wrong where nothing is left to do but to forget, all is whole, and the ends of each link agree."""
        if any(machine.origin is not None for router in self.routers for machine in router.machines.values()):
            return [ACTIVE]
        bests = [(prefix, self.best(prefix)) for prefix in self.prefixes]
        wrong = {NOT_BEST for prefix, best in bests for i in range(len(best)) if not self.is_best(i, prefix, best)}
        for prefix, best in bests:
            for i, router in enumerate(self.routers):
                hops = router.hops.get(prefix, [])
                wrong |= {OTHER_HOPS} if prefix in router.machines and hops != router.offered(prefix) else set()
                wrong |= {HOP_NOT_BEST for hop in hops if not self.is_near(End(i, hop.port), hop.session, best)}
        return sorted(wrong)

    def is_near(self, end: End, session: int, best: list[int]) -> bool:
        """Whether a next hop leads over a link that is up to a router that is nearer, and where it is of equal cost so much."""
        near, far = best[end.router], best[self.far[end].router]
        is_up = self.is_up_at(end) and self.port(end).is_in(session)
        return is_up and far < near and (self.routers[end.router].offer != EQUAL or near == self.port(end).cost + far)

    def is_best(self, i: int, prefix: int, best: list[int]) -> bool:
        """Whether a row is of least cost: Local, or it leads over a link that is up to a router that is so much nearer."""
        router = self.routers[i]
        entry = router.published.get(prefix, UNREACHABLE)
        if best[i] >= INF or entry == UNREACHABLE:
            return best[i] >= INF and entry == UNREACHABLE
        if router.machines[prefix].rd != best[i] or not isinstance(entry, Via):
            return router.machines[prefix].rd == best[i] == router.attachments.get(prefix)
        end = End(i, entry.port)
        is_up = self.is_up_at(end) and self.port(end).is_in(entry.session)
        return is_up and best[i] == self.port(end).cost + best[self.far[end].router]
