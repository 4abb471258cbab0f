"""Where a trial takes place: routers in network namespaces, each with prefixes of its own, and what happens to their links."""

import json
import os
import re
import signal
import subprocess
import sys
from pathlib import Path
from typing import NoReturn

from topology import Attachment, Link, Network

__all__ = ["Attachment", "Link", "Network", "Place", "end_by_signals", "skip", "sweep"]

NAMES = Path("/run/netns")
SKIPPED = 77
# What the protocols of a trial send; all else passes a deaf link.
SPOKEN = "meta l4proto ospf drop; tcp dport 6187 drop; tcp sport 6187 drop; udp dport { 520, 3784, 6187, 6696 } drop;"
ENDS = (signal.SIGINT, signal.SIGTERM, signal.SIGHUP, signal.SIGALRM)


def skip(why: str) -> NoReturn:
    print(f"skipped: {why}")
    sys.exit(SKIPPED)


def end(number: int, _: object) -> NoReturn:
    """Ends the run as a failure does; a second signal does not keep it from deleting what it made."""
    for one in ENDS:
        signal.signal(one, signal.SIG_IGN)
    sys.exit(128 + number)


def end_by_signals(seconds: float) -> None:
    """A run that takes longer ends too."""
    for number in ENDS:
        signal.signal(number, end)
    signal.alarm(int(seconds))


def delete(name: str) -> None:
    """Deletes a namespace, and ends what runs in it."""
    found = subprocess.run(["ip", "netns", "pids", name], check=False, capture_output=True, text=True)
    for pid in map(int, found.stdout.split()):
        try:
            os.kill(pid, signal.SIGKILL)
        except ProcessLookupError:
            pass
    subprocess.run(["ip", "netns", "del", name], check=False, capture_output=True)


def sweep(prefix: str) -> None:
    """Deletes the namespaces of runs that were killed before they could do so. Names begin as the program is called."""
    for path in NAMES.glob(f"{prefix}*r*") if NAMES.is_dir() else []:
        found = re.fullmatch(rf"{prefix}(\d+)r(?:\d+|between)", path.name)
        command = Path(f"/proc/{found[1]}/cmdline") if found else None
        if command and not (command.exists() and prefix.encode() in command.read_bytes()):
            delete(path.name)


class Place:
    """Each router has a network namespace; a link is a bridge in one more, to which both ends have a veth. Each router also has
    a stub: an interface with the first address of its own prefix, whose other end nobody has."""

    # Names begin so, and then comes the number of the process that made them.
    prefix = "loops"

    def __init__(self, network: Network, is_slow: bool = False) -> None:
        """If links are slow, trials/relay.c carries frames between two bridges of each."""
        self.network, self.is_slow = network, is_slow

    def name(self, router: int | str) -> str:
        return f"{self.prefix}{os.getpid()}r{router}"

    def command(self, router: int | str) -> list[str]:
        return ["ip", "netns", "exec", self.name(router)]

    def ip(self, router: int | str | None, *words: str) -> None:
        inside = [] if router is None else ["-n", self.name(router)]
        done = subprocess.run(["ip", *inside, *words], check=False, capture_output=True, text=True)
        if done.returncode:
            raise RuntimeError(f"{' '.join(done.args)}: {done.stderr.strip()}")

    def address(self, router: int, link: int) -> str:
        return f"10.255.{link}.{1 if router == self.network.links[link].a else 2}"

    def __enter__(self) -> "Place":
        try:
            self.make()
        except BaseException:
            self.__exit__()
            raise
        return self

    def __exit__(self, *_: object) -> None:
        for router in [*range(self.network.routers), "between"]:
            delete(self.name(router))

    def make(self) -> None:
        for router in range(self.network.routers):
            self.make_router(router)
        self.ip(None, "netns", "add", self.name("between"))
        for link in range(len(self.network.links)):
            self.make_link(link)
        for attachment in self.network.attachments:
            self.make_attachment(attachment)

    def make_router(self, router: int) -> None:
        self.ip(None, "netns", "add", self.name(router))
        self.ip(router, "link", "set", "lo", "up")
        # A router drops what comes back to it with its own address as the source, if it is not told to accept it. It is,
        # because the packets stand for those of hosts beside the router, and those circle through it.
        knobs = {"ipv4/ip_forward": 1, "ipv4/conf/all/accept_local": 1}
        knobs |= {f"ipv4/conf/{which}/{name}": 0 for which in ("all", "default") for name in ("rp_filter", "send_redirects")}
        knobs |= {f"ipv6/conf/{which}/accept_dad": 0 for which in ("all", "default")}
        line = "; ".join(f"echo {value} 2>/dev/null >/proc/sys/net/{knob}" for knob, value in knobs.items())
        subprocess.run([*self.command(router), "sh", "-c", line], check=False, capture_output=True)
        self.ip(router, "link", "add", "stub", "type", "veth", "peer", "name", "end")
        for end_of_stub in ("stub", "end"):
            self.ip(router, "link", "set", end_of_stub, "up")
        self.ip(router, "address", "add", f"10.100.{router}.1/24", "dev", "stub")

    def bridge(self, link: int, end: int) -> str:
        return f"bridge{link}" if not self.is_slow or end == 0 else f"bridge{link}far"

    def make_bridge(self, link: int, end: int) -> None:
        bridge = self.bridge(link, end)
        self.ip("between", "link", "add", bridge, "type", "bridge", "mcast_snooping", "0")
        self.ip("between", "link", "set", bridge, "up")
        if self.is_slow:
            self.ip("between", "link", "add", f"in{link}e{end}", "type", "veth", "peer", "name", f"out{link}e{end}")
            self.ip("between", "link", "set", f"in{link}e{end}", "master", bridge, "up")
            self.ip("between", "link", "set", f"out{link}e{end}", "up")

    def make_link(self, link: int) -> None:
        for end in range(2 if self.is_slow else 1):
            self.make_bridge(link, end)
        for end, router in enumerate(self.network.links[link][:2]):
            far = f"to{link}r{router}"
            self.ip(router, "link", "add", f"l{link}", "type", "veth", "peer", far, "netns", self.name("between"))
            self.ip("between", "link", "set", far, "master", self.bridge(link, end), "up")
            self.ip(router, "address", "add", f"{self.address(router, link)}/30", "dev", f"l{link}")
            self.ip(router, "link", "set", f"l{link}", "up")

    def make_attachment(self, attachment: Attachment) -> None:
        """Of the prefixes that are shared out all addresses are the router's own."""
        if attachment.prefix.startswith("172."):
            self.ip(attachment.router, "route", "add", "local", attachment.prefix, "dev", "lo")

    def streams(self) -> str:
        """For trials/traffic.c: each router's namespace, and where packets for it go."""
        lines = []
        for router in range(self.network.routers):
            own = [a for a in self.network.attachments if a.router == router]
            many = [a for a in own if a.prefix.startswith("172.")] or own[:1]
            lines.append(f"{self.name(router)} {many[0].address()} {len(many)}\n")
        return "".join(lines)

    def missing(self, router: int) -> int:
        """How many prefixes of others the router's kernel has no route to."""
        words = ["ip", "-j", "-n", self.name(router), "-4", "route", "show", "table", "all"]
        text = subprocess.run(words, check=True, capture_output=True, text=True).stdout
        wanted = {a.prefix for a in self.network.attachments if a.router != router}
        return len(wanted - {route["dst"] for route in json.loads(text or "[]") if leads_on(route)})

    # ---- what happens to links: `end` is the router, 0 or 1, that sees it, or whose packets are lost

    def change(self, kind: str, link: int, end: int, fails: bool) -> None:
        here = self.network.links[link][end]
        there = self.network.links[link].other(here)
        state = "down" if fails else "up"
        if kind in ("onesided", "admin"):
            self.ip(here, "link", "set", f"l{link}", state)
        if kind in ("cut", "onecut"):
            self.ip("between", "link", "set", f"to{link}r{here}", state)
        if kind in ("cut", "admin"):
            self.ip("between", "link", "set", f"to{link}r{there}", state)
        if kind == "silent":
            for at, router in ((end, here), (1 - end, there)):
                master = ["nomaster"] if fails else ["master", self.bridge(link, at)]
                self.ip("between", "link", "set", f"to{link}r{router}", *master)
        if kind == "deaf":
            self.filter(link, [here, there], SPOKEN, fails)
        if kind == "oneway":
            self.filter(link, [here], "drop;", fails)

    def filter(self, link: int, routers: list[int], rules: str, stands: bool) -> None:
        """Drops what comes from these routers on a link, or no longer."""
        hook = "type filter hook ingress device"
        chains = " ".join(f'chain r{r} {{ {hook} "to{link}r{r}" priority 0; {rules} }};' for r in routers)
        text = f"table netdev link{link} {{ {chains} }}" if stands else f"delete table netdev link{link}"
        words = [*self.command("between"), "nft", "-f", "-"]
        done = subprocess.run(words, check=False, input=text, text=True, capture_output=True)
        if done.returncode:
            raise RuntimeError(f"nft: {done.stderr.strip()}")


def leads_on(route: dict[str, object]) -> bool:
    """Whether a route of the kernel leads to a neighbour by a link that works."""
    by_neighbour = any(key in route for key in ("gateway", "nexthops", "nhid"))
    return by_neighbour and "linkdown" not in str(route.get("flags"))
