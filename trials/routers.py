"""The daemons of a trial, one a router, by protocol: how they are configured, started, changed and ended."""

import os
import shutil
import signal
import socket
import subprocess
import time
from pathlib import Path

from place import Attachment, Link, Place
from topology import ROOT

ASK_SECONDS = 5
# The calls of the library that trials/noted.c notes.
NOTED = ("new", "link_up", "link_down", "link_cost", "message", "attached", "detached", "publish", "forget")
UNSEEN = ("silent", "oneway", "onesided", "onecut", "deaf")
FRR = Path("/usr/lib/frr")


def ignore_hang_up() -> None:
    """A reload that comes before the program has begun ends nothing: the program reads its file later."""
    signal.signal(signal.SIGHUP, signal.SIG_IGN)


class Daemons:
    """What all protocols have in common. `up`: seconds that a repair takes at most; `seen`, `unseen`: that a failure takes
    if an interface tells of it, and if none does."""

    needs: tuple[str, ...] = ()
    up, seen, unseen = 6.0, 5.0, 9.0
    greatest_cost = 60

    def __init__(self, place: Place, folder: Path) -> None:
        self.place, self.folder, self.network = place, folder, place.network
        self.running: dict[int, list[subprocess.Popen[bytes]]] = {}
        self.costs = {(k, end): self.first_cost(link[2 + end]) for k, link in enumerate(self.network.links) for end in (0, 1)}

    def first_cost(self, cost: int) -> int:
        return cost

    def wait(self, kind: str) -> float:
        """Seconds between an event of this kind and what undoes it."""
        if kind == "freeze":
            return self.unseen + 2
        return self.unseen if kind in UNSEEN else self.seen

    def links(self, router: int) -> list[tuple[int, Link, int]]:
        """The links of a router, each with its number and the cost from here."""
        mine = [(k, link) for k, link in enumerate(self.network.links) if router in (link.a, link.b)]
        return [(k, link, self.costs[k, 0 if link.a == router else 1]) for k, link in mine]

    def attachments(self, router: int) -> list[Attachment]:
        return [a for a in self.network.attachments if a.router == router]

    def run(self, router: int, *words: str | Path) -> None:
        """Starts a process that ends when this one does."""
        dies = ["setpriv", "--pdeathsig", "KILL"] if shutil.which("setpriv") else []
        with (self.folder / f"r{router}.log").open("ab") as log:
            command = [*dies, *self.place.command(router), *map(str, words)]
            process = subprocess.Popen(command, stdin=subprocess.DEVNULL, stdout=log, stderr=log, preexec_fn=ignore_hang_up)
        self.running.setdefault(router, []).append(process)

    def start(self, router: int) -> None:
        raise NotImplementedError

    def set_cost(self, link: int, end: int) -> None:
        """Tells the router at this end of the link its new cost there."""
        raise NotImplementedError

    def cost(self, link: int, end: int, cost: int) -> None:
        self.costs[link, end] = self.first_cost(cost)
        self.set_cost(link, end)

    def kill(self, router: int) -> None:
        for process in self.running.pop(router):
            process.kill()
            process.wait()

    def tell(self, router: int, number: signal.Signals) -> None:
        for process in self.running[router]:
            process.send_signal(number)

    def withdraw(self, router: int) -> None:
        """Takes the router's own prefix away: its interface goes down."""
        self.place.ip(router, "link", "set", "stub", "down")

    def attach(self, router: int) -> None:
        self.place.ip(router, "link", "set", "stub", "up")

    def ended(self) -> list[int]:
        """The routers whose daemons have ended by themselves."""
        return [r for r, processes in self.running.items() if any(p.poll() is not None for p in processes)]

    def stop(self) -> None:
        for router in self.running:
            self.tell(router, signal.SIGCONT)
            self.tell(router, signal.SIGTERM)
        for processes in self.running.values():
            for process in processes:
                try:
                    process.wait(5)
                except subprocess.TimeoutExpired:
                    process.kill()


def build_dualnetd(folder: Path, notes: bool = False) -> Path:
    """The program that DUALNETD names, else the one that is built into this folder; always built if it is to take notes."""
    if (named := os.environ.get("DUALNETD")) and not notes:
        return Path(named).resolve()
    archive = os.environ.get("TUHVONDI_LIB")
    if not archive:
        archive = str(folder / "libtuhvondi.a")
        subprocess.run([ROOT / "install", "--archive", archive], check=True)
    flags = []
    if notes:
        archive = shutil.copy(archive, folder / "libnoted.a")
        words = ["cc", "-std=c11", "-O2", "-fPIE", "-Wall", "-Wextra", "-Werror", "-I", ROOT / "include", "-c"]
        subprocess.run([*words, "-o", folder / "noted.o", Path(__file__).resolve().parent / "noted.c"], check=True)
        subprocess.run(["ar", "r", archive, folder / "noted.o"], check=True)
        flags = [f"LDFLAGS=-pie {' '.join(f'-Wl,--wrap=tuhvondi_router_{name}' for name in NOTED)}"]
    words = ["make", "-s", "-C", ROOT / "daemon", f"OUT={folder}", f"TUHVONDI_LIB={archive}", *flags, "all"]
    subprocess.run(words, check=True)
    return folder / "dualnetd"


def ask(control: Path, line: str) -> str:
    """What the daemon at this socket answers."""
    with socket.socket(socket.AF_UNIX) as client:
        client.settimeout(ASK_SECONDS)
        client.connect(str(control))
        client.sendall(line.encode() + b"\n")
        return b"".join(iter(lambda: client.recv(65536), b"")).decode()


class Dualnetd(Daemons):
    """`program` is set before the first one is made. `more`: lines of a router beside those of its links, of which `without`
    (router and link) are left out. If `may_refuse`, the kernel of a router can refuse routes. If `notes`, the program was
    built to take them."""

    up, seen, unseen = 2.5, 2.5, 6.5
    program = Path()
    may_refuse = notes = False

    def __init__(self, place: Place, folder: Path) -> None:
        super().__init__(place, folder)
        self.more: dict[int, str] = {}
        self.without: set[tuple[int, int]] = set()

    def wait(self, kind: str) -> float:
        return {"kill": 4.0, "freeze": 7.0}.get(kind, super().wait(kind))

    def write(self, router: int) -> Path:
        lines = [f"router-id 10.254.0.{router + 1}", f"control {self.control(router)}"]
        for k, link, cost in self.links(router):
            there = self.place.address(link.other(router), k)
            if (router, k) not in self.without:
                lines.append(f"neighbour {there} {cost}{' passive' if router == link.b else ''}")
        lines += [f"attach {a.prefix} {a.cost}" for a in self.attachments(router)]
        config, whole = (self.folder / f"r{router}.conf{more}" for more in ("", ".new"))
        whole.write_text("\n".join([*lines, self.more.get(router, "")]) + "\n", encoding="utf-8")
        # A daemon that begins just now reads the old file or the new one, and no half of one.
        return whole.replace(config)

    def start(self, router: int) -> None:
        words: list[str | Path] = [self.program, self.write(router), "--install"]
        if self.notes:
            words = ["env", f"NOTES={self.folder / f'r{router}.notes'}", *words]
        if self.may_refuse:
            words = ["env", f"LD_PRELOAD={self.shim()}", f"BLOCK_FILE={self.refusal(router)}", *words]
        self.run(router, *words)

    def shim(self) -> Path:
        """What stands between a daemon and its kernel."""
        shim = self.folder / "block.so"
        if not shim.exists():
            words = ["cc", "-shared", "-fPIC", "-O2", "-Wall", "-Werror", "-o", shim, Path(__file__).resolve().parent / "block.c", "-ldl"]
            subprocess.run(words, check=True)
        return shim

    def refusal(self, router: int) -> Path:
        return self.folder / f"r{router}.refuses"

    def refuse(self, router: int, instead: str = "") -> None:
        """The kernel of the router takes no routes from now on, or `instead` what trials/block.c says."""
        whole = self.refusal(router).with_suffix(".new")
        whole.write_text(instead, encoding="utf-8")
        whole.replace(self.refusal(router))

    def accept(self, router: int) -> None:
        self.refusal(router).unlink()

    def reload(self, router: int) -> None:
        """The router's file is as it has to be; a daemon that runs reads it."""
        self.write(router)
        if router in self.running:
            self.tell(router, signal.SIGHUP)

    def take_out(self, router: int, link: int) -> None:
        """The router has no line of its neighbour on the link any more."""
        self.without.add((router, link))
        self.reload(router)

    def put_back(self, router: int, link: int) -> None:
        self.without.discard((router, link))
        self.reload(router)

    def control(self, router: int) -> Path:
        return self.folder / f"r{router}.sock"

    def ask(self, router: int, line: str) -> str:
        """What the daemon answers; one that has just been started may not listen yet."""
        until = time.monotonic() + ASK_SECONDS
        while True:
            try:
                return ask(self.control(router), line)
            except (FileNotFoundError, ConnectionRefusedError):
                if time.monotonic() > until:
                    raise
                time.sleep(0.02)

    def set_cost(self, link: int, end: int) -> None:
        ends = self.network.links[link]
        there = self.place.address(ends[1 - end], link)
        self.ask(ends[end], f"cost {there} {self.costs[link, end]}")

    def withdraw(self, router: int) -> None:
        self.ask(router, f"detach {self.network.attachments[router].prefix}")

    def attach(self, router: int) -> None:
        own = self.network.attachments[router]
        self.ask(router, f"attach {own.prefix} {own.cost}")


class Static(Daemons):
    """No daemon: each route leads to the next router of a ring, and so packets for a prefix that is taken away circle. This
    shows that the trial sees packets that circle."""

    up, seen, unseen = 1.0, 1.0, 1.0

    def onward(self, router: int) -> str:
        return self.place.address((router + 1) % self.network.routers, router)

    def start(self, router: int) -> None:
        ring = [(r, (r + 1) % self.network.routers) for r in range(self.network.routers)]
        if [link[:2] for link in self.network.links] != ring:
            raise ValueError("static routes need a ring")
        self.running[router] = []
        for own in self.network.attachments:
            if own.router != router:
                self.place.ip(router, "route", "add", own.prefix, "via", self.onward(router))

    def withdraw(self, router: int) -> None:
        own = self.network.attachments[router]
        self.place.ip(router, "address", "del", f"{own.address()}/24", "dev", "stub")
        self.place.ip(router, "route", "add", own.prefix, "via", self.onward(router))

    def attach(self, router: int) -> None:
        own = self.network.attachments[router]
        self.place.ip(router, "route", "del", own.prefix)
        self.place.ip(router, "address", "add", f"{own.address()}/24", "dev", "stub")


class Bird(Daemons):
    """BIRD, by one of its protocols. `timers` are words of each interface."""

    needs = ("bird", "birdc")
    timers = ""

    def socket(self, router: int) -> Path:
        return self.folder / f"r{router}.ctl"

    def protocol(self, router: int) -> list[str]:
        raise NotImplementedError

    def write_config(self, router: int) -> Path:
        lines = [f"router id 10.254.0.{router + 1};", "protocol device {}", 'protocol direct { ipv4; interface "stub"; }']
        lines += ["protocol kernel { ipv4 { import none; export where source != RTS_DEVICE; }; }", *self.protocol(router)]
        config = self.folder / f"r{router}.conf"
        config.write_text("\n".join(lines) + "\n", encoding="utf-8")
        return config

    def start(self, router: int) -> None:
        config = self.write_config(router)
        self.run(router, "bird", "-f", "-c", config, "-s", self.socket(router), "-P", self.folder / f"r{router}.pid")

    def set_cost(self, link: int, end: int) -> None:
        router = self.network.links[link][end]
        self.write_config(router)
        subprocess.run(["birdc", "-s", self.socket(router), "configure"], check=False, capture_output=True, timeout=10)


class BirdOspf(Bird):
    up, seen, unseen = 16.0, 6.0, 48.0
    tick, bfd = "", ""

    def protocol(self, router: int) -> list[str]:
        lines = [f"protocol ospf v2 walk {{ {self.tick} area 0 {{"]
        lines += [f'interface "l{k}" {{ type ptp; cost {cost}; {self.timers} }};' for k, _, cost in self.links(router)]
        return [*lines, 'interface "stub" { stub; cost 1; };', "}; }", *([self.bfd] if self.bfd else [])]


class BirdOspfFast(BirdOspf):
    up, seen, unseen = 6.0, 5.0, 9.0
    tick, timers = "tick 1;", "hello 1; dead 4; retransmit 2;"


class BirdOspfBfd(BirdOspfFast):
    unseen = 6.0
    timers = BirdOspfFast.timers + " bfd yes;"
    bfd = 'protocol bfd { interface "l*" { min rx interval 100 ms; min tx interval 100 ms; multiplier 3; }; }'


class BirdRip(Bird):
    up, seen, unseen = 6.0, 12.0, 215.0
    greatest_cost = 4

    def first_cost(self, cost: int) -> int:
        """A way of RIP has a metric of 15 at most."""
        return 1 if cost > self.greatest_cost else cost

    def protocol(self, router: int) -> list[str]:
        lines = ["protocol rip walk { ipv4 { import all; export all; };"]
        lines += [f'interface "l{k}" {{ metric {cost}; {self.timers} }};' for k, _, cost in self.links(router)]
        return [*lines, "}"]


class BirdRipFast(BirdRip):
    up, seen, unseen = 6.0, 8.0, 14.0
    timers = "update time 2; timeout time 8; garbage time 8;"


class BirdBabel(Bird):
    up, seen, unseen = 12.0, 12.0, 30.0

    def protocol(self, router: int) -> list[str]:
        lines = ["protocol babel walk { ipv4 { import all; export where source = RTS_DEVICE || source = RTS_BABEL; };"]
        lines += [f'interface "l{k}" {{ type wired; rxcost {96 + 32 * cost}; }};' for k, _, cost in self.links(router)]
        return [*lines, "}"]


class FrrOspf(Daemons):
    needs = (str(FRR / "zebra"), str(FRR / "ospfd"), "vtysh")
    up, seen, unseen = 16.0, 8.0, 48.0
    # Lines of each interface, of the router, and of zebra.
    timers: tuple[str, ...] = ()
    throttle: tuple[str, ...] = ()
    zebra: tuple[str, ...] = ("ip forwarding",)

    def start(self, router: int) -> None:
        """zebra first, and ospfd when it listens; both run as the user frr."""
        folder = self.folder / f"r{router}"
        folder.mkdir(exist_ok=True)
        lines = []
        for k, _, cost in self.links(router):
            lines += [f"interface l{k}", " ip ospf network point-to-point", f" ip ospf cost {cost}", " ip ospf area 0"]
            lines += [*self.timers, "exit"]
        lines += ["interface stub", " ip ospf area 0", " ip ospf passive", "exit"]
        lines += ["router ospf", f" ospf router-id 10.254.0.{router + 1}", *self.throttle, "exit"]
        (folder / "ospfd.conf").write_text("\n".join(lines) + "\n", encoding="utf-8")
        (folder / "zebra.conf").write_text("\n".join(self.zebra) + "\n", encoding="utf-8")
        for path in (folder, *folder.glob("*.conf")):
            shutil.chown(path, "frr", "frr")
        talk = folder / "zserv.api"
        talk.unlink(missing_ok=True)
        common = ["-u", "frr", "-g", "frr", "-z", talk, "--vty_socket", folder, "--log", f"file:{folder}/log"]
        self.run(router, FRR / "zebra", "-f", folder / "zebra.conf", "-i", folder / "zebra.pid", *common)
        until = time.monotonic() + 5
        while not talk.exists() and time.monotonic() < until:
            time.sleep(0.02)
        self.run(router, FRR / "ospfd", "-f", folder / "ospfd.conf", "-i", folder / "ospfd.pid", *common)

    def set_cost(self, link: int, end: int) -> None:
        folder = self.folder / f"r{self.network.links[link][end]}"
        lines = ["conf t", f"interface l{link}", f"ip ospf cost {self.costs[link, end]}"]
        words = [word for line in lines for word in ("-c", line)]
        subprocess.run(["vtysh", "--vty_socket", folder, *words], check=False, capture_output=True, timeout=10)


class FrrOspfFast(FrrOspf):
    up, seen, unseen = 7.0, 8.0, 10.0
    timers = (" ip ospf hello-interval 1", " ip ospf dead-interval 4")


PROTOCOLS: dict[str, type[Daemons]] = {
    "dualnetd": Dualnetd,
    "bird-ospf": BirdOspf,
    "bird-ospf-fast": BirdOspfFast,
    "bird-ospf-bfd": BirdOspfBfd,
    "bird-rip": BirdRip,
    "bird-rip-fast": BirdRipFast,
    "bird-babel": BirdBabel,
    "frr-ospf": FrrOspf,
    "frr-ospf-fast": FrrOspfFast,
    "static": Static,
}


def missing(protocol: str) -> list[str]:
    """The programs that this protocol needs and that are not installed."""
    return [name for name in PROTOCOLS[protocol].needs if not shutil.which(name)]


def version(protocol: str) -> str:
    """What the protocol's program says of its version."""
    words = {"b": ["bird", "--version"], "f": [str(FRR / "ospfd"), "--version"]}.get(protocol[0])
    if words is None:
        return ""
    done = subprocess.run(words, check=False, capture_output=True, text=True)
    return (done.stdout + done.stderr).splitlines()[0]
