"""What a kernel tells of its interfaces and routes by rtnetlink, and when: trials/scale stands on this."""

import ctypes
import os
import socket
import struct
import time
from dataclasses import dataclass, field
from pathlib import Path

SO_RCVBUFFORCE, BYTES = 33, 64 << 20
LINKS, ROUTES = 0x1, 0x40  # RTMGRP_LINK, RTMGRP_IPV4_ROUTE
NEWLINK, NEWROUTE, DELROUTE = 16, 24, 25
RUNNING, UNICAST, TO, GATEWAY = 0x40, 1, 1, 5


class Notices:
    """Those of the kernel of a namespace, from now on."""

    def __init__(self, name: str) -> None:
        libc = ctypes.CDLL(None, use_errno=True)
        here, there = os.open("/proc/self/ns/net", os.O_RDONLY), os.open(Path("/run/netns") / name, os.O_RDONLY)
        try:
            if libc.setns(there, 0):
                raise OSError(ctypes.get_errno(), "setns")
            self.socket = socket.socket(socket.AF_NETLINK, socket.SOCK_RAW, 0)
        finally:
            libc.setns(here, 0)
            os.close(here)
            os.close(there)
        self.socket.setsockopt(socket.SOL_SOCKET, SO_RCVBUFFORCE, BYTES)
        self.socket.bind((0, LINKS | ROUTES))

    def until_quiet(self, seconds: float) -> list[tuple[int, bytes]]:
        """All that come until none has come for so long, each with the ns of time.monotonic_ns()."""
        self.socket.settimeout(seconds)
        found = []
        try:
            while True:
                message = self.socket.recv(1 << 16)
                found.append((time.monotonic_ns(), message))
        except TimeoutError:
            return found

    def close(self) -> None:
        self.socket.close()


@dataclass
class Reading:
    """Which of the prefixes 172.x.y.0/24 lead to a neighbour, and since when, by the notices that are taken. `began`: when
    the interface of this index lost carrier, or works again. `routes`: how many notices were of these prefixes."""

    index: int
    works: bool
    by: bytes
    began: int = 0
    routes: int = 0
    now: dict[bytes, tuple[bytes, int]] = field(default_factory=dict)

    def take(self, at: int, message: bytes) -> None:
        kind = struct.unpack_from("=H", message, 4)[0]
        if kind == NEWLINK and not self.began:
            index, flags = struct.unpack_from("=iI", message, 20)
            if index == self.index and bool(flags & RUNNING) == self.works:
                self.began = at
        elif kind in (NEWROUTE, DELROUTE) and message[17] == 24 and message[23] == UNICAST:
            self.take_route(at, kind == NEWROUTE, message)

    def take_route(self, at: int, stands: bool, message: bytes) -> None:
        words, place = {}, 28
        while place + 4 <= len(message):
            size, name = struct.unpack_from("=HH", message, place)
            words[name] = message[place + 4:place + size]
            place += max(4, (size + 3) & ~3)
        to, by = words.get(TO, b""), words.get(GATEWAY, b"")
        if to[:1] != b"\xac":
            return
        self.routes += 1
        if stands:
            self.now[to] = (by, at)
        elif self.now.get(to, (b"", 0))[0] == by:
            del self.now[to]

    def times(self) -> list[int]:
        """When each of these routes came, in order."""
        return sorted(at for by, at in self.now.values() if by == self.by)
