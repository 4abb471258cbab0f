"""Prefixes, addresses, costs and rows, as Python has them and as the library has them."""

from __future__ import annotations

import ctypes
import enum
import functools
import math
import operator
from ipaddress import AddressValueError, IPv4Address, IPv4Network, NetmaskValueError
from typing import Any, Iterable, NamedTuple, Optional, Union

from . import _library
from .status import BadCost, BadLength, HostBits

# What stands for a prefix: a text such as "10.0.0.0/8", or an IPv4Network.
Prefix = Union[str, IPv4Network]
# What stands for an address: a text such as "10.1.2.3", a number of 32 bits, or an IPv4Address.
Address = Union[str, int, IPv4Address]
# A distance: a sum of costs, or math.inf if the destination cannot be reached.
Distance = Union[int, float]


class Kind(enum.IntEnum):
    """What happens to the packets that a row's prefix matches.

    - LOCAL: they have arrived, because the router is attached to the prefix.
    - VIA: they go to the neighbour at the row's port, while that link is up in the row's session.
    - UNREACHABLE: they go nowhere.

    >>> Kind.VIA.name, Kind.VIA.value
    ('VIA', 1)
    """

    LOCAL = 0
    VIA = 1
    UNREACHABLE = 2


class Row(NamedTuple):
    """A row of a forwarding table: a prefix, and where packets go.

    A row of kind VIA has a port, 0 to 31, and a session, 0 to 65535. In other rows both are None.

    >>> row = Row.via("10.0.0.0/8", port=3, session=1)
    >>> row.kind, row.port
    (<Kind.VIA: 1>, 3)
    >>> print(row)
    10.0.0.0/8 via 3 1
    """

    prefix: IPv4Network
    kind: Kind
    port: Optional[int] = None
    session: Optional[int] = None

    @classmethod
    def local(cls, prefix: Prefix) -> Row:
        """The row of a prefix to which the router is attached.

        >>> print(Row.local("10.0.0.0/8"))
        10.0.0.0/8 local
        """
        return cls(network_of(*prefix_parts(prefix)), Kind.LOCAL)

    @classmethod
    def via(cls, prefix: Prefix, port: int, session: int = 1) -> Row:
        """The row of a prefix whose packets go to the neighbour at a port.

        >>> print(Row.via("192.0.2.0/24", 0))
        192.0.2.0/24 via 0 1
        """
        return cls(network_of(*prefix_parts(prefix)), Kind.VIA, port, session)

    @classmethod
    def unreachable(cls, prefix: Prefix) -> Row:
        """The row of a prefix whose packets go nowhere.

        >>> print(Row.unreachable("0.0.0.0/0"))
        0.0.0.0/0 unreachable
        """
        return cls(network_of(*prefix_parts(prefix)), Kind.UNREACHABLE)

    def __str__(self) -> str:
        if self.kind == Kind.VIA:
            return f"{self.prefix} via {self.port} {self.session}"
        return f"{self.prefix} {self.kind.name.lower()}"


@functools.lru_cache(maxsize=65536)
def network_of(addr: int, length: int) -> IPv4Network:
    """The prefix of an address and a length."""
    return IPv4Network((addr, length))


@functools.lru_cache(maxsize=65536)
def _prefix_of_text(text: str) -> tuple[int, int]:
    try:
        network = IPv4Network(text)
    except NetmaskValueError:
        raise BadLength(repr(text)) from None
    except AddressValueError:
        raise
    except ValueError:
        raise HostBits(repr(text)) from None
    return int(network.network_address), network.prefixlen


def prefix_parts(prefix: Prefix) -> tuple[int, int]:
    """The address and the length of a prefix. A text that is no prefix, or has host bits, is a ValueError."""
    if isinstance(prefix, str):
        return _prefix_of_text(prefix)
    if isinstance(prefix, IPv4Network):
        return int(prefix.network_address), prefix.prefixlen
    raise TypeError(f"{prefix!r} is no prefix: give a text such as '10.0.0.0/8', or an IPv4Network")


def address_number(address: Address) -> int:
    """The number of an address."""
    if isinstance(address, int) and not 0 <= address <= 0xFFFFFFFF:
        raise ValueError(f"{address} is no address of 32 bits")
    return address if isinstance(address, int) else int(IPv4Address(address))


def cost_number(cost: int) -> int:
    """A cost that the library can be given. It refuses those outside 1 to 65535 itself."""
    try:
        is_whole = not isinstance(cost, bool) and cost == int(cost)
    except (TypeError, ValueError, OverflowError):
        is_whole = False
    if not is_whole:
        raise BadCost(f"{cost!r} is no whole number")
    if not 0 <= cost <= 0xFFFFFFFF:
        raise BadCost(str(cost))
    return int(cost)


def number_of(name: str, value: Any, most: int) -> int:
    """A whole number from 0 to a maximum, because ctypes would cut a larger one, and refuse 1e6 in its own words."""
    try:
        number = operator.index(value)
    except TypeError:
        raise ValueError(f"the {name} is {value!r}, and has to be a whole number, as 1_000_000 and int(1e6) are") from None
    if not 0 <= number <= most:
        raise ValueError(f"the {name} {number} is outside 0 to {most}")
    return number


def distance_of(value: int) -> Distance:
    """A distance of the library: math.inf for its largest number."""
    return math.inf if value == _library.INFINITY else value


def row_of(parts: _library.RowParts) -> Optional[Row]:
    """A row of the library, or None where it says that there is none."""
    if parts.kind > Kind.UNREACHABLE:
        return None
    prefix = network_of(parts.addr, parts.len)
    if parts.kind == Kind.VIA:
        return Row(prefix, Kind.VIA, parts.port, parts.session)
    return Row(prefix, Kind(parts.kind))


def rows_array(rows: Iterable[Row]) -> tuple[ctypes.Array, int]:
    """Rows as the library takes them, and how many they are."""
    given = list(rows)
    array = (_library.RowParts * max(1, len(given)))()
    for parts, row in zip(array, given):
        parts.addr, parts.len = prefix_parts(row.prefix)
        parts.kind = Kind(row.kind)
        if row.kind == Kind.VIA:
            if row.port is None:
                raise ValueError(f"the row of {row.prefix} has no port")
            parts.port = number_of("port", row.port, 255)
            parts.session = number_of("session", row.session or 0, 65535)
    return array, len(given)
