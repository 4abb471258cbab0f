"""The shared library: where it is found, its structures, and the types of its functions.

The structures and functions are those of the headers `tuhvondi.h`, `tuhvondi_router.h` and
`tuhvondi_network.h`. `tests/test_headers.py` compares them with the headers.
"""

from __future__ import annotations

import ctypes
import functools
import os
from ctypes import POINTER, Structure, c_bool, c_size_t, c_uint8, c_uint16, c_uint32, c_uint64, c_void_p
from pathlib import Path
from types import SimpleNamespace
from typing import Any, Iterator

# The name of the library that has these functions and structures.
SONAME = "libtuhvondi.so.0"
# How many ports a router has at most.
PORTS = 32
# The distance of a destination that cannot be reached, and the largest number that a field of a cost can
# hold.
INFINITY = 0xFFFFFFFF
# The number of no port.
NO_PORT = 255
# The length of a cursor at the end of the rows.
NO_PREFIX = 33
# The word of a row that was given without one, and of an address that no row covers.
NO_WORD = 0xFFFFFFFF


class LibraryNotFound(ImportError):
    """libtuhvondi.so is not there, or is older than this package.

    >>> issubclass(LibraryNotFound, ImportError)
    True
    """


class Handle(Structure):
    """What holds an image, a router or a network, or nothing."""

    _fields_ = [("held_", c_void_p), ("holds_", c_bool)]


class RowParts(Structure):
    _fields_ = [("addr", c_uint32), ("len", c_uint8), ("kind", c_uint8), ("port", c_uint8),
                ("session", c_uint16)]


class PrefixParts(Structure):
    _fields_ = [("addr", c_uint32), ("len", c_uint8)]


class AttachmentParts(Structure):
    _fields_ = [("addr", c_uint32), ("cost", c_uint32), ("len", c_uint8)]


class MessageParts(Structure):
    _fields_ = [("addr", c_uint32), ("value", c_uint32), ("session", c_uint16), ("len", c_uint8),
                ("kind", c_uint8), ("port", c_uint8)]


class CountsParts(Structure):
    _fields_ = [("prefixes", c_size_t), ("changed", c_size_t), ("held", c_size_t),
                ("ripe", c_size_t), ("generation", c_uint64), ("due", c_uint8)]


class PrefixStateParts(Structure):
    _fields_ = [("rd", c_uint32), ("fd", c_uint32), ("attached", c_uint32), ("chosen", RowParts),
                ("published", RowParts), ("active", c_uint8), ("owed", c_uint8),
                ("awaited", c_uint8 * PORTS)]


class LimitsParts(Structure):
    _fields_ = [("routers", c_size_t), ("links", c_size_t), ("ports", c_size_t), ("prefixes", c_size_t),
                ("attachments", c_size_t)]


class LinkParts(Structure):
    _fields_ = [("from_a", c_uint32), ("from_b", c_uint32), ("a", c_uint16), ("b", c_uint16)]


class OwnerParts(Structure):
    _fields_ = [("addr", c_uint32), ("cost", c_uint32), ("router", c_uint16), ("len", c_uint8)]


class FaultPlaceParts(Structure):
    _fields_ = [("position", c_size_t), ("list", c_uint8)]


class StepParts(Structure):
    _fields_ = [("addr", c_uint32), ("cost", c_uint32), ("subject", c_uint16), ("kind", c_uint8),
                ("port", c_uint8), ("len", c_uint8)]


class NetworkCountsParts(Structure):
    _fields_ = [("steps", c_uint64), ("updates", c_uint64), ("queries", c_uint64),
                ("replies", c_uint64)]


class NeighbourParts(Structure):
    _fields_ = [("reported", c_uint32), ("cost", c_uint32), ("up", c_uint8)]


class MachineParts(Structure):
    _fields_ = [("state", PrefixStateParts), ("neighbours", NeighbourParts * PORTS),
                ("successor", c_uint8)]


class LinkStateParts(Structure):
    _fields_ = [("to_a", c_size_t), ("to_b", c_size_t), ("from_a", c_uint32), ("from_b", c_uint32),
                ("a", c_uint16), ("b", c_uint16), ("session", c_uint16), ("up", c_uint8)]


class ItemParts(Structure):
    _fields_ = [("addr", c_uint32), ("value", c_uint32), ("session", c_uint16), ("kind", c_uint8),
                ("len", c_uint8)]


class GateParts(Structure):
    _fields_ = [("held", c_size_t), ("ripe", c_size_t), ("notices", c_size_t),
                ("generation", c_uint64), ("front", MessageParts), ("due", c_uint8)]


class NoticeParts(Structure):
    _fields_ = [("addr", c_uint32), ("cost", c_uint32), ("len", c_uint8)]


class DelayParts(Structure):
    _fields_ = [("to_a", c_uint64), ("to_b", c_uint64)]


class EventParts(Structure):
    _fields_ = [("moment", c_uint64), ("step", StepParts), ("given", c_uint8)]


class SpellParts(Structure):
    _fields_ = [("from", c_uint64), ("to", c_uint64), ("addr", c_uint32), ("router", c_uint16), ("len", c_uint8)]


# The structures by their names in the headers.
STRUCTURES = {
    "tuhvondi_row": RowParts, "tuhvondi_prefix": PrefixParts, "tuhvondi_image": Handle,
    "tuhvondi_attachment": AttachmentParts, "tuhvondi_message": MessageParts, "tuhvondi_counts": CountsParts,
    "tuhvondi_prefix_state": PrefixStateParts, "tuhvondi_router": Handle,
    "tuhvondi_limits": LimitsParts, "tuhvondi_link": LinkParts, "tuhvondi_owner": OwnerParts, "tuhvondi_fault_place": FaultPlaceParts,
    "tuhvondi_step": StepParts, "tuhvondi_network_counts": NetworkCountsParts,
    "tuhvondi_neighbour": NeighbourParts, "tuhvondi_machine": MachineParts,
    "tuhvondi_link_state": LinkStateParts, "tuhvondi_item": ItemParts, "tuhvondi_gate": GateParts,
    "tuhvondi_notice": NoticeParts, "tuhvondi_delays": DelayParts, "tuhvondi_event": EventParts,
    "tuhvondi_spell": SpellParts, "tuhvondi_network": Handle,
}

_IMAGE = _ROUTER = _NETWORK = POINTER(Handle)
_ROWS, _SIZE, _BYTE, _U32S = POINTER(RowParts), POINTER(c_size_t), POINTER(c_uint8), POINTER(c_uint32)
_NUMBER = POINTER(c_uint64)

# The types of the arguments of each function. Each answers a status, but for those that free.
FUNCTIONS: dict[str, list[Any]] = {
    "tuhvondi_image_new": [_ROWS, c_size_t, _IMAGE],
    "tuhvondi_image_apply": [_IMAGE, c_uint64, _ROWS, c_size_t],
    "tuhvondi_image_remove": [_IMAGE, c_uint64, POINTER(PrefixParts), c_size_t],
    "tuhvondi_image_share": [_IMAGE, _IMAGE],
    "tuhvondi_image_copy": [_IMAGE, _IMAGE],
    "tuhvondi_image_lookup": [_IMAGE, _U32S, c_size_t, _ROWS, c_size_t],
    "tuhvondi_image_rows": [_IMAGE, POINTER(PrefixParts), _ROWS, c_size_t, _SIZE],
    "tuhvondi_image_row_count": [_IMAGE, _SIZE],
    "tuhvondi_image_bytes": [_IMAGE, _SIZE],
    "tuhvondi_image_generation": [_IMAGE, _NUMBER],
    "tuhvondi_image_free": [_IMAGE],
    "tuhvondi_image_new_words": [_ROWS, c_size_t, _U32S, c_size_t, _IMAGE],
    "tuhvondi_image_apply_words": [_IMAGE, c_uint64, _ROWS, c_size_t, _U32S, c_size_t],
    "tuhvondi_image_lookup_words": [_IMAGE, _U32S, c_size_t, _U32S, c_size_t],
    "tuhvondi_image_rows_words": [_IMAGE, POINTER(PrefixParts), _ROWS, c_size_t, _U32S, c_size_t, _SIZE],
    "tuhvondi_router_new": [_U32S, c_size_t, POINTER(AttachmentParts), c_size_t, c_size_t, _ROUTER],
    "tuhvondi_router_link_up": [_ROUTER, c_uint8, c_uint16, c_uint32],
    "tuhvondi_router_link_down": [_ROUTER, c_uint8],
    "tuhvondi_router_link_cost": [_ROUTER, c_uint8, c_uint32],
    "tuhvondi_router_message": [_ROUTER, POINTER(MessageParts)],
    "tuhvondi_router_attached": [_ROUTER, c_uint32, c_uint8, c_uint32],
    "tuhvondi_router_detached": [_ROUTER, c_uint32, c_uint8],
    "tuhvondi_router_counts": [_ROUTER, POINTER(CountsParts)],
    "tuhvondi_router_publish": [_ROUTER, _ROWS, c_size_t, _SIZE, _BYTE, _NUMBER],
    "tuhvondi_router_release": [_ROUTER, POINTER(MessageParts)],
    "tuhvondi_router_state": [_ROUTER, c_uint32, c_uint8, POINTER(PrefixStateParts)],
    "tuhvondi_router_rows": [_ROUTER, _ROWS, c_size_t, _SIZE],
    "tuhvondi_router_forget": [_ROUTER, c_uint32, c_uint8],
    "tuhvondi_router_free": [_ROUTER],
    "tuhvondi_network_new": [c_uint16, POINTER(LinkParts), c_size_t, POINTER(OwnerParts), c_size_t,
                             POINTER(FaultPlaceParts), _NETWORK],
    "tuhvondi_network_within": [POINTER(LimitsParts), c_size_t, POINTER(LinkParts), c_size_t, POINTER(OwnerParts),
                                c_size_t, POINTER(FaultPlaceParts), _NETWORK],
    "tuhvondi_network_copy": [_NETWORK, _NETWORK],
    "tuhvondi_network_step": [_NETWORK, POINTER(StepParts)],
    "tuhvondi_network_run": [_NETWORK, POINTER(StepParts), c_size_t, _SIZE],
    "tuhvondi_network_next_step": [_NETWORK, c_uint16, POINTER(StepParts)],
    "tuhvondi_network_settle": [_NETWORK, c_uint64, c_size_t, _SIZE],
    "tuhvondi_network_is_settled": [_NETWORK, _BYTE],
    "tuhvondi_network_lookup": [_NETWORK, c_uint16, _U32S, c_size_t, _ROWS, c_size_t],
    "tuhvondi_network_trace": [_NETWORK, c_uint16, c_uint32, POINTER(c_uint16), c_size_t, _SIZE, _BYTE],
    "tuhvondi_network_rows": [_NETWORK, c_uint16, _ROWS, c_size_t, _SIZE, _BYTE],
    "tuhvondi_network_counts": [_NETWORK, POINTER(NetworkCountsParts)],
    "tuhvondi_network_machine": [_NETWORK, c_uint16, c_uint32, c_uint8, POINTER(MachineParts)],
    "tuhvondi_network_link": [_NETWORK, c_uint16, POINTER(LinkStateParts)],
    "tuhvondi_network_queue": [_NETWORK, c_uint16, c_uint8, POINTER(ItemParts), c_size_t, _SIZE, _BYTE],
    "tuhvondi_network_gate": [_NETWORK, c_uint16, POINTER(GateParts)],
    "tuhvondi_network_held": [_NETWORK, c_uint16, POINTER(MessageParts), c_size_t, _SIZE, _BYTE],
    "tuhvondi_network_notices": [_NETWORK, c_uint16, POINTER(NoticeParts), c_size_t, _SIZE, _BYTE],
    "tuhvondi_network_free": [_NETWORK],
    "tuhvondi_network_with_delays": [POINTER(LimitsParts), c_size_t, POINTER(LinkParts), c_size_t, POINTER(OwnerParts),
                                     c_size_t, POINTER(DelayParts), c_size_t, _NUMBER, c_size_t, c_uint8,
                                     POINTER(FaultPlaceParts), _NETWORK],
    "tuhvondi_network_at": [_NETWORK, c_uint64, POINTER(StepParts)],
    "tuhvondi_network_withdraw": [_NETWORK, POINTER(EventParts)],
    "tuhvondi_network_run_until": [_NETWORK, c_uint64, c_size_t, _SIZE],
    "tuhvondi_network_run_to_rest": [_NETWORK, c_size_t, _SIZE],
    "tuhvondi_network_now": [_NETWORK, _NUMBER],
    "tuhvondi_network_next_event": [_NETWORK, POINTER(EventParts)],
    "tuhvondi_network_is_at_rest": [_NETWORK, _BYTE],
    "tuhvondi_network_computations": [_NETWORK, c_size_t, POINTER(SpellParts), c_size_t, _SIZE, _BYTE],
    "tuhvondi_network_computing": [_NETWORK, POINTER(SpellParts), c_size_t, _SIZE, _BYTE],
    "tuhvondi_network_outages": [_NETWORK, c_size_t, POINTER(SpellParts), c_size_t, _SIZE, _BYTE],
    "tuhvondi_network_cut_off": [_NETWORK, POINTER(SpellParts), c_size_t, _SIZE, _BYTE],
}


def _places() -> Iterator[str]:
    """Where the library may be: where TUHVONDI_LIBRARY says, else beside this file, else where the system
    looks.
    """
    named = os.environ.get("TUHVONDI_LIBRARY")
    if named:
        yield named
        return
    beside = Path(__file__).resolve().with_name("libtuhvondi.so")
    if beside.exists():
        yield str(beside)
    yield SONAME


def _missing(name: str) -> Any:
    """Stands in for a function that the library does not have."""
    def refuse(*_arguments: Any) -> Any:
        raise LibraryNotFound(f"the library has no {name}: it is older than this package")
    return refuse


@functools.lru_cache(maxsize=None)
def functions() -> SimpleNamespace:
    """The functions of the library by their names, without `tuhvondi_`. The library is loaded at the first
    call.

    A call keeps the interpreter's lock (PyDLL). So no two threads are in the library at once, as its rules
    ask.
    """
    why = ""
    for place in _places():
        try:
            library = ctypes.PyDLL(place)
        except OSError as error:
            why = str(error)
            continue
        found = {}
        for name, types in FUNCTIONS.items():
            function = getattr(library, name, None)
            if function is None:
                function = _missing(name)
            else:
                function.argtypes = types
                function.restype = None if name.endswith("_free") else c_uint32
            found[name[len("tuhvondi_"):]] = function
        return SimpleNamespace(**found)
    raise LibraryNotFound(
        f"{why}; the wheel has it, libtuhvondi0 for Debian, and what ./install installs, and TUHVONDI_LIBRARY says where it is")
