"""Networks of IPv4 routers that route by DUAL, and forward without loops.

What is here
============

- `Network`: a whole network in one process. Links fail and come up again, routers settle, and you ask for
  tables, distances and the ways of packets. Begin here if you simulate.
- `TimedNetwork`: a network in simulated time. Messages are on their way for a time, and routers take a time to
  publish. Begin here if you ask how long a network takes. With `record=True` it keeps a record of computations
  and outages.
- `Router`: one router. You bring it what its links bring, and forward by its rows. Begin here if you have an
  event loop of your own, or if routers are processes of their own.
- `Image`: a forwarding table, which answers addresses by the longest match.
- `tuhvondi.study`: each link or router of a network fails alone, from one settled state: messages, rounds to
  rest, active routers, outages. `python3 -m tuhvondi study FILE` does it with a file of GraphML, and with `--timed`
  by time and beside `tuhvondi.baselines`, which are link state and a distance vector.
- `Refused`: why a call is refused, with an exception for each number of the library.

A first network
===============

A link has a cost, 1 to 65535, from each end. A router can be attached to prefixes. Links come up as a network
is made, but nobody has heard of it yet: `settle` lets routers take turns until nothing is left to do.

>>> import tuhvondi
>>> links = [("a", "b", 1), ("b", "c", 1), ("c", "d", 1), ("d", "a", 9)]
>>> net = tuhvondi.Network("abcd", links, {"a": "10.0.0.0/8"})
>>> net.settle().updates
10
>>> net.distances("10.0.0.0/8")
{'a': 1, 'b': 2, 'c': 3, 'd': 4}
>>> print(net.trace("d", "10.1.2.3"))
d c b a: delivered

A link fails. Packets are lost until routers have heard of it, but no packet meets a router twice:

>>> net.fail("a", "b")
>>> print(net.trace("d", "10.1.2.3"))
d c b: dead link
>>> counts = net.settle()
>>> counts.queries, counts.replies
(3, 3)
>>> print(net.trace("b", "10.1.2.3"))
b c d a: delivered
>>> net.state("c", "10.0.0.0/8").distance
11

A graph of networkx is a network, too: `Network.from_networkx(graph)`, and back by `to_networkx`.

Units
=====

A cost is a whole number from 1 to 65535 and has no unit. A distance is a sum of costs, that of the attachment
at the end included; `math.inf` says that there is no way. A session says how often a link came up. Addresses
are texts such as "10.1.2.3", numbers of 32 bits, or `ipaddress.IPv4Address`. Prefixes are texts such as
"10.0.0.0/8" or `ipaddress.IPv4Network`. A network has no clock: its time is counted in steps. Moments and
delays of a timed network are whole numbers of microseconds, and its opening is at moment 0. A network has at most
65,536 routers and as many links, and a router 32 links.

What is proved
==============

Each answer is that of the library, whose functions are proved: no packet circles, whatever happens and in
whatever order, and rows lead at least cost if nothing is left to do. This package is not proved. It turns
values of Python into values of C and back, and is tested. The library may be one that was built without
proofs: it then says so as it is loaded.

The library is looked for where TUHVONDI_LIBRARY says, else beside this file, else where the system looks for
libraries. The wheel has it, and what `./install` in the repository installs. Its rules ask that no two threads
are in it at once. The interpreter's lock sees to that. In an interpreter without that lock keep what you make
here to one thread.
"""

from . import baselines, study
from ._library import LibraryNotFound
from .image import Image
from .network import (Counts, End, Entry, Held, HeldMessage, Item, ItemKind, LinkState,
                      MachineState, Network, Notice, Step, StepKind, Table, Trace, default_attachments)
from .router import Message, MessageKind, PrefixState, Publication, Router, RouterCounts
from .rows import Address, Distance, Kind, Prefix, Row
from .status import (AlreadyUp, AskedTwice, BadCost, BadCount, BadKind, BadLength, BadLimits,
                     BadLink, BadOwner, BadRouters, EmptyHandle, GenerationsSpent, HasClock, HostBits,
                     IsDown, NoClock, NoMemory, NoRecord, NotAttached, NothingDue, NothingRipe,
                     NothingToDeliver, OtherSession, PastMoment, Refused, SessionsSpent, Shared,
                     StepsSpent, StillUsed, TimeSpent, TooManyLinks, TooManyPorts, TooManyPrefixes, Unasked,
                     UnknownLink, UnknownPort, UnknownPrefix, UnknownRouter)
from .timed import Event, Spell, TimedNetwork

__version__ = "0.2.0"

__all__ = [
    "baselines", "study",
    "Network", "Counts", "End", "Entry", "Held", "HeldMessage", "Item", "ItemKind", "LinkState",
    "MachineState", "Notice", "Step", "StepKind", "Table", "Trace", "default_attachments",
    "TimedNetwork", "Event", "Spell",
    "Router", "Message", "MessageKind", "PrefixState", "Publication", "RouterCounts",
    "Image", "Row", "Kind",
    "Address", "Distance", "Prefix",
    "Refused", "LibraryNotFound", "AlreadyUp", "AskedTwice", "BadCost", "BadCount", "BadKind",
    "BadLength", "BadLimits", "BadLink", "BadOwner", "BadRouters", "EmptyHandle", "GenerationsSpent",
    "HasClock", "HostBits", "IsDown", "NoClock", "NoMemory", "NoRecord", "NotAttached", "NothingDue", "NothingRipe",
    "NothingToDeliver", "OtherSession", "PastMoment", "SessionsSpent", "Shared", "StepsSpent", "StillUsed",
    "TimeSpent", "TooManyLinks", "TooManyPorts", "TooManyPrefixes", "Unasked", "UnknownLink", "UnknownPort",
    "UnknownPrefix", "UnknownRouter",
]
