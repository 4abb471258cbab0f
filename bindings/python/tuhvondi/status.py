"""Why the library refuses a call: an exception for each number of the headers."""

from __future__ import annotations

from typing import Any, Type


class Refused(Exception):
    """The library refused a call. What it was asked of is as it was.

    `number` is the status of the headers and of the program `dualnet`. `name` is the name of the class.

    >>> from tuhvondi import Image, Refused, Row
    >>> image = Image([Row.local("10.0.0.0/8")])
    >>> other = image.share()
    >>> try:
    ...     image.apply([Row.unreachable("10.0.0.0/8")])
    ... except Refused as why:
    ...     print(why.number, why.name, "-", why)
    9 Shared - others still hold the image
    """

    number: int = 0
    text: str = "the call is refused"
    # Whether what is said of one case says all.
    alone: bool = False

    def __init__(self, detail: str = "") -> None:
        super().__init__(detail if detail and self.alone else f"{self.text}: {detail}" if detail else self.text)
        self.detail = detail

    def __reduce__(self) -> Any:
        # Else a pickle, and so another process, would make it of its whole text.
        return type(self), (self.detail,)

    @property
    def name(self) -> str:
        """The name of the class.

        >>> BadCost().name
        'BadCost'
        """
        return type(self).__name__


class BadLength(Refused, ValueError):
    """A prefix's length is above 32."""

    number, text = 3, "a prefix's length is above 32"


class HostBits(Refused, ValueError):
    """A prefix's address has bits set after its length."""

    number, text = 4, "a prefix's address has bits set after its length"


class BadCost(Refused, ValueError):
    """A cost is outside 1 to 65535."""

    number, text = 5, "a cost is outside 1 to 65535"


class BadKind(Refused, ValueError):
    """The kind of a row, a message or a step is too large, or the step is no change that can be given."""

    number, text = 6, "a kind is too large, or the step is no change that can be given"
    alone = True


class EmptyHandle(Refused):
    """It was closed: it holds no image, router or network any more."""

    number, text = 7, "it is closed"


class BadCount(Refused, ValueError):
    """A list has another length than the call can use."""

    number, text = 8, "a list has another length than the call can use"


class Shared(Refused):
    """Others hold the image, too, so it cannot change."""

    number, text = 9, "others still hold the image"


class UnknownRouter(Refused, LookupError):
    """The network has no such router."""

    number, text = 10, "there is no such router"


class UnknownLink(Refused, LookupError):
    """The network has no such link."""

    number, text = 11, "there is no such link"


class UnknownPort(Refused, LookupError):
    """The router has no such port."""

    number, text = 11, "the router has no such port"


class AlreadyUp(Refused):
    """The link is up."""

    number, text = 13, "the link is up"


class IsDown(Refused):
    """The link is down."""

    number, text = 14, "the link is down"


class SessionsSpent(Refused):
    """The link has come up 65,535 times, as often as it can."""

    number, text = 15, "the link has come up as often as it can"


class NothingToDeliver(Refused):
    """Nothing is on its way to the port."""

    number, text = 16, "nothing is on its way to the port"


class NothingDue(Refused):
    """No publication is due."""

    number, text = 17, "no publication is due"


class NothingRipe(Refused):
    """No message may leave."""

    number, text = 18, "no message may leave"


class StepsSpent(Refused):
    """As many steps were done as can be counted: 2^64 - 1."""

    number, text = 19, "as many steps were done as can be counted"


class NoMemory(Refused, MemoryError):
    """Memory was refused."""

    number, text = 20, "memory was refused"


class BadRouters(Refused, ValueError):
    """A network has 1 to 65,536 routers."""

    number, text = 24, "a network has 1 to 65536 routers"


class BadLink(Refused, ValueError):
    """A link does not join two routers that no earlier link joins."""

    number, text = 25, "the link does not join two routers that no earlier link joins"
    alone = True


class TooManyLinks(Refused, ValueError):
    """A network has at most 65,536 links, and a router 32."""

    number, text = 26, "a network has at most 65536 links, and a router 32"
    alone = True


class TooManyPorts(Refused, ValueError):
    """A router has at most 32 ports."""

    number, text = 26, "a router has at most 32 ports"


class BadOwner(Refused, ValueError):
    """An attachment was given before."""

    number, text = 27, "the attachment was given before"


class TooManyPrefixes(Refused):
    """The router knows as many prefixes as it may."""

    number, text = 27, "the router knows as many prefixes as it may"


class UnknownPrefix(Refused, LookupError):
    """The prefix is not known there."""

    number, text = 28, "the prefix is not known there"


class NotAttached(Refused):
    """The router is not attached to the prefix."""

    number, text = 29, "the router is not attached to the prefix"


class OtherSession(Refused):
    """A message is of another session than its port, or a link comes up in no later session."""

    number, text = 36, "the session is another"


class GenerationsSpent(Refused):
    """The router has published 2^64 - 1 times."""

    number, text = 37, "the router has published as often as can be counted"


class Unasked(Refused):
    """A reply to no query: the router awaits none of this prefix from this port."""

    number, text = 38, "it answers what nobody asked"


class AskedTwice(Refused):
    """A second query of a prefix, before the router has answered the first."""

    number, text = 39, "it asks again before it is answered"


class StillUsed(Refused):
    """Something is still known of the prefix, so it cannot be forgotten."""

    number, text = 44, "something is still known of the prefix"


class BadLimits(Refused, ValueError):
    """A limit of a network is above the widest."""

    number, text = 50, "a limit is above the widest"


class PastMoment(Refused, ValueError):
    """The moment of a change is before the present one."""

    number, text = 51, "the moment is past"


class TimeSpent(Refused):
    """The next event is due at 2^64 - 1 microseconds, the last moment that the clock can show, or later."""

    number, text = 52, "the next event is due when the clock cannot go on"


class NoRecord(Refused):
    """The network keeps no record, because it was made without `record=True`."""

    number, text = 53, "the network keeps no record"


class HasClock(Refused):
    """The network is in simulated time, so its steps are done by its clock."""

    number, text = 56, "the network has a clock, by which its steps are done"


class NoClock(Refused):
    """The network is not in simulated time."""

    number, text = 57, "the network has no clock"


_OF_ALL = (BadLength, HostBits, BadCost, BadKind, EmptyHandle, BadCount, AlreadyUp, IsDown, NothingDue,
           NothingRipe, NoMemory, UnknownPrefix, NotAttached)
_OF_ROUTERS = (*_OF_ALL, Shared, UnknownPort, TooManyPorts, TooManyPrefixes, OtherSession,
               GenerationsSpent, Unasked, AskedTwice, StillUsed)
_OF_NETWORKS = (*_OF_ALL, UnknownRouter, UnknownLink, SessionsSpent, NothingToDeliver, StepsSpent,
                BadRouters, BadLink, TooManyLinks, BadOwner, BadLimits, PastMoment, TimeSpent,
                NoRecord, HasClock, NoClock)

# The exceptions by their numbers. Of three numbers an image or a router means something else than a network.
BY_ROUTER: "dict[int, Type[Refused]]" = {each.number: each for each in _OF_ROUTERS}
BY_NETWORK: "dict[int, Type[Refused]]" = {each.number: each for each in _OF_NETWORKS}


def refusal(status: int, known: "dict[int, Type[Refused]]" = BY_ROUTER, detail: str = "") -> Refused:
    """The exception of a status.

    >>> refusal(5)
    BadCost('a cost is outside 1 to 65535')
    """
    each = known.get(status)
    if each is None:
        return Refused(f"status {status}")
    return each(detail)
