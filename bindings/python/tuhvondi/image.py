"""Forwarding images: tables that answer addresses by the longest match."""

from __future__ import annotations

import ctypes
from ctypes import byref, c_size_t, c_uint64
from typing import Any, Iterable, Iterator, Optional

from . import _library
from .owner import Owner
from .rows import Address, Prefix, Row, address_number, prefix_parts, row_of, rows_array
from .status import refusal

# How many rows are listed by a call.
_MANY = 512


def _words_array(words: Iterable[int]) -> tuple[ctypes.Array[ctypes.c_uint32], int]:
    """Words as the library takes them, and how many they are."""
    given = list(words)
    for word in given:
        if not 0 <= word < _library.NO_WORD:
            raise ValueError(f"the word {word} is outside 0 to 2^32 - 2")
    return (ctypes.c_uint32 * max(1, len(given)))(*given), len(given)


def _word_of(word: int) -> Optional[int]:
    return None if word == _library.NO_WORD else word


class Image(Owner):
    """A forwarding table: it answers an address by the row with the longest prefix that covers it.

    If several rows have one prefix, the last stays. An image has a *generation*, a number of yours that says
    which table it is: 0 at first.

    >>> image = Image([Row.via("10.0.0.0/8", port=1), Row.local("10.1.0.0/16")])
    >>> print(image.lookup("10.1.2.3"), "and", image.lookup("10.2.2.3"), "and", image.lookup("11.0.0.1"))
    10.1.0.0/16 local and 10.0.0.0/8 via 1 1 and None
    >>> image.apply([Row.unreachable("10.2.0.0/16")])
    >>> len(image), image.generation
    (3, 1)

    A row can have a *word* of yours, a number below 2^32 - 1, for example the index of a next hop:

    >>> image = Image([Row.local("10.0.0.0/8"), Row.local("10.1.0.0/16")], words=[700, 12])
    >>> image.lookup_words(["10.1.2.3", "10.2.2.3", "11.0.0.1"])
    [12, 700, None]

    Raises NoMemory if memory is refused.
    """

    _kind = "image"

    def __init__(self, rows: Iterable[Row] = (), words: Optional[Iterable[int]] = None) -> None:
        super().__init__()
        given, count = rows_array(rows)
        if words is None:
            self._need(self._library.image_new(given, count, self._at))
        else:
            self._need(self._library.image_new_words(given, count, *_words_array(words), self._at))

    @staticmethod
    def _need(status: int) -> None:
        if status:
            raise refusal(status)

    def _next(self, generation: Optional[int]) -> int:
        number = self.generation + 1 if generation is None else generation
        if not 0 <= number < 2 ** 64:
            raise ValueError(f"the generation {number} is outside 0 to 2^64 - 1")
        return number

    def apply(self, rows: Iterable[Row], generation: Optional[int] = None,
              words: Optional[Iterable[int]] = None) -> None:
        """Sets rows over those of the image, in order, and the generation: the next one, or the one that you
        give. With `words`, each row has the word at its place. Without, the rows have no words.

        >>> image = Image()
        >>> image.apply([Row.local("10.0.0.0/8")], generation=7)
        >>> image.generation
        7
        >>> image.apply([Row.local("10.0.0.0/8")], words=[5])
        >>> image.lookup_words(["10.0.0.1"])
        [5]

        Raises BadCount if there are not as many words as rows, Shared while others hold the image, and
        NoMemory. The image is then as it was.
        """
        given, count = rows_array(rows)
        number = self._next(generation)
        if words is None:
            self._need(self._library.image_apply(self._at, number, given, count))
        else:
            self._need(self._library.image_apply_words(self._at, number, given, count, *_words_array(words)))

    def remove(self, prefixes: Iterable[Prefix], generation: Optional[int] = None) -> None:
        """Takes the rows of prefixes out, if there are any, and sets the generation.

        >>> image = Image([Row.local("10.0.0.0/8"), Row.via("10.1.0.0/16", 2)])
        >>> image.remove(["10.1.0.0/16"])
        >>> print(image.lookup("10.1.2.3"))
        10.0.0.0/8 local

        Raises Shared while others hold the image.
        """
        given = [prefix_parts(prefix) for prefix in prefixes]
        parts = (_library.PrefixParts * max(1, len(given)))(*given)
        self._need(self._library.image_remove(self._at, self._next(generation), parts, len(given)))

    def lookup(self, address: Address) -> Optional[Row]:
        """The row with the longest prefix that covers the address, or None.

        >>> Image([Row.local("10.0.0.0/8")]).lookup("10.1.2.3").prefix
        IPv4Network('10.0.0.0/8')
        """
        return self.lookup_many([address])[0]

    def lookup_many(self, addresses: Iterable[Address]) -> list[Optional[Row]]:
        """The answer for each address. One call for many addresses takes far less time than many calls.

        >>> rows = Image([Row.local("10.0.0.0/8")]).lookup_many(["10.1.2.3", "11.0.0.1"])
        >>> [str(row) for row in rows]
        ['10.0.0.0/8 local', 'None']
        """
        numbers = [address_number(address) for address in addresses]
        count = len(numbers)
        addrs = (ctypes.c_uint32 * max(1, count))(*numbers)
        answers = (_library.RowParts * max(1, count))()
        self._need(self._library.image_lookup(self._at, addrs, count, answers, count))
        return [row_of(parts) for parts in answers[:count]]

    def lookup_words(self, addresses: Iterable[Address]) -> list[Optional[int]]:
        """For each address the word of the row that answers it, or None if the row has no word or no row covers
        the address.

        >>> Image([Row.local("10.0.0.0/8")], words=[700]).lookup_words(["10.1.2.3", "11.0.0.1"])
        [700, None]
        """
        numbers = [address_number(address) for address in addresses]
        count = len(numbers)
        addrs = (ctypes.c_uint32 * max(1, count))(*numbers)
        words = (ctypes.c_uint32 * max(1, count))()
        self._need(self._library.image_lookup_words(self._at, addrs, count, words, count))
        return [_word_of(word) for word in words[:count]]

    def rows(self, first: Prefix = "0.0.0.0/0") -> Iterator[Row]:
        """The rows from a prefix on, in the order of their prefixes: by address, and then by length.

        >>> image = Image([Row.local("10.0.0.0/8"), Row.unreachable("10.0.0.0/7")])
        >>> [str(row) for row in image.rows()]
        ['10.0.0.0/7 unreachable', '10.0.0.0/8 local']
        """
        for row, _ in self.rows_and_words(first):
            yield row

    def rows_and_words(self, first: Prefix = "0.0.0.0/0") -> Iterator[tuple[Row, Optional[int]]]:
        """As `rows`, each with its word, or None if it has none.

        >>> image = Image([Row.local("10.0.0.0/8")], words=[700])
        >>> [(str(row), word) for row, word in image.rows_and_words()]
        [('10.0.0.0/8 local', 700)]
        """
        cursor = _library.PrefixParts(*prefix_parts(first))
        while True:
            parts, words, written = (_library.RowParts * _MANY)(), (ctypes.c_uint32 * _MANY)(), c_size_t()
            self._need(self._library.image_rows_words(self._at, byref(cursor), parts, _MANY, words, _MANY,
                                                      byref(written)))
            for each, word in zip(parts[:written.value], words):
                row = row_of(each)
                if row is not None:
                    yield row, _word_of(word)
            if written.value < _MANY:
                return

    def __repr__(self) -> str:
        if not self._handle.holds_:
            return "Image, which is closed"
        return f"Image of {len(self):,} rows, generation {self.generation}"

    def __iter__(self) -> Iterator[Row]:
        return self.rows()

    def __len__(self) -> int:
        """How many rows it has. It goes through all of them."""
        count = c_size_t()
        self._need(self._library.image_row_count(self._at, byref(count)))
        return count.value

    @property
    def size(self) -> int:
        """How many bytes it takes, with the room that is set aside for more rows.

        >>> Image([Row.local("10.0.0.0/8")]).size > 0
        True
        """
        count = c_size_t()
        self._need(self._library.image_bytes(self._at, byref(count)))
        return count.value

    @property
    def generation(self) -> int:
        """The number of the table.

        >>> Image().generation
        0
        """
        number = c_uint64()
        self._need(self._library.image_generation(self._at, byref(number)))
        return number.value

    def _given(self, call: str) -> Image:
        other = Image()
        self._need(getattr(self._library, call)(self._at, other._at))
        return other

    def share(self) -> Image:
        """One more holder of the same image. While there are two, it cannot change.

        >>> image = Image()
        >>> with image.share() as other:
        ...     len(other)
        0
        >>> image.apply([Row.local("10.0.0.0/8")])
        """
        return self._given("image_share")

    def copy(self) -> Image:
        """An image of its own, with the same rows and generation.

        >>> image = Image()
        >>> other = image.copy()
        >>> image.apply([Row.local("10.0.0.0/8")])
        >>> len(image), len(other)
        (1, 0)
        """
        return self._given("image_copy")

    __copy__ = copy

    def __deepcopy__(self, _memo: Any) -> Image:
        return self.copy()
