"""What owns something of the library, and gives it back."""

from __future__ import annotations

from ctypes import byref
from typing import Any

from ._library import Handle, functions


class Owner:
    """Holds something of the library until it is closed, or collected as garbage.

    Each is a context manager. What is closed refuses all calls by EmptyHandle.
    """

    _kind = ""

    def __init__(self) -> None:
        self._library = functions()
        self._handle = Handle()
        self._at = byref(self._handle)

    def close(self) -> None:
        """Frees what it holds. It may be called again.

        >>> from tuhvondi import Image
        >>> image = Image()
        >>> image.close()
        >>> len(image)
        Traceback (most recent call last):
        ...
        tuhvondi.status.EmptyHandle: it is closed
        """
        getattr(self._library, f"{self._kind}_free")(self._at)

    def __reduce__(self) -> Any:
        """Without it `copy.copy` would make two names of one network. Classes that can be copied or pickled say how."""
        what = "cannot be pickled" if hasattr(self, "copy") else "can be neither copied nor pickled"
        other = ": copy() copies it, and so does a fork" if hasattr(self, "copy") else ""
        raise TypeError(f"this {type(self).__name__} {what}, because the library holds it{other}")

    def __enter__(self) -> Any:
        return self

    def __exit__(self, *_error: Any) -> None:
        self.close()

    def __del__(self) -> None:
        if hasattr(self, "_at"):
            self.close()
