"""An object that holds one of the library's structs."""

from __future__ import annotations

import ctypes
import threading
import weakref
from ctypes import byref
from typing import Any, Callable, Optional, TypeVar, Union

from ._calls import REPLY
from ._library import CALLS, told
from ._refusal import answered

Self = TypeVar("Self", bound="Held")


def as_bytes(text: Union[str, bytes]) -> bytes:
    """A text in the form that the library accepts: UTF-8."""
    return text.encode() if isinstance(text, str) else bytes(text)


class Held:
    """An object that holds one of the library's structs. It is freed by `close`, at the end of `with`, or when
    nothing refers to it any more. After that, each call is refused with 901. Several threads may use the
    object: their calls run one after the other."""

    def __init__(self, handle: ctypes.Structure, free: str, make: Callable[[Any], int]) -> None:
        self._handle = handle
        # A signal handler of Python may run within a call of this class, and make another one.
        self._lock = threading.RLock()
        answered(make(byref(handle)))
        self._free = weakref.finalize(self, CALLS[free], handle)
        self._free.atexit = False

    def close(self) -> None:
        """Frees the memory. If it is already freed, nothing happens."""
        with self._lock:
            self._free()

    def __enter__(self: Self) -> Self:
        return self

    def __exit__(self, *_: Any) -> None:
        self.close()

    def _call(self, name: str, *arguments: Any) -> None:
        """Makes a call on the struct, after any other call has ended. The arguments must be in range."""
        with self._lock:
            answer = CALLS[name](byref(self._handle), *arguments)
        answered(answer)

    def _number(self, kind: Callable[[], Any], name: str, *arguments: Any) -> int:
        """Returns the number, of a ctypes type, that a call stores. The arguments must be in range."""
        value = kind()
        self._call(name, *arguments, byref(value))
        return int(value.value)

    def _told(self, name: str, room: int, *arguments: Any) -> str:
        """Returns the text that a call writes. The arguments must be in range."""
        with self._lock:
            answer, text = told(room, lambda *rest: CALLS[name](byref(self._handle), *arguments, *rest))
        answered(answer)
        return text

    def _reply(self, name: str, line: Union[str, bytes]) -> Optional[str]:
        """Runs a line by a call. If the reply needs more room, nothing has changed, and the line runs again."""
        text = as_bytes(line)
        call: Callable[..., int] = CALLS[name]
        with self._lock:
            answer, reply = told(REPLY, lambda *room: call(byref(self._handle), text, len(text), *room))
        answered(answer)
        return reply[:-1] if reply else None
