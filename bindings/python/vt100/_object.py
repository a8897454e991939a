"""The base class of all objects of the library: a handle, a lock and a text."""

from __future__ import annotations

import array
import ctypes
import mmap
import os
import sys
import threading
import weakref
from types import TracebackType
from typing import Any, Dict, NoReturn, Optional, SupportsIndex, Type, TypeVar, Union

from ._library import Handle, check, library

#: The type of the argument of `process`: any object that supports the buffer protocol.
BytesLike = Union[bytes, bytearray, memoryview, "array.array[Any]", mmap.mmap]

_Self = TypeVar("_Self", bound="Object")


def as_bytes(data: BytesLike) -> bytes:
    """Returns the bytes of a bytes-like object. Raises `TypeError` for any other object."""
    if isinstance(data, bytes):
        return data
    try:
        return memoryview(data).tobytes()
    except TypeError:
        kind = type(data).__name__
        raise TypeError(f"a bytes-like object is required, not {kind!r}") from None


if sys.implementation.name == "cpython":
    #: A prototype of its own: other packages may set that of the function in `ctypes.pythonapi`.
    _new_bytes: Any = ctypes.PYFUNCTYPE(ctypes.py_object, ctypes.c_char_p, ctypes.c_ssize_t)(
        ("PyBytes_FromStringAndSize", ctypes.pythonapi)
    )
else:
    _new_bytes = None


def _copied_text(handle: Any, length: int) -> bytes:
    """Returns the text that the last call has generated. On CPython, the library writes it into the
    object that is returned, as an extension module may with one that it has just created."""
    if _new_bytes is None or length == 0:  # all empty objects are the same one
        room = ctypes.create_string_buffer(length)
        library.vt100_copy(handle, room, length)
        return room.raw
    made: bytes = _new_bytes(None, length)
    library.vt100_copy(handle, made, length)
    return made


#: All objects by their ids. Each is locked during a fork.
_all: weakref.WeakValueDictionary[int, Object] = weakref.WeakValueDictionary()
_all_lock = threading.RLock()

#: The objects that this thread has locked for a fork.
_forking = threading.local()


class Object:
    """An object of the library. Its methods may be called from several threads; calls wait for each
    other."""

    _handle: Handle
    _lock: threading.RLock
    _at: Any

    def __new__(cls: Type[_Self], *_: object, **__: object) -> _Self:
        self = super().__new__(cls)
        self._handle = Handle()
        self._at = ctypes.byref(self._handle)
        self._lock = threading.RLock()
        with _all_lock:
            _all[id(self)] = self
        return self

    def __del__(self) -> None:
        library.vt100_free(self._at)

    def close(self) -> None:
        """Frees the object. Afterward, all methods except `close` raise `Error`."""
        with self._lock:
            library.vt100_free(self._at)

    def __enter__(self: _Self) -> _Self:
        return self

    def __exit__(
        self,
        kind: Optional[Type[BaseException]],
        error: Optional[BaseException],
        trace: Optional[TracebackType],
    ) -> None:
        self.close()

    def __copy__(self) -> Any:
        raise TypeError(f"a {type(self).__name__} cannot be copied")

    def __deepcopy__(self, _: Any) -> Any:
        return self.__copy__()

    def __reduce_ex__(self, _: SupportsIndex) -> NoReturn:
        raise TypeError(f"a {type(self).__name__} cannot be pickled")

    @property
    def _is_closed(self) -> bool:
        return self._handle.at is None

    def _call(self, function: Any, *arguments: Any, wrong: str = "") -> None:
        """Calls a function of the library with the handle and the given arguments. `wrong` says
        what is wrong if the function finds an argument invalid."""
        with self._lock:
            status = function(self._at, *arguments)
        if status:
            check(status, wrong)

    def _flag(self, function: Any) -> bool:
        """Returns whether a function of the library stores 1."""
        flag = ctypes.c_uint8()
        self._call(function, ctypes.byref(flag))
        return flag.value == 1

    def _bytes(self, function: Any, *arguments: Any, wrong: str = "") -> bytes:
        """Returns the text that a function of the library generates, as UTF-8."""
        length = ctypes.c_size_t()
        with self._lock:
            self._call(function, *arguments, ctypes.byref(length), wrong=wrong)
            return _copied_text(self._at, length.value)

    def _text(self, function: Any, *arguments: Any, wrong: str = "") -> str:
        """Returns the text that a function of the library generates, as a string."""
        return self._bytes(function, *arguments, wrong=wrong).decode()

    def _process(self, data: bytes) -> None:
        self._call(library.vt100_process, data, len(data))


def _before_fork() -> None:
    """Waits for the calls of other threads to end, so that the child's copies of the objects are
    whole and not locked by a thread that the child does not have."""
    held: Dict[int, Object] = {}
    while True:
        _all_lock.acquire()
        others = sorted((one for one in _all.values() if id(one) not in held), key=id)
        if not others:
            break
        # A thread that holds the lock of an object may be waiting to make another object.
        _all_lock.release()
        for one in others:
            one._lock.acquire()
            held[id(one)] = one
    _forking.objects = held


def _after_fork() -> None:
    for one in _forking.objects.values():
        one._lock.release()
    del _forking.objects
    _all_lock.release()


os.register_at_fork(
    before=_before_fork, after_in_parent=_after_fork, after_in_child=_after_fork
)
