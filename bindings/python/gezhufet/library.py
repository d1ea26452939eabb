"""The C library, found and called by ctypes."""

import ctypes
import ctypes.util
import os
from pathlib import Path
from typing import Iterator, Optional

NAME = "libgezhufet.so"
# The bytes of a talk's buffer for answers.
ROOM = 4096


def _places() -> Iterator[str]:
    """The library that GEZHUFET_LIBRARY names; one beside this package, or below out/ of the tree; the system's."""
    here = Path(__file__).resolve()
    given = os.environ.get("GEZHUFET_LIBRARY")
    if given:
        yield given
        return
    for folder in (here.parent, here.parents[3] / "out" / "lib"):
        if (folder / NAME).is_file():
            yield str(folder / NAME)
    found = ctypes.util.find_library("gezhufet")
    if found:
        yield found


def _load() -> ctypes.CDLL:
    for place in _places():
        library = ctypes.CDLL(place)
        size, text, talk = ctypes.c_size_t, ctypes.c_char_p, ctypes.c_void_p
        library.gezhufet_version.argtypes = []
        library.gezhufet_version.restype = ctypes.c_uint
        library.gezhufet_open_authority.argtypes = [text, size, text, size, ctypes.POINTER(talk)]
        library.gezhufet_open_authority.restype = size
        library.gezhufet_open_client.argtypes = [text, size, text, size, text, size, ctypes.POINTER(talk)]
        library.gezhufet_open_client.restype = size
        library.gezhufet_open_house.argtypes = [ctypes.POINTER(talk)]
        library.gezhufet_open_house.restype = ctypes.c_bool
        library.gezhufet_is_open.argtypes = [talk]
        library.gezhufet_is_open.restype = ctypes.c_bool
        library.gezhufet_tell.argtypes = [talk, text, size]
        library.gezhufet_tell.restype = size
        library.gezhufet_answer.argtypes = [talk, ctypes.c_void_p, size]
        library.gezhufet_answer.restype = size
        library.gezhufet_ask.argtypes = [talk, text, size, ctypes.c_void_p, size]
        library.gezhufet_ask.restype = size
        library.gezhufet_close.argtypes = [talk]
        library.gezhufet_close.restype = None
        return library
    raise OSError(f"{NAME} is not found: build it by `./pm lib`, or name it by GEZHUFET_LIBRARY")


_library = _load()


def version() -> str:
    """The version of the library, as `0.1.0`."""
    number = _library.gezhufet_version()
    return f"{number // 10_000}.{number // 100 % 100}.{number % 100}"


class Talk:
    """A talk of the C library. One call at a time may use it, which its caller sees to."""

    def __init__(self, *lines: bytes) -> None:
        """Opens a talk by its lines, which are two of an authority, three of a client, and none of a house. `opening` is its answer,
        empty for a house; None where there was no memory for the talk itself."""
        self._buffer = ctypes.create_string_buffer(ROOM)
        self._address = ctypes.addressof(self._buffer)
        self._bytes = memoryview(self._buffer)
        pointer = ctypes.c_void_p()
        given = [it for line in lines for it in (line, len(line))]
        size = 0
        if not lines:
            _library.gezhufet_open_house(ctypes.byref(pointer))
        elif len(lines) == 2:
            size = _library.gezhufet_open_authority(*given, ctypes.byref(pointer))
        else:
            size = _library.gezhufet_open_client(*given, ctypes.byref(pointer))
        self._pointer: Optional[int] = pointer.value
        self.opening: Optional[bytes] = self._answer(size) if self._pointer else None

    @property
    def is_open(self) -> bool:
        """Whether lines are answered."""
        return bool(_library.gezhufet_is_open(self._pointer))

    def tell(self, line: bytes) -> bytes:
        """The answer to a line. A talk that was closed has none."""
        if self._pointer is None:
            raise ValueError("the talk is closed")
        # One call copies a short answer too.
        size: int = _library.gezhufet_ask(self._pointer, line, len(line), self._address, ROOM)
        return self._bytes[:size].tobytes() if size <= ROOM else self._answer(size)

    def _answer(self, size: int) -> bytes:
        # A long answer gets a buffer of its own, so that its memory is given back.
        buffer = self._buffer if size <= ROOM else ctypes.create_string_buffer(size)
        count = _library.gezhufet_answer(self._pointer, buffer, size)
        return ctypes.string_at(buffer, count)

    def close(self) -> None:
        """Lets the talk go. It may be called again."""
        _library.gezhufet_close(self._pointer)
        self._pointer = None
