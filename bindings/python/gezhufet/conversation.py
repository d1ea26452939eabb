"""What an authority, a client and a house have in common: messages and their answers, one call at a time."""

import json
import threading
from types import TracebackType
from typing import Any, Callable, Dict, Mapping, Optional, Type, TypeVar, Union

from .errors import Fault, GezhufetError, OutOfMemory, Refused
from .library import Talk

Json = Any
ClientID = Union[int, str]
Self = TypeVar("Self", bound="Conversation")


def raise_if_wrong(answer: Mapping[str, Json]) -> None:
    """Raises what a fault, a lack of memory or a refusal at a place says."""
    if "fault" in answer:
        if answer["fault"] == "memory":
            raise OutOfMemory("no memory")
        raise Fault(answer["fault"], answer.get("line"))
    if "refused" in answer:
        refused = answer["refused"]
        raise Refused(refused["index"], refused["reason"], refused.get("at"))


def _encoder() -> Callable[[Json], str]:
    """What writes JSON. For each value `json.dumps` makes an encoder, and `JSONEncoder.encode` makes the one in C that does its work:
    that takes more than a third of the time. Where Python has the one in C, it is made once here."""
    plain = json.JSONEncoder(ensure_ascii=False, separators=(",", ":"))
    make = getattr(json.encoder, "c_make_encoder", None)
    if make is None:
        return plain.encode
    parts = make(None, plain.default, json.encoder.encode_basestring, None, ":", ",", False, False, True)
    return lambda value: "".join(parts(value, 0))


_encode = _encoder()
_decode = json.JSONDecoder().raw_decode


def line_of(value: Json) -> bytes:
    """The line of a JSON value."""
    return _encode(value).encode()


def value_of(line: bytes) -> Json:
    """The JSON value of a line that the library wrote."""
    return _decode(line.decode())[0]


class Conversation:
    """A talk of the library. Calls from several threads come one after another.

    `close` gives the memory back, as the end of a `with` block does.
    """

    _talk: Optional[Talk] = None

    def __init__(self, *opening: Json) -> None:
        self._lock = threading.Lock()
        talk = Talk(*map(line_of, opening))
        try:
            if talk.opening is None:
                raise OutOfMemory("no memory")
            # (a house is opened by no line, and has no answer to it)
            self._opened: Dict[str, Json] = value_of(talk.opening) if opening else {}
            raise_if_wrong(self._opened)
        except GezhufetError:
            talk.close()
            raise
        self._talk = talk

    def tell(self, message: Mapping[str, Json]) -> Dict[str, Json]:
        """The answer to a message, as the library gave it. A server may hand on messages and answers as they come."""
        line = line_of(message)
        with self._lock:
            if self._talk is None:
                raise ValueError("the talk is closed")
            answer = self._talk.tell(line)
        told: Dict[str, Json] = value_of(answer)
        return told

    def close(self) -> None:
        """Gives the memory back. It may be called again; each other call then raises `ValueError`."""
        with self._lock:
            if self._talk is not None:
                self._talk.close()
                self._talk = None

    def __enter__(self: Self) -> Self:
        return self

    def __exit__(
        self,
        kind: Optional[Type[BaseException]],
        error: Optional[BaseException],
        trace: Optional[TracebackType],
    ) -> None:
        self.close()

    def __del__(self) -> None:
        if self._talk is not None:
            self.close()
