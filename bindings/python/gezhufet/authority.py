"""One document and the log of its steps."""

from dataclasses import dataclass
from typing import List, Mapping, Optional, Sequence

from .conversation import ClientID, Conversation, Json, raise_if_wrong
from .errors import WrongVersion


@dataclass(frozen=True)
class Accepted:
    """Steps were accepted: the `count` of them stand in the log from place `version` on."""

    version: int
    count: int


@dataclass(frozen=True)
class Entries:
    """What the log has from a version on: the steps, the ID of the client that made each, and the log's length."""

    steps: List[Json]
    client_ids: List[ClientID]
    version: int


def entries_of(answer: Mapping[str, Json]) -> Entries:
    """What an answer with entries tells."""
    return Entries(answer["steps"], answer["clientIDs"], answer["version"])


def accepted_of(answer: Mapping[str, Json]) -> Accepted:
    """What an answer tells that accepts steps."""
    return Accepted(answer["accepted"]["from"], answer["accepted"]["count"])


class Authority(Conversation):
    """A document and the log of its steps, which several clients change.

    Calls from several threads come one after another. `close` gives the memory back, as the end of a `with` block does.
    """

    def __init__(self, schema: Json, doc: Json = None) -> None:
        """Opens an authority over a schema and its first document; with no document the schema's top type is filled.

        Raises `Fault` where one of them has a fault, with `line` 1 for the schema and 2 for the document, and `OutOfMemory`.
        """
        super().__init__(schema, doc)
        self.size: int = self._opened["size"]
        """How many tokens the first document's content has."""

    def submit(self, version: int, client_id: ClientID, steps: Sequence[Json]) -> Accepted:
        """Appends steps that the client made on the document at the version.

        Raises `WrongVersion` where the version is not the log's length, `Refused` where a step does not apply, `Fault` where a
        step is none of the schema or an argument is of another kind, and `OutOfMemory`. Then nothing has changed.
        """
        message = {"op": "submit", "version": version, "clientID": client_id, "steps": list(steps)}
        answer = self.tell(message)
        raise_if_wrong(answer)
        if "accepted" not in answer:
            raise WrongVersion(answer["version"])
        return accepted_of(answer)

    def since(self, version: int, most: Optional[int] = None) -> Entries:
        """The log from the version on; no steps where it is no longer than that.

        With `most` at most so many entries, and the version after the last of them. Raises `Fault` and `OutOfMemory`.
        """
        answer = self.tell({"op": "since", "version": version, "most": most})
        raise_if_wrong(answer)
        return entries_of(answer)

    @property
    def doc(self) -> Json:
        """The document as it stands. Raises `OutOfMemory`."""
        answer = self.tell({"op": "doc"})
        raise_if_wrong(answer)
        return answer["doc"]

    @property
    def version(self) -> int:
        """The number of steps in the log. Raises `OutOfMemory`."""
        return self.since(2**32 - 1).version
