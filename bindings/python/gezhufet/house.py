"""Many documents, each with the log of its steps."""

from dataclasses import dataclass
from typing import Dict, List, Mapping, Optional, Sequence, Tuple, Union

from .authority import Accepted, Entries, accepted_of, entries_of
from .conversation import ClientID, Conversation, Json, raise_if_wrong
from .errors import Forgotten, Lack, WrongVersion
from .outcomes import NothingMade

# No log is longer.
_LAST = 2**32 - 1


@dataclass(frozen=True)
class Snapshot:
    """A document as it was at a version."""

    doc: Json
    version: int


@dataclass(frozen=True)
class MapResult:
    """Where a position went, in tokens, and whether the token on its side was taken out."""

    pos: int
    deleted: bool


@dataclass(frozen=True)
class Authored:
    """So many tokens that one step put in: the one to `version`, of the client. Both are None for tokens that were there before."""

    size: int
    client_id: Optional[ClientID]
    version: Optional[int]


@dataclass(frozen=True)
class Edited:
    """An edit of the server's own: its step stands in the log at place `version`."""

    version: int
    step: Json


@dataclass(frozen=True)
class Reverted:
    """Steps were taken back by these `steps`, which stand in the log from place `version` on; none where nothing was left to take back.

    `apart`: the later steps lie apart from those that were taken back, so that what is left is what the later ones make of the document
    before. docs/use/HOUSE.md says it in full.
    """

    version: int
    steps: List[Json]
    apart: bool


@dataclass(frozen=True)
class Listed:
    """An open document: its name, its schema's name, the first version that is kept, its version and how many tokens it has."""

    name: str
    schema: str
    first: int
    version: int
    size: int


@dataclass(frozen=True)
class Statistics:
    """How many there are in a house: open documents, entries in their logs, schemas, and tokens of the documents."""

    documents: int
    entries: int
    schemas: int
    tokens: int


class House(Conversation):
    """Many documents, each with the log of its steps, under schemas that have names:

        with House() as house:
            house.name_schema("plain", schema)
            notes = house.open("notes", "plain", doc, version)
            notes.submit(version, "ann", steps)

    Names are 1 to 64 ASCII letters, digits, `_` and `-`. A call that raises has changed nothing, and each may raise `OutOfMemory`. Calls
    from several threads come one after another. `close` gives the memory back, as the end of a `with` block does.
    """

    def __init__(self) -> None:
        """Opens a house of no schemas and no documents."""
        super().__init__()

    def name_schema(self, name: str, schema: Json) -> None:
        """Gives a schema a name, which it may be given again.

        Raises `Fault` where the schema has a fault, with code 23 for a name of another form, or of another schema, and `Lack` with
        `room` for a 1,025th schema.
        """
        _having("schema", self.tell({"op": "schema", "name": name, "schema": schema}))

    def open(self, name: str, schema: str, doc: Json = None, version: int = 0) -> "HouseDocument":
        """Opens a document of the schema that has this name; its log begins at the version. With no document the schema's top type is
        filled.

        Raises `Lack` with `closed` where one of the name is open, with `schema` where no schema has that name, and with `room` for a
        65,537th document; and `Fault` where the document has a fault, with code 23 for a name of another form.
        """
        _having("size", self.tell({"op": "open", "in": name, "schema": schema, "doc": doc, "version": version}))
        return HouseDocument(self, name)

    def document(self, name: str) -> "HouseDocument":
        """The document of this name, for its calls. It may be opened later."""
        return HouseDocument(self, name)

    @property
    def documents(self) -> List[Listed]:
        """The open documents, in the order in which they were opened."""
        told = _having("documents", self.tell({"op": "documents"}))["documents"]
        return [Listed(it["in"], it["schema"], it["from"], it["version"], it["size"]) for it in told]

    @property
    def statistics(self) -> Statistics:
        """How many documents, entries, schemas and tokens there are."""
        told = _having("documents", self.tell({"op": "statistics"}))
        return Statistics(told["documents"], told["entries"], told["schemas"], told["tokens"])


class HouseDocument:
    """A document of a house. Each call raises `Lack` with `document` where none of its name is open."""

    def __init__(self, house: House, name: str) -> None:
        self.house = house
        self.name = name

    def tell(self, message: Mapping[str, Json]) -> Dict[str, Json]:
        """The answer to a message about this document, which need not name it: what a `Client` composes, or asks."""
        return self.house.tell({**message, "in": self.name})

    def submit(self, version: int, client_id: ClientID, steps: Sequence[Json]) -> Accepted:
        """Appends steps that the client made on the document at the version.

        Raises `WrongVersion` where the version is not the document's, `Refused` where a step does not apply, and `Fault` where a step is
        none of the schema or an argument is of another kind.
        """
        message = {"op": "submit", "version": version, "clientID": client_id, "steps": list(steps)}
        return accepted_of(_having("accepted", self.tell(message)))

    def since(self, version: int, most: Optional[int] = None) -> Entries:
        """The log from the version on; no steps where it has come no further than that.

        With `most` at most so many entries, and the version after the last of them. Raises `Forgotten` and `Fault`.
        """
        return entries_of(_having("steps", self.tell({"op": "since", "version": version, "most": most})))

    @property
    def doc(self) -> Json:
        """The document as it stands."""
        return self.at().doc

    @property
    def version(self) -> int:
        """The version to which the log has come."""
        return self.since(_LAST).version

    def at(self, version: Optional[int] = None) -> Snapshot:
        """The document as it was at the version, or as it stands, with its version.

        Raises `WrongVersion` where the document has not come to the version, `Forgotten` and `Fault`.
        """
        told = _having("doc", self.tell({"op": "doc", "version": version}))
        return Snapshot(told["doc"], told["version"])

    def map(self, from_version: int, to_version: int, positions: Sequence[Tuple[int, int]]) -> List[MapResult]:
        """Where positions in the document at the one version stand at the other. Each has its side: it keeps to what comes after it by
        side 1, and to what comes before it by side -1.

        Raises `WrongVersion` where the document has not come to the second version, `Lack` with `range` where that is below the first
        one or a position is past the document's end, `Forgotten` and `Fault`.
        """
        message = {"op": "map", "from": from_version, "to": to_version, "positions": [list(it) for it in positions]}
        return [MapResult(pos, deleted) for pos, deleted in _having("positions", self.tell(message))["positions"]]

    def authors(self, from_version: int) -> List[Authored]:
        """Who put each token of the document in since the version, in runs as long as can be.

        Raises `WrongVersion` where the document has not come to the version, `Forgotten` and `Fault`.
        """
        told = _having("authors", self.tell({"op": "authors", "from": from_version}))["authors"]
        return [Authored(it["size"], it.get("clientID"), it.get("version")) for it in told]

    def revert(self, client_id: ClientID, version: int, count: int) -> Reverted:
        """Takes `count` steps of the log from the version on back, whatever came since. What takes them back is the client's.

        Raises `WrongVersion` where the log does not have so many, or takes no more, `Refused` where a step does not apply, whose `index`
        is then the place of the step that it would take back among the `count`, `Forgotten` and `Fault`.
        """
        told = _having("accepted", self.tell({"op": "revert", "clientID": client_id, "from": version, "count": count}))
        return Reverted(told["accepted"]["from"], told["steps"], told["apart"])

    def edit(self, client_id: ClientID, edit: Mapping[str, Json]) -> Union[Edited, NothingMade]:
        """Makes an edit, which one of the functions of `edits` gives, on the document as it is. Its step is the client's.

        Raises `Refused` where the step does not apply, `WrongVersion` where the log takes no more, and `Fault` as `Client.edit` does.
        """
        answer = self.tell({"op": "edit", "clientID": client_id, "edit": dict(edit)})
        if answer.get("none") in ("range", "place", "fit"):
            return NothingMade(answer["none"])
        told = _having("accepted", answer)
        return Edited(told["accepted"]["from"], told["steps"][0])

    def forget(self, version: int) -> int:
        """Lets what lies before the version go, with its memory. Gives the first version that is kept then, which is a later one where
        more was let go before.

        Raises `WrongVersion` where the document has not come to the version, and `Fault`.
        """
        first: int = _having("from", self.tell({"op": "forget", "version": version}))["from"]
        return first

    def close(self) -> None:
        """Lets the document and its log go. The house may open another one of this name."""
        _having("closed", self.tell({"op": "close"}))


def _having(key: str, answer: Dict[str, Json]) -> Dict[str, Json]:
    """The answer where it has the key of one that does what was asked; else it raises what the answer says instead."""
    raise_if_wrong(answer)
    if key in answer:
        return answer
    if "none" in answer:
        raise Lack(answer["none"])
    if "from" in answer:
        raise Forgotten(answer["from"])
    raise WrongVersion(answer["version"])
