"""The document of one editor, whose authority is elsewhere."""

from typing import Dict, Mapping, Optional, Union

from .conversation import ClientID, Conversation, Json, raise_if_wrong
from .outcomes import Confirmed, Cursor, Gap, Kept, Made, NothingMade, Rebased, Refusal, Stale, State


class Client(Conversation):
    """An editor's document: edits, undo and redo amid others' changes, and what an authority answered.

    An edit's steps are pending until they are known to stand in the authority's log. The caller carries the messages:

        client.edit(edits.text(1, 1, "Hello"))
        client.take(authority.tell(client.compose()))
        client.take(authority.tell(client.ask()))

    A message or an answer may be lost, or come late or twice. Each call may raise `OutOfMemory`, and then nothing has changed and it
    may be made again. Calls from several threads come one after another. `close` gives the memory back, as the end of a `with` block
    does.
    """

    def __init__(self, schema: Json, doc: Json, client_id: ClientID, version: int = 0) -> None:
        """Opens a client that stands at the document after the first `version` steps of the authority's log.

        With None as the document the schema's top type is filled. The ID is a text or a whole number. No two clients of an
        authority may have one ID, and a client that is opened anew takes a new one: steps of the log that have the client's ID
        confirm its pending steps. Raises `Fault` where something has a fault, with `line` 1 for the schema, 2 for the document
        and 3 for the ID and the version.
        """
        super().__init__(schema, doc, {"clientID": client_id, "version": version})
        self.client_id = client_id

    def edit(self, edit: Mapping[str, Json], event: Optional[int] = None) -> Union[Made, NothingMade, Refusal]:
        """Makes an edit, which one of the functions of `edits` gives. Its step is pending then, and there is nothing to redo.

        Edits one after another with the same `event`, a whole number of 32 bits, are undone as one; an edit without a number is an
        event of its own. Raises `Fault` where the edit is none of the schema: code 6 for a field that is absent or of another kind,
        7 for an unknown name, and 12 to 15 for what a node, a mark, a slice or a value holds.
        """
        return _edited(self._ask(edit if event is None else {**edit, "event": event}))

    def can(self, edit: Mapping[str, Json]) -> Union[Made, NothingMade, Refusal]:
        """What the edit would come to. Nothing changes, and no serials are told. Raises `Fault` as `edit` does."""
        return _edited(self._ask({"op": "can", "edit": dict(edit)}))

    def undo(self) -> Union[Made, NothingMade]:
        """Takes the client's last event back, carried past all that came since, others' changes too."""
        return _turned(self._ask({"op": "undo"}))

    def redo(self) -> Union[Made, NothingMade]:
        """Makes the event again that was undone last."""
        return _turned(self._ask({"op": "redo"}))

    def undo_event(self, event: int) -> Union[Made, NothingMade]:
        """Takes the client's last event of this number back, and leaves what came later."""
        return _turned(self._ask({"op": "undoevent", "event": event}))

    def cursor(self, pos: int, side: int = 1) -> Union[Cursor, NothingMade]:
        """Sets a cursor at a position in tokens, which moves with each step that the client makes or takes.

        Where something is put in at its very place, it goes after it by side 1, and stays before it by side -1. Raises `Fault` with
        code 6 for another side, and with code 18 for a 65th cursor.
        """
        answer = self._ask({"op": "cursor", "pos": pos, "side": side})
        return NothingMade(answer["none"]) if "none" in answer else Cursor(answer["cursor"], answer["pos"])

    def compose(self) -> Dict[str, Json]:
        """The message that submits all pending steps to the authority, no steps where nothing is pending."""
        message: Dict[str, Json] = self._ask({"op": "compose"})["message"]
        return message

    def ask(self) -> Dict[str, Json]:
        """The message that asks the authority for what came since the client's version."""
        message: Dict[str, Json] = self._ask({"op": "ask"})["message"]
        return message

    def take(self, answer: Mapping[str, Json]) -> Union[Confirmed, Rebased, Stale, Gap, Kept]:
        """Takes an answer of the authority, as `Authority.tell` gave it, late and twice as well.

        Raises `Refused` where a step of others does not apply, with its place in the answer, and `Fault` where the answer is none,
        or tells a fault of its own. Then nothing has changed. An answer of more than 1,048,576 bytes as JSON, with some 30 more for
        the line, is a fault of code 3; its entries may be taken in parts, each with the version at which it ends.
        """
        return _taken(self._ask({"op": "take", "answer": dict(answer)}))

    @property
    def doc(self) -> Json:
        """The document with the pending steps."""
        return self._ask({"op": "doc"})["doc"]

    @property
    def version(self) -> int:
        """How many steps of the authority's log the client knows."""
        return self.state.version

    @property
    def state(self) -> State:
        """How the client stands."""
        told = self._ask({"op": "state"})
        numbers = (told[key] for key in ("version", "pending", "size", "cursors", "undo", "redo"))
        return State(told["clientID"], *numbers)

    def _ask(self, message: Mapping[str, Json]) -> Dict[str, Json]:
        """The answer to a line. A refusal without a place is an outcome of an edit, and no error."""
        answer = self.tell(message)
        if "refused" not in answer or "index" in answer["refused"]:
            raise_if_wrong(answer)
        return answer


def _turned(answer: Mapping[str, Json]) -> Union[Made, NothingMade]:
    if "none" in answer:
        return NothingMade(answer["none"])
    return Made(answer["steps"], answer["serials"])


def _edited(answer: Mapping[str, Json]) -> Union[Made, NothingMade, Refusal]:
    if "none" in answer:
        return NothingMade(answer["none"])
    if "refused" in answer:
        return Refusal(answer["refused"]["reason"], answer["refused"].get("at"))
    return Made(answer["steps"], [answer["serial"]] if "serial" in answer else [])


def _taken(answer: Mapping[str, Json]) -> Union[Confirmed, Rebased, Stale, Gap, Kept]:
    if "stale" in answer:
        return Stale(answer["stale"])
    if "gap" in answer:
        return Gap(answer["gap"])
    if "kept" in answer:
        return Kept(answer["kept"])
    if "back" not in answer:
        return Confirmed(answer["confirmed"], answer["version"])
    pairs = answer["pairs"]
    return Rebased(
        version=answer["version"],
        confirmed=answer["confirmed"],
        foreign=answer["foreign"],
        back=answer["back"],
        steps=answer["steps"],
        pairs=None if pairs is None else [(back, carried) for back, carried in pairs],
        dropped=answer["dropped"],
        cursors=answer["cursors"],
    )
