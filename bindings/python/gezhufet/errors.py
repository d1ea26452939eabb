"""What may go wrong. Each error says by numbers what the answer said; after each the document is as it was."""

from typing import Optional

REASONS = {
    1: "the positions are not in order within the document",
    2: "what it overwrites is not closes followed by opens",
    3: "the gap is no whole number of nodes",
    4: "the slice's open sides do not fit the depths of the two ends",
    5: "a position parts the two units of one character",
    6: "nodes whose types are not compatible would be joined",
    7: "the document would be too large",
    8: "the document would nest too deep",
    9: "the document would not be valid",
    10: "no node begins at the position",
    11: "the node has no such attribute",
    12: "the attribute does not take a value of this kind",
    13: "the schema does not know the step",
}


LACKS = {
    "document": "no document of the name is open",
    "closed": "a document of the name is open already",
    "schema": "no schema has the name",
    "room": "there are as many documents, or schemas, as a house has",
    "range": "a position is past the document's end, or the version that it goes to below the one that it is from",
}


class GezhufetError(Exception):
    """What each error of this package is.

    `code` is the number of a fault, and `reason` the number of the reason why a step was refused; None where there is none.
    """

    code: Optional[int] = None
    reason: Optional[int] = None


class Fault(GezhufetError):
    """A line is not one that can be answered: `code` says why. `line` is 1 for the schema, 2 for the document and 3 for the ID and
    the version of a client; None where the talk was open already."""

    def __init__(self, code: int, line: Optional[int] = None) -> None:
        place = {1: " in the schema", 2: " in the document", 3: " in the client's ID or version"}.get(line or 0, "")
        super().__init__(f"fault {code}{place}")
        self.code = code
        self.line = line


class OutOfMemory(GezhufetError, MemoryError):
    """There was no memory. The same may be asked again."""


class WrongVersion(GezhufetError):
    """The version is not one that the call takes, and `version` is the document's: steps were made on another one, after which the
    client asks `since`, rebases and submits again; or a house is asked for a later one."""

    def __init__(self, version: int) -> None:
        super().__init__(f"the version is {version}")
        self.version = version


class Lack(GezhufetError):
    """What a call of a house needs is not there. `what` says what: `document`, `closed`, `schema`, `room` or `range`, as `LACKS` has
    them in words."""

    def __init__(self, what: str) -> None:
        super().__init__(LACKS.get(what, what))
        self.what = what


class Forgotten(GezhufetError):
    """The version that is asked for lies before the first one that a house has kept of the document, which `first` is."""

    def __init__(self, first: int) -> None:
        super().__init__(f"the first kept version is {first}")
        self.first = first


class Refused(GezhufetError):
    """A step does not apply: `index` is its place in the submission, or in the entries that a client takes, counted from 0, and
    `reason` says why.

    `at` says where the document would not be valid, where `reason` is 9: 0 for the top node, and p + 1 for the node or unit whose
    token is the p-th.
    """

    def __init__(self, index: int, reason: int, at: Optional[int] = None) -> None:
        super().__init__(f"step {index} is refused: {REASONS.get(reason, f'reason {reason}')}")
        self.index = index
        self.reason = reason
        self.at = at
