"""The document engine of ProseMirror: documents that several editors change at once.

An `Authority` keeps one document and the log of its steps, and answers what the users of prosemirror-collab send. A `Client` is one
editor's document over an authority that is elsewhere, with undo amid others' changes. A `House` is an authority of many documents,
for a server:

    from gezhufet import Authority, Client, House, edits

    with Authority(schema, doc) as authority, Client(schema, doc, "ann") as ann:
        ann.edit(edits.text(1, 1, "Hello"))
        ann.take(authority.tell(ann.compose()))
        ann.take(authority.tell(ann.ask()))
        ann.undo()

    with House() as house:
        house.name_schema("plain", schema)
        notes = house.open("notes", "plain", doc)
        notes.submit(0, "ann", steps)

Schemas, documents and steps are JSON values, as ProseMirror writes them.
"""

from . import edits
from .authority import Accepted, Authority, Entries
from .client import Client
from .errors import Fault, Forgotten, GezhufetError, Lack, OutOfMemory, Refused, WrongVersion
from .house import Authored, Edited, House, HouseDocument, Listed, MapResult, Reverted, Snapshot, Statistics
from .library import version
from .outcomes import Confirmed, Cursor, Gap, Kept, Made, NothingMade, Rebased, Refusal, Stale, State

__all__ = [
    "Accepted",
    "Authored",
    "Authority",
    "Client",
    "Confirmed",
    "Cursor",
    "Edited",
    "Entries",
    "Fault",
    "Forgotten",
    "Gap",
    "GezhufetError",
    "House",
    "HouseDocument",
    "Kept",
    "Lack",
    "Listed",
    "Made",
    "MapResult",
    "NothingMade",
    "OutOfMemory",
    "Rebased",
    "Refusal",
    "Refused",
    "Reverted",
    "Snapshot",
    "Stale",
    "State",
    "Statistics",
    "WrongVersion",
    "edits",
    "version",
]
