"""What a client's calls come to."""

from dataclasses import dataclass
from typing import List, Optional, Tuple

from .conversation import ClientID, Json
from .errors import REASONS


@dataclass(frozen=True)
class Made:
    """Steps were made, are applied to the client's document one after another, and are pending.

    `serials` are their numbers among all steps that the client made, counted from 1. An undo may make none, where nothing is left
    that applies. Of what an edit would come to (`can`) the steps are told, and no serials.
    """

    steps: List[Json]
    serials: List[int]


@dataclass(frozen=True)
class NothingMade:
    """Nothing was made, and nothing has changed. `why` says what was missing:

    - `range`: a position passes the document's size, or a range ends before it begins;
    - `place`: what the edit works on is not there;
    - `fit`: nothing that could be put there gives a valid document;
    - `event`: there is no event to undo, none to make again, or none of the number.
    """

    why: str


@dataclass(frozen=True)
class Refusal:
    """The edit's step does not apply, for a reason by its number, and nothing has changed.

    `at` says where the document would not be valid, where `reason` is 9: 0 for the top node, and p + 1 for the node or unit whose
    token is the p-th.
    """

    reason: int
    at: Optional[int] = None

    @property
    def words(self) -> str:
        """The reason in words."""
        return REASONS.get(self.reason, f"reason {self.reason}")


@dataclass(frozen=True)
class Cursor:
    """A cursor was set at `pos`, in tokens. `index` is its place in `State.cursors`, from 0."""

    index: int
    pos: int


@dataclass(frozen=True)
class Confirmed:
    """The first `count` pending steps stand in the log. `version` is how many of the log's steps the client knows now."""

    count: int
    version: int


@dataclass(frozen=True)
class Rebased:
    """The client took steps of the log over.

    `confirmed` of its pending steps stand in the log, before `foreign` steps of others; `version` is how many of the log's steps it
    knows now. `steps` lead a view of the document from what it was to what it is: the first `back` of them take the pending steps
    back, the last one first; then come the foreign ones, and then the pending steps that are left, carried past them. `pairs` has
    for each carried step whose taking back is one step the places of the two in `steps`, from 0: the step back, and the carried one,
    which is its mirror. Where the schema can't take the pending steps back one by one, `back` is 0, `steps` and `pairs` are None, and
    a view takes the whole document.

    `dropped` are the serials of the pending steps of which nothing is left, or which do not apply any more. `cursors` are the
    positions of the cursors, in tokens.
    """

    version: int
    confirmed: int
    foreign: int
    back: int
    steps: Optional[List[Json]]
    pairs: Optional[List[Tuple[int, int]]]
    dropped: List[int]
    cursors: List[int]


@dataclass(frozen=True)
class Stale:
    """The answer holds nothing past the client's version, which is `version`. Nothing has changed."""

    version: int


@dataclass(frozen=True)
class Gap:
    """The answer begins past the client's version, which is `version`, or confirms what is not pending. Nothing has changed; ask the
    authority what came since."""

    version: int


@dataclass(frozen=True)
class Kept:
    """The authority took nothing of the submission: `pending` steps stay pending."""

    pending: int


@dataclass(frozen=True)
class State:
    """How a client stands.

    `version` is how many of the log's steps it knows, `pending` how many own steps are not known to stand there, `size` how many
    tokens its document's content has, `cursors` the positions of its cursors in tokens, `undo` and `redo` how many events can be
    undone and made again.
    """

    client_id: ClientID
    version: int
    pending: int
    size: int
    cursors: List[int]
    undo: int
    redo: int
