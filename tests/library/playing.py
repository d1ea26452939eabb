"""Plays a session through the talks of an authority and of its clients, and writes the report that `replay` writes of it.

Messages and answers are kept here under their numbers, and so are the serials of pending and dropped steps, which the talks tell as
they make, confirm and drop them. Beside each client stands a view: an authority that is told the client's own document by the steps
alone which the client told, as an editor's view would be, so that these steps have to lead from each document to the next.
"""

import json
from typing import Any, Dict, List, NamedTuple, Tuple

from gezhufet import Authority, Client, Confirmed, Cursor, Gap, Kept, Made, NothingMade, Rebased, Refusal, Stale

Json = Any
EDITS = set("step text delete paste insert split join wrap lift settype addmark removemark attr docattr".split())
# Marks may be taken back by several steps, or by none.
TAKEN_BACK_SINGLY = ("replace", "replaceAround", "attr", "docAttr")
MISSING = {"range": "no range", "place": "no place", "fit": "no fit", "event": "nothing"}


class Wrong(Exception):
    """The talks say what they may not say."""


class Message(NamedTuple):
    """A message that a client composed, and the serials of its steps."""

    text: Dict[str, Json]
    serials: List[int]


def dumped(value: Json) -> str:
    """The JSON text as reports have it."""
    return json.dumps(value, ensure_ascii=False, separators=(",", ":"), sort_keys=True)


def ensure(holds: bool, what: str) -> None:
    if not holds:
        raise Wrong(what)


class View:
    """A client's document as its view holds it."""

    def __init__(self, schema: Json, doc: Json) -> None:
        self.schema = schema
        self.held = Authority(schema, doc)
        self.length = 0

    def follow(self, steps: List[Json]) -> None:
        self.held.submit(self.length, 0, steps)
        self.length += len(steps)

    def reload(self, doc: Json) -> None:
        self.held.close()
        self.held, self.length = Authority(self.schema, doc), 0


class Member:
    """An editor of the session."""

    def __init__(self, name: str, schema: Json, doc: Json) -> None:
        self.name = name
        self.client = Client(schema, doc, name)
        self.view = View(schema, doc)
        self.pending: List[int] = []
        self.kinds: Dict[int, str] = {}
        self.dropped: List[int] = []
        self.messages: List[Message] = []
        self.answers: List[Dict[str, Json]] = []
        self.rebases = self.carried = self.without_steps = 0

    def close(self) -> None:
        self.client.close()
        self.view.held.close()

    def make(self, made: Made) -> None:
        """Steps were made."""
        self.pending += made.serials
        self.kinds.update(zip(made.serials, (it["stepType"] for it in made.steps)))
        self.view.follow(made.steps)

    def edit(self, op: Dict[str, Json]) -> str:
        could, outcome = self.client.can(op), self.client.edit(op)
        if isinstance(outcome, Made):
            ensure(could == Made(outcome.steps, []), f"an edit could be {could}, and is {outcome}")
            ensure(len(outcome.steps) == 1, "an edit makes one step")
            self.make(outcome)
            return "made 1"
        ensure(could == outcome, f"an edit could be {could}, and is {outcome}")
        if isinstance(outcome, Refusal):
            return f"refused 0 {outcome.reason}" + ("" if outcome.at is None else f" {outcome.at}")
        return MISSING[outcome.why]

    def turn(self, outcome: Any) -> str:
        """What an undo or a redo came to."""
        if isinstance(outcome, NothingMade):
            return MISSING[outcome.why]
        ensure(len(outcome.steps) == len(outcome.serials), "each step of an undo has a serial")
        self.make(outcome)
        return f"made {len(outcome.serials)}"

    def cursor(self, pos: int, side: int) -> str:
        outcome = self.client.cursor(pos, side)
        return f"cursor {outcome.pos}" if isinstance(outcome, Cursor) else MISSING[outcome.why]

    def compose(self, is_submit: bool) -> None:
        text = self.client.compose() if is_submit else self.client.ask()
        self.messages.append(Message(text, list(self.pending) if is_submit else []))

    def take(self, answer: Dict[str, Json]) -> str:
        taken = self.client.take(answer)
        if isinstance(taken, (Stale, Kept)):
            return "stale" if isinstance(taken, Stale) else "kept"
        ensure(not isinstance(taken, Gap), f"a gap at version {self.client.version}: {dumped(answer)}")
        own = taken.count if isinstance(taken, Confirmed) else taken.confirmed
        confirmed, self.pending = self.pending[:own], self.pending[own:]
        ensure(len(confirmed) == own, "what was pending is confirmed")
        if isinstance(taken, Rebased):
            self.rebase(taken)
        ensure(taken.version == self.client.version, "the version is told")
        if isinstance(taken, Confirmed) or taken.foreign == 0:
            return f"confirmed {own}"
        return f"rebased {own} {taken.foreign} {len(taken.dropped)}"

    def rebase(self, taken: Rebased) -> None:
        ensure(set(taken.dropped) <= set(self.pending), "what was pending is dropped")
        ensure(taken.cursors == self.client.state.cursors, "the cursors are told")
        doc = self.client.doc
        self.pending = [it for it in self.pending if it not in taken.dropped]
        self.dropped = sorted([*self.dropped, *taken.dropped])
        self.rebases += 1
        self.carried += len(self.pending)
        if taken.steps is None or taken.pairs is None:
            ensure(taken.steps is None and taken.pairs is None and taken.back == 0, "without steps there are no pairs")
            self.without_steps += 1
            return self.view.reload(doc)
        if taken.foreign == 0:
            return ensure(
                (taken.back, taken.steps, taken.pairs, taken.dropped) == (0, [], [], []), "without others' steps the document stays"
            )
        self.check_shape(taken.back + taken.foreign, taken.back, taken.steps, taken.pairs)
        self.view.follow(taken.steps)

    def check_shape(self, front: int, back: int, steps: List[Json], pairs: List[Tuple[int, int]]) -> None:
        """So many steps at the front are steps back and foreign ones, and the rest is what is still pending; with its pairs."""
        firsts, carried = [it for it, _ in pairs], [it for _, it in pairs]
        ensure(len(steps) == front + len(self.pending), "the steps are those back, the foreign ones and the carried ones")
        ensure(all(it < back for it in firsts), "a pair has a step back")
        ensure(all(front <= it < len(steps) for it in carried), "a pair has a carried step")
        ensure(carried == sorted(set(carried)), "pairs are in order of the carried steps")
        ensure(firsts == sorted(set(firsts))[::-1], "of the steps back the last one is the first")
        singly = (front + at for at, it in enumerate(self.pending) if self.kinds[it] in TAKEN_BACK_SINGLY)
        ensure(set(singly) <= set(carried), "a carried step whose taking back is one step has a pair")

    def check(self) -> None:
        """The view holds what the client holds, and the state tells as many pending steps as there are."""
        ensure(self.client.state.pending == len(self.pending), "the number of pending steps is told")
        ensure(self.view.held.doc == self.client.doc, "the steps lead the view to the client's document")


class Session:
    """The talks of a session, and what its report has so far."""

    def __init__(self, lines: List[Json]) -> None:
        schema, doc, names = lines[:3]
        self.authority = Authority(schema, doc)
        self.members = {name: Member(name, schema, doc) for name in names}
        self.serials: List[int] = []
        self.report: List[str] = []

    def close(self) -> None:
        self.authority.close()
        for it in self.members.values():
            it.close()

    def present(self, member: Member, message: Message) -> str:
        answer = self.authority.tell(message.text)
        member.answers.append(answer)
        if "accepted" in answer:
            self.serials += message.serials
            return f"accepted {answer['accepted']['from']} {answer['accepted']['count']}"
        if "steps" in answer:
            return f"entries {answer['version'] - len(answer['steps'])} {len(answer['steps'])}"
        ensure("version" in answer, f"the authority answers {dumped(answer)}")
        return f"version {answer['version']}"

    def exchange(self, member: Member, is_push: bool, is_lost: bool) -> str:
        member.compose(is_push)
        told = self.present(member, member.messages[-1])
        return f"{told}; " + ("lost" if is_lost else member.take(member.answers[-1]))

    def play(self, op: Dict[str, Json]) -> str:
        """The outcome of an op line."""
        member, word = self.members[op["c"]], op["op"]
        if word in EDITS:
            return member.edit(op)
        if word == "undo":
            return member.turn(member.client.undo())
        if word == "redo":
            return member.turn(member.client.redo())
        if word == "undoevent":
            return member.turn(member.client.undo_event(op["event"]))
        if word == "cursor":
            return member.cursor(op["pos"], 1 if op.get("side") is None else op["side"])
        if word in ("submit", "ask"):
            member.compose(word == "submit")
            return f"composed {len(member.messages)}"
        if word == "present":
            return self.present(member, member.messages[op["message"] - 1])
        if word == "take":
            return member.take(member.answers[op["answer"] - 1])
        ensure(word in ("push", "pull"), f"the op {word} is none of an editor's")
        return self.exchange(member, word == "push", bool(op.get("lost")))

    def settle(self) -> None:
        """Each editor in turn pulls and pushes, and then each pulls."""
        for it in self.members.values():
            self.exchange(it, False, False)
            self.exchange(it, True, False)
        for it in self.members.values():
            self.exchange(it, False, False)

    def write_clients(self) -> None:
        for it in self.members.values():
            it.check()
            state = it.client.state
            lists = " ".join(map(dumped, (it.pending, it.dropped, state.cursors)))
            self.report.append(f"client {it.name} {state.version} {lists} {dumped(it.client.doc)}")

    def write_end(self) -> None:
        log, final = self.authority.since(0), dumped(self.authority.doc)
        ensure(len(self.serials) == log.version, "the log has what was accepted")
        self.report.append(f"log {log.version}")
        for at, (name, serial, step) in enumerate(zip(log.client_ids, self.serials, log.steps)):
            self.report.append(f"{at + 1} {name} {serial} {dumped(step)}")
        for it in self.members.values():
            it.check()
            state = it.client.state
            self.report.append(f"settled {it.name} {state.version} {dumped(it.dropped)} {dumped(state.cursors)}")
            ensure(dumped(it.client.doc) == final and state.pending == 0, f"{it.name} has come to the authority's document")
        self.report.append(f"final {final}")


class Played(NamedTuple):
    """A session that was played: its report, and how often what came about."""

    report: List[str]
    ops: int
    rebases: int
    carried: int
    without_steps: int


def played(lines: List[Json]) -> Played:
    """Plays a session, whose lines are these JSON values."""
    session = Session(lines)
    try:
        for at, op in enumerate(lines[3:]):
            session.report.append(f"{at + 4} {session.play(op)}")
        session.write_clients()
        session.settle()
        session.write_end()
        members = session.members.values()
        sums = (sum(getattr(it, key) for it in members) for key in ("rebases", "carried", "without_steps"))
        return Played(session.report, len(lines) - 3, *sums)
    finally:
        session.close()
