"""Tests of the package over the library. The last line is `N passed, M failed`."""

import inspect
import threading
import unittest
from typing import Any, Callable, List, Union

import gezhufet
from gezhufet import (
    Accepted,
    Authored,
    Authority,
    Client,
    Confirmed,
    Cursor,
    Edited,
    Fault,
    Forgotten,
    Gap,
    House,
    HouseDocument,
    Kept,
    Lack,
    Listed,
    Made,
    MapResult,
    NothingMade,
    Rebased,
    Refusal,
    Refused,
    Reverted,
    Snapshot,
    Stale,
    State,
    Statistics,
    WrongVersion,
    edits,
)

SCHEMA = {"nodes": [{"name": "doc", "content": "paragraph+"}, {"name": "paragraph", "content": "text*"}, {"name": "text"}]}
DOC = {"type": "doc", "content": [{"type": "paragraph", "content": [{"type": "text", "text": "ab"}]}]}
# A schema in which each edit can be made.
RICH = {
    "nodes": [
        {"name": "doc", "content": "block+", "attrs": {"lang": {"default": "en"}}},
        {"name": "paragraph", "content": "text*", "group": "block"},
        {"name": "heading", "content": "text*", "group": "block", "attrs": {"level": {"default": 1}}},
        {"name": "quote", "content": "block+", "group": "block"},
        {"name": "text"},
    ],
    "marks": [{"name": "em"}],
}


def insert(at: int, text: str) -> Any:
    return {"stepType": "replace", "from": at, "to": at, "slice": {"content": [{"type": "text", "text": text}]}}


def delete(from_: int, to: int) -> Any:
    return {"stepType": "replace", "from": from_, "to": to}


def text_of(doc: Any) -> str:
    return "".join(it["text"] for node in doc["content"] for it in node.get("content", []))


class Tests(unittest.TestCase):
    def setUp(self) -> None:
        self.authority = Authority(SCHEMA, DOC)
        self.addCleanup(self.authority.close)

    def test_steps_are_accepted(self) -> None:
        accepted = self.authority.submit(0, "ann", [insert(1, "x"), insert(2, "y")])
        self.assertEqual((accepted.version, accepted.count), (0, 2))
        self.assertEqual(text_of(self.authority.doc), "xyab")
        self.assertEqual(self.authority.version, 2)

    def test_the_log_is_told_from_a_version_on(self) -> None:
        self.authority.submit(0, "ann", [insert(1, "x")])
        self.authority.submit(1, 7, [insert(1, "y")])
        entries = self.authority.since(1)
        self.assertEqual((entries.client_ids, entries.version, len(entries.steps)), ([7], 2, 1))
        entries = self.authority.since(0, 1)
        self.assertEqual((entries.client_ids, entries.version, len(entries.steps)), (["ann"], 1, 1))

    def test_another_version_raises_with_the_length(self) -> None:
        self.authority.submit(0, "ann", [insert(1, "x")])
        with self.assertRaises(WrongVersion) as raised:
            self.authority.submit(0, "bob", [])
        self.assertEqual(raised.exception.version, 1)

    def test_a_refused_step_raises_with_its_reason(self) -> None:
        with self.assertRaises(Refused) as raised:
            self.authority.submit(0, "ann", [{"stepType": "replace", "from": 0, "to": 4}])
        error = raised.exception
        self.assertEqual((error.index, error.reason, error.at, error.code), (0, 9, 0, None))
        self.assertEqual(self.authority.version, 0)

    def test_a_fault_raises_with_its_code(self) -> None:
        with self.assertRaises(Fault) as raised:
            self.authority.submit(0, "ann", [{"stepType": "none"}])
        self.assertEqual((raised.exception.code, raised.exception.line), (7, None))

    def test_a_schema_with_a_fault_raises(self) -> None:
        with self.assertRaises(Fault) as raised:
            Authority({})
        self.assertEqual((raised.exception.code, raised.exception.line), (6, 1))

    def test_a_document_of_another_type_raises(self) -> None:
        with self.assertRaises(Fault) as raised:
            Authority(SCHEMA, {"type": "paragraph"})
        self.assertEqual((raised.exception.code, raised.exception.line), (16, 2))

    def test_no_document_is_the_top_type_filled(self) -> None:
        with Authority(SCHEMA) as authority:
            self.assertEqual(authority.doc, {"type": "doc", "content": [{"type": "paragraph"}]})
            self.assertEqual(authority.size, 2)

    def test_a_closed_authority_raises(self) -> None:
        self.authority.close()
        self.authority.close()
        with self.assertRaises(ValueError):
            self.authority.since(0)

    def test_text_beyond_ascii_stays(self) -> None:
        self.authority.submit(0, "änn", [insert(1, "é😀")])
        self.assertEqual(text_of(self.authority.doc), "é😀ab")
        self.assertEqual(self.authority.since(0).client_ids, ["änn"])

    def test_threads_take_turns(self) -> None:
        def write(name: str, done: List[int]) -> None:
            version = 0
            while len(done) < 50:
                try:
                    self.authority.submit(version, name, [insert(1, "z")])
                    done.append(version)
                    version += 1
                except WrongVersion as error:
                    version = error.version

        counts: List[List[int]] = [[] for _ in range(4)]
        threads = [threading.Thread(target=write, args=(str(i), done)) for i, done in enumerate(counts)]
        for it in threads:
            it.start()
        for it in threads:
            it.join()
        self.assertEqual(self.authority.version, 200)
        self.assertEqual(sorted(sum(counts, [])), list(range(200)))

    def test_the_version_is_the_tree_s(self) -> None:
        self.assertRegex(gezhufet.version(), r"^\d+\.\d+\.\d+$")


class ClientTests(unittest.TestCase):
    def setUp(self) -> None:
        self.authority = Authority(SCHEMA, DOC)
        self.ann = self.join("ann")
        self.bob = self.join(7)

    def join(self, client_id: Union[int, str], version: int = 0) -> Client:
        client = Client(SCHEMA, DOC, client_id, version)
        self.addCleanup(client.close)
        return client

    def submit(self, client: Client) -> Any:
        return client.take(self.authority.tell(client.compose()))

    def pull(self, client: Client) -> Any:
        return client.take(self.authority.tell(client.ask()))

    def test_an_edit_makes_its_step(self) -> None:
        self.assertEqual(self.ann.edit(edits.text(1, 1, "x")), Made([insert(1, "x")], [1]))
        self.assertEqual(text_of(self.ann.doc), "xab")
        self.assertEqual(self.ann.edit(edits.step(delete(1, 2))), Made([delete(1, 2)], [2]))
        self.assertEqual(self.ann.state, State("ann", 0, 2, 4, [], 2, 0))

    def test_an_edit_that_makes_nothing_says_why(self) -> None:
        self.assertEqual(self.ann.edit(edits.text(9, 9, "x")), NothingMade("range"))
        self.assertEqual(self.ann.edit(edits.lift(1)), NothingMade("place"))
        self.assertEqual(self.ann.edit(edits.insert(1, {"type": "paragraph"})), NothingMade("fit"))
        self.assertEqual(self.ann.undo(), NothingMade("event"))
        self.assertEqual(self.ann.redo(), NothingMade("event"))
        self.assertEqual(self.ann.state, State("ann", 0, 0, 4, [], 0, 0))

    def test_an_edit_that_is_refused_says_why(self) -> None:
        refusal = self.ann.edit(edits.step(delete(0, 4)))
        self.assertEqual(refusal, Refusal(9, 0))
        self.assertIn("valid", refusal.words)
        self.assertEqual(self.ann.edit(edits.step(delete(0, 9))), Refusal(1))
        self.assertEqual(self.ann.state.pending, 0)

    def test_what_an_edit_would_come_to_changes_nothing(self) -> None:
        self.assertEqual(self.ann.can(edits.text(1, 1, "x")), Made([insert(1, "x")], []))
        self.assertEqual(self.ann.can(edits.text(9, 9, "x")), NothingMade("range"))
        self.assertEqual(self.ann.can(edits.step(delete(0, 4))), Refusal(9, 0))
        self.assertEqual(self.ann.state, State("ann", 0, 0, 4, [], 0, 0))
        self.assertEqual(self.ann.edit(edits.text(1, 1, "x")), Made([insert(1, "x")], [1]))

    def test_each_of_the_fourteen_edits(self) -> None:
        em, quote = {"type": "em"}, {"type": "quote", "content": [{"type": "paragraph"}]}
        with Client(RICH, DOC, "ann") as client:
            for edit in (
                edits.step(insert(1, "x")),
                edits.text(1, 2, "yz"),
                edits.delete(1, 2),
                edits.paste(1, 1, {"content": [{"type": "text", "text": "c"}]}),
                edits.paste(1, 2, None),
                edits.insert(0, quote),
                edits.split(6),
                edits.join(7),
                edits.wrap(4, 9, "quote"),
                edits.lift(4),
                edits.set_type(4, "heading", {"level": 2}),
                edits.add_mark(5, 7, em),
                edits.remove_mark(5, 6, em),
                edits.attr(4, "level", 3),
                edits.doc_attr("lang", "de"),
            ):
                made = client.edit(edit)
                self.assertIsInstance(made, Made, edit)
                self.assertEqual(len(made.steps), 1)
            self.assertEqual(client.doc["attrs"], {"lang": "de"})
            self.assertEqual(client.doc["content"][1]["attrs"], {"level": 3})
        makers = [it for name, it in vars(edits).items() if inspect.isfunction(it) and not name.startswith("_")]
        self.assertEqual(len(makers), 14)

    def test_edits_of_one_event_are_undone_as_one(self) -> None:
        for letter in "xyz":
            self.ann.edit(edits.text(1, 1, letter), event=5)
        self.ann.edit(edits.text(1, 1, "w"))
        self.assertEqual(self.ann.undo_event(4), NothingMade("event"))
        undone = self.ann.undo_event(5)
        self.assertEqual((undone.serials, text_of(self.ann.doc)), ([5, 6, 7], "wab"))
        self.assertEqual(self.ann.redo().serials, [8, 9, 10])
        self.assertEqual(text_of(self.ann.doc), "wzyxab")
        self.assertEqual(self.ann.redo(), NothingMade("event"))

    def test_cursors_move(self) -> None:
        self.assertEqual(self.ann.cursor(3), Cursor(0, 3))
        self.assertEqual(self.ann.cursor(1, -1), Cursor(1, 1))
        self.assertEqual(self.ann.cursor(9), NothingMade("range"))
        self.ann.edit(edits.text(1, 1, "x"))
        self.assertEqual(self.ann.state.cursors, [4, 1])
        with self.assertRaises(Fault) as raised:
            self.ann.cursor(1, 2)
        self.assertEqual(raised.exception.code, 6)
        for _ in range(62):
            self.ann.cursor(0)
        with self.assertRaises(Fault) as raised:
            self.ann.cursor(0)
        self.assertEqual(raised.exception.code, 18)

    def test_a_message_is_composed_and_confirmed(self) -> None:
        self.assertEqual(self.ann.compose(), {"clientID": "ann", "op": "submit", "steps": [], "version": 0})
        self.ann.edit(edits.text(1, 1, "x"))
        message = self.ann.compose()
        self.assertEqual(message, {"clientID": "ann", "op": "submit", "steps": [insert(1, "x")], "version": 0})
        answer = self.authority.tell(message)
        self.assertEqual(self.ann.take(answer), Confirmed(1, 1))
        self.assertEqual(self.ann.take(answer), Stale(1))
        self.assertEqual((self.ann.version, self.ann.state.pending), (1, 0))

    def test_a_step_is_carried_past_others(self) -> None:
        self.ann.edit(edits.text(1, 1, "x"))
        self.submit(self.ann)
        self.bob.edit(edits.text(3, 3, "y"))
        self.bob.cursor(3)
        self.assertEqual(self.submit(self.bob), Kept(1))
        self.assertEqual(
            self.pull(self.bob),
            Rebased(
                version=1,
                confirmed=0,
                foreign=1,
                back=1,
                steps=[delete(3, 4), insert(1, "x"), insert(4, "y")],
                pairs=[(0, 2)],
                dropped=[],
                cursors=[4],
            ),
        )
        self.assertEqual(self.submit(self.bob), Confirmed(1, 2))
        self.assertEqual(self.pull(self.ann).steps, [insert(4, "y")])
        self.assertEqual([text_of(it.doc) for it in (self.ann, self.bob, self.authority)], ["xaby"] * 3)

    def test_a_step_of_which_nothing_is_left_is_dropped(self) -> None:
        self.ann.edit(edits.delete(1, 3))
        self.submit(self.ann)
        self.bob.edit(edits.text(2, 2, "y"))
        rebased = self.pull(self.bob)
        self.assertEqual((rebased.dropped, rebased.pairs), ([1], []))
        self.assertEqual((rebased.back, rebased.steps), (1, [delete(2, 3), delete(1, 3)]))
        self.assertEqual(self.bob.state.pending, 0)

    def test_where_the_schema_takes_no_single_steps_back_there_are_none(self) -> None:
        content = "(text | br) | (text text (text | br))"
        nodes = [{"name": "doc", "content": "p+"}, {"name": "p", "content": content}, {"name": "br", "inline": True}, {"name": "text"}]
        em = {"type": "em"}
        texts = [{"type": "text", "text": it, "marks": [em] * (it != "b")} for it in "abc"]
        doc = {"type": "doc", "content": [{"type": "p", "content": texts}, {"type": "p", "content": [{"type": "text", "text": "d"}]}]}
        with Client({"nodes": nodes, "marks": [{"name": "em"}]}, doc, "ann") as ann:
            self.assertEqual(len(ann.edit(edits.remove_mark(1, 4, em)).steps), 1)
            rebased = ann.take({"clientIDs": ["bob"], "steps": [insert(6, "x")], "version": 1})
            self.assertEqual((rebased.back, rebased.steps, rebased.pairs, rebased.foreign, rebased.dropped), (0, None, None, 1, []))
            self.assertEqual((text_of(ann.doc), ann.state.pending), ("abcxd", 1))

    def test_an_answer_that_was_lost_comes_back_as_entries(self) -> None:
        self.ann.edit(edits.text(1, 1, "x"))
        self.authority.tell(self.ann.compose())
        taken = self.pull(self.ann)
        self.assertEqual((taken.confirmed, taken.foreign, taken.steps, taken.version), (1, 0, [], 1))
        self.assertEqual(self.ann.state.pending, 0)

    def test_an_undo_amid_others_changes(self) -> None:
        self.ann.edit(edits.delete(1, 3))
        self.submit(self.ann)
        self.pull(self.bob)
        self.bob.edit(edits.text(1, 1, "z"))
        self.submit(self.bob)
        self.pull(self.ann)
        self.assertEqual(self.ann.undo().serials, [2])
        self.assertIn(text_of(self.ann.doc), ("abz", "zab"))
        self.submit(self.ann)
        self.pull(self.bob)
        self.assertEqual(text_of(self.bob.doc), text_of(self.ann.doc))

    def test_answers_past_the_version_are_a_gap(self) -> None:
        late = {"clientIDs": ["bob"], "steps": [insert(1, "x")], "version": 3}
        self.assertEqual(self.ann.take(late), Gap(0))
        self.assertEqual(self.ann.take({"accepted": {"count": 1, "from": 0}}), Gap(0))
        self.assertEqual(self.ann.take({"version": 3}), Kept(0))

    def test_a_foreign_step_that_does_not_apply_raises(self) -> None:
        wrong = {"clientIDs": ["bob", "bob"], "steps": [insert(1, "x"), delete(0, 5)], "version": 2}
        with self.assertRaises(Refused) as raised:
            self.ann.take(wrong)
        self.assertEqual((raised.exception.index, raised.exception.reason, raised.exception.at), (1, 9, 0))
        self.assertEqual(self.ann.version, 0)

    def test_entries_too_long_for_a_line_are_taken_in_parts(self) -> None:
        steps = [insert(1, "x" * 1000), delete(1, 1001)] * 1000
        with self.assertRaises(Fault) as raised:
            self.ann.take({"clientIDs": ["bob"] * 2000, "steps": steps, "version": 2000})
        self.assertEqual(raised.exception.code, 3)
        for end in (1000, 2000):
            part = {"clientIDs": ["bob"] * 1000, "steps": steps[:1000], "version": end}
            self.assertEqual(self.ann.take(part).foreign, 1000)
        self.assertEqual((self.ann.version, text_of(self.ann.doc)), (2000, "ab"))

    def test_faults_raise_with_their_codes(self) -> None:
        for message, code in (
            ({"op": "text", "from": 1, "to": 1}, 6),
            ({"op": "submit"}, 7),
            ({"op": "step", "step": {"stepType": "none"}}, 7),
            ({"op": "insert", "pos": 1, "node": {"type": "text", "text": ""}}, 13),
        ):
            with self.assertRaises(Fault, msg=message) as raised:
                self.ann.edit(message)
            self.assertEqual((raised.exception.code, raised.exception.line), (code, None), message)
        for answer in ({}, {"fault": 6}, {"accepted": {}}, {"steps": 1, "version": 1}):
            with self.assertRaises(Fault, msg=answer) as raised:
                self.ann.take(answer)
            self.assertEqual(raised.exception.code, 6, answer)

    def test_an_opening_with_a_fault_raises(self) -> None:
        for opening, code, line in (
            (({}, DOC, "ann"), 6, 1),
            ((SCHEMA, {"type": "paragraph"}, "ann"), 16, 2),
            ((SCHEMA, DOC, 1.5), 6, 3),
            ((SCHEMA, DOC, "ann", -1), 6, 3),
        ):
            with self.assertRaises(Fault) as raised:
                Client(*opening)
            self.assertEqual((raised.exception.code, raised.exception.line), (code, line))

    def test_a_client_joins_at_a_version(self) -> None:
        self.ann.edit(edits.text(1, 1, "x"))
        self.submit(self.ann)
        with Client(SCHEMA, self.authority.doc, "eve", self.authority.version) as eve:
            self.assertEqual(eve.state, State("eve", 1, 0, 5, [], 0, 0))
            self.assertEqual(self.pull(eve), Stale(1))

    def test_a_closed_client_raises(self) -> None:
        self.ann.close()
        self.ann.close()
        with self.assertRaises(ValueError):
            self.ann.compose()

    def test_text_beyond_ascii_counts_utf16_units(self) -> None:
        with Client(SCHEMA, DOC, "änn") as client:
            client.edit(edits.text(1, 1, "é😀"))
            self.assertEqual(client.state.size, 7)
            self.assertEqual(client.edit(edits.step(delete(2, 3))), Refusal(5))
            self.assertEqual(client.compose()["clientID"], "änn")

    def test_threads_take_turns(self) -> None:
        def write() -> None:
            for _ in range(50):
                self.ann.edit(edits.text(1, 1, "z"))

        threads = [threading.Thread(target=write) for _ in range(4)]
        for it in threads:
            it.start()
        for it in threads:
            it.join()
        self.assertEqual(self.ann.state.pending, 200)


class HouseTests(unittest.TestCase):
    def setUp(self) -> None:
        self.house = House()
        self.addCleanup(self.house.close)
        self.house.name_schema("plain", SCHEMA)
        self.notes = self.house.open("notes", "plain", DOC, 5)

    def lacks(self, what: str, call: Callable[..., Any], *words: Any) -> None:
        with self.assertRaises(Lack) as raised:
            call(*words)
        self.assertEqual(raised.exception.what, what)
        self.assertNotEqual(str(raised.exception), what)

    def faults(self, code: int, call: Callable[..., Any], *words: Any) -> None:
        with self.assertRaises(Fault) as raised:
            call(*words)
        self.assertEqual((raised.exception.code, raised.exception.line), (code, None))

    def is_past(self, version: int, call: Callable[..., Any], *words: Any) -> None:
        with self.assertRaises(WrongVersion) as raised:
            call(*words)
        self.assertEqual(raised.exception.version, version)

    def is_forgotten(self, first: int, call: Callable[..., Any], *words: Any) -> None:
        with self.assertRaises(Forgotten) as raised:
            call(*words)
        self.assertEqual(raised.exception.first, first)

    def test_an_empty_house(self) -> None:
        with House() as house:
            self.assertEqual((house.documents, house.statistics), ([], Statistics(0, 0, 0, 0)))
            self.lacks("document", lambda: house.document("notes").doc)
            self.lacks("schema", house.open, "notes", "plain")

    def test_a_schema_has_one_name(self) -> None:
        self.house.name_schema("plain", SCHEMA)
        self.faults(23, self.house.name_schema, "plain", RICH)
        self.faults(23, self.house.name_schema, "no name", RICH)
        self.faults(6, self.house.name_schema, "odd", {})
        self.house.name_schema("rich", RICH)
        self.assertEqual(self.house.statistics, Statistics(1, 0, 2, 4))

    def test_documents_are_opened_and_closed(self) -> None:
        self.lacks("closed", self.house.open, "notes", "plain")
        self.faults(23, self.house.open, "", "plain")
        self.faults(16, self.house.open, "plan", "plain", {"type": "paragraph"})
        plan = self.house.open("plan", "plain")
        self.assertEqual(plan.at(), Snapshot({"type": "doc", "content": [{"type": "paragraph"}]}, 0))
        self.assertEqual(self.house.documents, [Listed("notes", "plain", 5, 5, 4), Listed("plan", "plain", 0, 0, 2)])
        self.notes.close()
        self.lacks("document", self.notes.close)
        self.lacks("document", lambda: self.notes.doc)
        self.assertEqual(self.house.documents, [Listed("plan", "plain", 0, 0, 2)])
        self.house.open("notes", "plain", DOC)
        self.assertEqual(self.notes.version, 0)

    def test_documents_are_apart(self) -> None:
        other = self.house.open("other", "plain", DOC)
        self.assertEqual(self.notes.submit(5, "ann", [insert(1, "x"), insert(2, "y")]), Accepted(5, 2))
        self.assertEqual(other.submit(0, "ann", [insert(3, "z")]), Accepted(0, 1))
        self.assertEqual([text_of(it.doc) for it in (self.notes, other)], ["xyab", "abz"])
        self.assertEqual([it.version for it in (self.notes, other)], [7, 1])
        self.assertEqual(other.since(0).client_ids, ["ann"])

    def test_submissions_raise_as_an_authority_s(self) -> None:
        self.is_past(5, self.notes.submit, 4, "ann", [])
        self.faults(7, self.notes.submit, 5, "ann", [{"stepType": "none"}])
        self.faults(6, self.notes.submit, 5, 1.5, [])
        with self.assertRaises(Refused) as raised:
            self.notes.submit(5, "ann", [insert(1, "x"), delete(0, 5)])
        self.assertEqual((raised.exception.index, raised.exception.reason, raised.exception.at), (1, 9, 0))
        self.assertEqual(self.notes.version, 5)

    def test_the_log_and_earlier_documents_are_told(self) -> None:
        self.notes.submit(5, "ann", [insert(1, "x")])
        self.notes.submit(6, 7, [insert(2, "y")])
        entries = self.notes.since(5, 1)
        self.assertEqual((entries.client_ids, entries.steps, entries.version), (["ann"], [insert(1, "x")], 6))
        self.assertEqual(self.notes.since(6).client_ids, [7])
        self.assertEqual((text_of(self.notes.at(6).doc), self.notes.at(6).version), ("xab", 6))
        self.assertEqual(self.notes.at(5), Snapshot(DOC, 5))
        self.is_past(7, self.notes.at, 8)
        self.is_forgotten(5, self.notes.at, 4)
        self.is_forgotten(5, self.notes.since, 4)

    def test_positions_are_mapped(self) -> None:
        self.notes.submit(5, "ann", [insert(2, "xy"), delete(4, 5)])
        mapped = self.notes.map(5, 7, [(1, 1), (2, -1), (2, 1), (3, -1)])
        self.assertEqual(mapped, [MapResult(1, False), MapResult(2, False), MapResult(4, True), MapResult(4, True)])
        self.assertEqual(self.notes.map(5, 6, [(2, -1), (2, 1)]), [MapResult(2, False), MapResult(4, False)])
        self.lacks("range", self.notes.map, 5, 7, [(5, 1)])
        self.lacks("range", self.notes.map, 7, 5, [])
        self.is_past(7, self.notes.map, 5, 8, [])
        self.is_forgotten(5, self.notes.map, 4, 7, [])
        self.faults(6, self.notes.map, 5, 7, [(1, 2)])

    def test_tokens_have_authors(self) -> None:
        self.notes.submit(5, "ann", [insert(1, "xy")])
        self.notes.submit(6, 7, [insert(2, "z")])
        self.assertEqual(
            self.notes.authors(5),
            [Authored(1, None, None), Authored(1, "ann", 6), Authored(1, 7, 7), Authored(1, "ann", 6), Authored(3, None, None)],
        )
        self.assertEqual(self.notes.authors(7), [Authored(7, None, None)])
        self.is_past(7, self.notes.authors, 8)
        self.is_forgotten(5, self.notes.authors, 4)

    def test_steps_are_taken_back(self) -> None:
        self.notes.submit(5, "ann", [insert(1, "xy")])
        self.notes.submit(6, "bob", [insert(5, "z")])
        self.assertEqual(self.notes.revert("eve", 5, 1), Reverted(7, [delete(1, 3)], True))
        self.assertEqual(text_of(self.notes.doc), "abz")
        self.assertEqual(self.notes.since(7).client_ids, ["eve"])
        self.is_past(8, self.notes.revert, "eve", 5, 4)
        self.is_forgotten(5, self.notes.revert, "eve", 4, 1)

    def test_the_house_edits(self) -> None:
        self.assertEqual(self.notes.edit("bot", edits.text(1, 1, "x")), Edited(5, insert(1, "x")))
        self.assertEqual(self.notes.edit("bot", edits.text(9, 9, "x")), NothingMade("range"))
        self.assertEqual(self.notes.edit("bot", edits.lift(1)), NothingMade("place"))
        self.faults(7, self.notes.edit, "bot", {"op": "undo"})
        with self.assertRaises(Refused) as raised:
            self.notes.edit("bot", edits.step(delete(0, 5)))
        self.assertEqual((raised.exception.index, raised.exception.reason), (0, 9))
        self.assertEqual((self.notes.version, text_of(self.notes.doc)), (6, "xab"))

    def test_old_steps_are_let_go(self) -> None:
        self.notes.submit(5, "ann", [insert(1, "x"), insert(2, "y")])
        self.is_past(7, self.notes.forget, 8)
        self.assertEqual(self.notes.forget(6), 6)
        self.assertEqual(self.notes.forget(5), 6)
        self.is_forgotten(6, self.notes.since, 5)
        self.assertEqual(self.notes.since(6).steps, [insert(2, "y")])
        self.assertEqual(self.house.documents, [Listed("notes", "plain", 6, 7, 6)])
        self.assertEqual(self.house.statistics, Statistics(1, 1, 1, 6))

    def test_clients_of_a_document(self) -> None:
        at = self.notes.at()
        with Client(SCHEMA, at.doc, "ann", at.version) as ann, Client(SCHEMA, at.doc, "bob", at.version) as bob:
            ann.edit(edits.text(1, 1, "x"))
            self.assertEqual(ann.take(self.notes.tell(ann.compose())), Confirmed(1, 6))
            bob.take(self.notes.tell(bob.ask()))
            self.assertEqual([text_of(it.doc) for it in (ann, bob, self.notes)], ["xab"] * 3)

    def test_messages_are_answered_as_they_come(self) -> None:
        self.assertEqual(self.house.tell({"op": "nothing"}), {"fault": 7})
        self.assertEqual(self.house.tell({"op": "since", "in": "notes", "version": 5}), self.notes.tell({"op": "since", "version": 5}))
        self.assertEqual(self.house.document("none").tell({"op": "doc"}), {"none": "document"})

    def test_a_closed_house_raises(self) -> None:
        self.house.close()
        self.house.close()
        for call in (self.notes.close, lambda: self.house.documents, lambda: self.notes.doc):
            with self.assertRaises(ValueError):
                call()

    def test_threads_take_turns(self) -> None:
        def write(document: HouseDocument) -> None:
            for version in range(50):
                document.submit(version, "ann", [insert(1, "z")])

        documents = [self.house.open(f"document-{i}", "plain") for i in range(4)]
        threads = [threading.Thread(target=write, args=(it,)) for it in documents]
        for it in threads:
            it.start()
        for it in threads:
            it.join()
        self.assertEqual([text_of(it.doc) for it in documents], ["z" * 50] * 4)


if __name__ == "__main__":
    result = unittest.main(exit=False, verbosity=0).result
    wrong = len(result.failures) + len(result.errors)
    print(f"{result.testsRun - wrong} passed, {wrong} failed")
    raise SystemExit(wrong > 0)
