"""Two clients on one document, and their authority: a step that is carried past another's, and an undo amid others' changes.

usage: PYTHONPATH=bindings/python python3 bindings/python/example_clients.py
"""

from gezhufet import Authority, Client, Kept, Rebased, edits

SCHEMA = {"nodes": [{"name": "doc", "content": "paragraph+"}, {"name": "paragraph", "content": "text*"}, {"name": "text"}]}
DOC = {"type": "doc", "content": [{"type": "paragraph", "content": [{"type": "text", "text": "Hello world"}]}]}


def text(talk) -> str:
    """The text of a document's paragraph."""
    return talk.doc["content"][0]["content"][0]["text"]


def exchange(client: Client, authority: Authority) -> None:
    """Submits what is pending. Where others were first it takes their steps over, and submits again."""
    while isinstance(client.take(authority.tell(client.compose())), Kept):
        taken = client.take(authority.tell(client.ask()))
        if isinstance(taken, Rebased):
            # An editor's view applies these steps, one after another.
            print(f"{client.client_id} takes {taken.foreign} over: {taken.back} of {len(taken.steps)} steps take its own back first")


with Authority(SCHEMA, DOC) as authority, Client(SCHEMA, DOC, "ann") as ann, Client(SCHEMA, DOC, "bob") as bob:
    ann.edit(edits.delete(7, 12))
    bob.edit(edits.text(1, 6, "Goodbye"))
    exchange(ann, authority)
    exchange(bob, authority)
    print("both:", text(authority))

    # Bob's word came after ann's deletion. Her undo brings back what she deleted, and leaves what he wrote.
    ann.take(authority.tell(ann.ask()))
    ann.undo()
    exchange(ann, authority)
    bob.take(authority.tell(bob.ask()))
    print("ann's undo:", text(authority))
    print("all the same:", text(ann) == text(bob) == text(authority))
