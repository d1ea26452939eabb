"""Sessions made from a number, as the word `gen` makes them (docs/use/FORMATS.md, "A session made from a number")."""

from typing import Any, Dict, Iterator, List

Json = Any
BLOCK = {"content": "block+", "group": "block"}
SCHEMA = {
    "nodes": [
        {"name": "doc", "content": "block+"},
        {"name": "paragraph", "content": "inline*", "group": "block"},
        {"name": "blockquote", **BLOCK},
        {"name": "heading", "content": "inline*", "group": "block", "attrs": {"level": {"default": 1}}},
        {"name": "bullet_list", "content": "list_item+", "group": "block"},
        {"name": "list_item", "content": "paragraph block*"},
        {"name": "image", "group": "inline", "inline": True, "attrs": {"src": {}}},
        {"name": "text", "group": "inline"},
    ],
    "marks": [
        {"name": "link", "attrs": {"href": {}}, "inclusive": False},
        {"name": "em"},
        {"name": "strong"},
        {"name": "code", "excludes": "_"},
    ],
}
DOC = {"content": [{"content": [{"text": "0123456789", "type": "text"}], "type": "paragraph"}], "type": "doc"}


class Draws:
    def __init__(self, number: int) -> None:
        self.number = number

    def below(self, limit: int) -> int:
        self.number = (self.number * 6364136223846793005 + 1442695040888963407) % 2**64
        return (self.number >> 33) % limit


def turn(draws: Draws) -> Dict[str, Json]:
    """The line that is drawn, without its client."""
    kind = draws.below(16)
    if kind <= 9:
        at = 1 + draws.below(30)
        if kind <= 5:
            return {"op": "text", "from": at, "to": at, "text": chr(ord("a") + draws.below(26))}
        if kind <= 7:
            return {"op": "delete", "from": at, "to": at + 1 + draws.below(3)}
        if kind == 8:
            return {"op": "split", "pos": at}
        to = at + 1 + draws.below(5)
        return {"op": "addmark", "from": at, "to": to, "mark": {"type": "strong" if draws.below(2) else "em"}}
    if kind <= 14:
        return {"op": {10: "undo", 11: "redo", 14: "pull"}.get(kind, "push")}
    return {"op": "push", "lost": draws.below(2) == 0}


def drawn(clients: int, rounds: int, number: int) -> List[Json]:
    """The lines of a session."""
    names = [f"c{it + 1}" for it in range(clients)]
    return [SCHEMA, DOC, names, *_ops(names * rounds, Draws(number))]


def _ops(names: List[str], draws: Draws) -> Iterator[Dict[str, Json]]:
    for name in names:
        yield {"c": name, **turn(draws)}
