"""The fourteen edits, as a client takes them: each function gives the JSON value of one.

Positions count tokens of the document's content, from 0: one for the open and one for the close of each node that has children, one
for a leaf, and one for each UTF-16 unit of text, so that a letter outside the basic plane counts two. Nodes, marks, slices and steps
are JSON values, as ProseMirror writes them. Whether an edit can be made is asked when a client makes it.
"""

from typing import Any, Dict, Mapping, Optional

Json = Any
Edit = Dict[str, Json]


def _with_attrs(edit: Edit, attrs: Optional[Mapping[str, Json]]) -> Edit:
    return edit if attrs is None else {**edit, "attrs": dict(attrs)}


def step(step: Json) -> Edit:
    """This very step."""
    return {"op": "step", "step": step}


def text(from_: int, to: int, text: str) -> Edit:
    """The text, which may be empty, with the marks at `from_`, in place of what stands from `from_` to `to`, as it fits."""
    return {"op": "text", "from": from_, "to": to, "text": text}


def delete(from_: int, to: int) -> Edit:
    """Nothing in place of what stands from `from_` to `to`, as it fits."""
    return {"op": "delete", "from": from_, "to": to}


def paste(from_: int, to: int, slice_: Json) -> Edit:
    """The slice in place of what stands from `from_` to `to`, as it fits. None is the empty slice."""
    return {"op": "paste", "from": from_, "to": to, "slice": slice_}


def insert(pos: int, node: Json) -> Edit:
    """The node at `pos`, as it fits."""
    return {"op": "insert", "pos": pos, "node": node}


def split(pos: int, depth: int = 1) -> Edit:
    """The `depth` innermost nodes around `pos`, each split in two there."""
    return {"op": "split", "pos": pos, "depth": depth}


def join(pos: int, depth: int = 1) -> Edit:
    """One node in place of the two that end and begin at `pos`, and so on inwards, `depth` times."""
    return {"op": "join", "pos": pos, "depth": depth}


def wrap(from_: int, to: int, type_: str, attrs: Optional[Mapping[str, Json]] = None) -> Edit:
    """A node of the type with these attributes around what stands from `from_` to `to`."""
    return _with_attrs({"op": "wrap", "from": from_, "to": to, "type": type_}, attrs)


def lift(pos: int) -> Edit:
    """The content of the node that begins at `pos`, in its place."""
    return {"op": "lift", "pos": pos}


def set_type(pos: int, type_: str, attrs: Optional[Mapping[str, Json]] = None) -> Edit:
    """This type and these attributes for the node that begins at `pos`."""
    return _with_attrs({"op": "settype", "pos": pos, "type": type_}, attrs)


def add_mark(from_: int, to: int, mark: Json) -> Edit:
    """The mark on the texts, the inline leaves and the inline atoms from `from_` to `to` whose parent allows it."""
    return {"op": "addmark", "from": from_, "to": to, "mark": mark}


def remove_mark(from_: int, to: int, mark: Json) -> Edit:
    """No such mark, of this type and with these attributes, on all that is inline from `from_` to `to`."""
    return {"op": "removemark", "from": from_, "to": to, "mark": mark}


def attr(pos: int, attr: str, value: Json) -> Edit:
    """This value for this attribute of the node that begins at `pos`, a leaf too."""
    return {"op": "attr", "pos": pos, "attr": attr, "value": value}


def doc_attr(attr: str, value: Json) -> Edit:
    """This value for this attribute of the document's top node."""
    return {"op": "docattr", "attr": attr, "value": value}
