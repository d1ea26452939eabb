// Commands of an editor over ProseMirror's basic schema with lists, and what binds them to keys: those of prosemirror-commands and
// prosemirror-keymap that the pages need, since Debian has no packages of these.

"use strict"

const {Plugin, Selection, TextSelection} = require("prosemirror-state")
const {canJoin, canSplit, findWrapping, liftTarget} = require("prosemirror-transform")

/// The first of the commands that does something.
const chain = (...commands) => (state, dispatch) => commands.some(command => command(state, dispatch))

// Where a command is only asked whether it would do something, it is told nothing to dispatch to.
function give(dispatch, make) {
  if (dispatch) dispatch(make().scrollIntoView())
  return true
}

function deleteSelection(state, dispatch) {
  return !state.selection.empty && give(dispatch, () => state.tr.deleteSelection())
}

function newlineInCode(state, dispatch) {
  return state.selection.$from.parent.type == state.schema.nodes.code_block && give(dispatch, () => state.tr.insertText("\n"))
}

// At the end of a heading a paragraph begins.
function splitBlock(state, dispatch) {
  const tr = state.tr.deleteSelection(), {$from} = tr.selection
  const types = $from.parentOffset == $from.parent.content.size ? [{type: state.schema.nodes.paragraph}] : undefined
  return $from.parent.isTextblock && canSplit(tr.doc, $from.pos, 1, types) && give(dispatch, () => tr.split($from.pos, 1, types))
}

function breakLine(state, dispatch) {
  return give(dispatch, () => state.tr.replaceSelectionWith(state.schema.nodes.hard_break.create()))
}

// Lifts the blocks of the selection out of what is around them.
function liftBlocks(state, dispatch) {
  const {$from, $to} = state.selection, range = $from.blockRange($to), target = range && liftTarget(range)
  return typeof target == "number" && give(dispatch, () => state.tr.lift(range, target))
}

// Joins the block with the one before it, or lifts it out of what is around it.
function joinBackward(state, dispatch) {
  const {$cursor} = state.selection
  if (!$cursor || $cursor.parentOffset > 0 || $cursor.depth == 0) return false
  const before = $cursor.before()
  if (canJoin(state.doc, before)) return give(dispatch, () => state.tr.join(before))
  if (liftBlocks(state, dispatch)) return true
  const near = Selection.findFrom(state.doc.resolve(before), -1)
  return Boolean(near) && give(dispatch, () => state.tr.delete(near.to, $cursor.pos))
}

function joinForward(state, dispatch) {
  const {$cursor} = state.selection
  if (!$cursor || $cursor.parentOffset < $cursor.parent.content.size || $cursor.depth == 0) return false
  const after = $cursor.after()
  if (canJoin(state.doc, after)) return give(dispatch, () => state.tr.join(after))
  const near = Selection.findFrom(state.doc.resolve(after), 1)
  return Boolean(near) && give(dispatch, () => state.tr.delete($cursor.pos, near.from))
}

/// Whether what is selected has a mark of this type somewhere; for a cursor, whether what is typed next has it.
function hasMark(state, type) {
  const {from, to, empty, $from} = state.selection
  return Boolean(empty ? type.isInSet(state.storedMarks || $from.marks()) : state.doc.rangeHasMark(from, to, type))
}

/// The mark on the selection, or off where it is there; for a cursor, on what is typed next.
const toggleMark = (type, attrs) => (state, dispatch) => {
  const {from, to, empty, $from} = state.selection
  if (!(state.selection instanceof TextSelection) || !$from.parent.type.allowsMarkType(type)) return false
  if (!dispatch) return true
  const isOn = hasMark(state, type), mark = type.create(attrs)
  if (empty) dispatch(isOn ? state.tr.removeStoredMark(type) : state.tr.addStoredMark(mark))
  else dispatch(isOn ? state.tr.removeMark(from, to, type) : state.tr.addMark(from, to, mark))
  return true
}

/// The type for the blocks of the selection.
const setBlock = (type, attrs) => (state, dispatch) => {
  const {from, to} = state.selection
  return give(dispatch, () => state.tr.setBlockType(from, to, type, attrs))
}

/// The type for the blocks of the selection, or a paragraph where they have it.
const toggleBlock = (type, attrs) => (state, dispatch) => {
  const isOn = state.selection.$from.parent.hasMarkup(type, attrs)
  return (isOn ? setBlock(state.schema.nodes.paragraph) : setBlock(type, attrs))(state, dispatch)
}

/// The blocks of the selection into a node of this type.
const wrapIn = type => (state, dispatch) => {
  const {$from, $to} = state.selection, range = $from.blockRange($to), wrapping = range && findWrapping(range, type)
  return Boolean(wrapping) && give(dispatch, () => state.tr.wrap(range, wrapping))
}

function nameOf({key, ctrlKey, metaKey, altKey, shiftKey}) {
  const name = key.length == 1 ? key.toLowerCase() : key
  const isHeld = ctrlKey || metaKey || altKey
  return (ctrlKey || metaKey ? "Mod-" : "") + (altKey ? "Alt-" : "") + (shiftKey && (key.length > 1 || isHeld) ? "Shift-" : "") + name
}

/// A plugin that binds keys, as `Mod-b`, to commands.
function keymap(keys) {
  const handleKeyDown = (view, event) => {
    const command = keys[nameOf(event)]
    return Boolean(command && command(view.state, view.dispatch, view))
  }
  return new Plugin({props: {handleKeyDown}})
}

module.exports = {
  breakLine, chain, deleteSelection, hasMark, joinBackward, joinForward, keymap, liftBlocks, newlineInCode, setBlock, splitBlock,
  toggleBlock, toggleMark, wrapIn,
}
