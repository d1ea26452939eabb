// What the keys and buttons of the page call.

"use strict"

const {liftListItem, sinkListItem, splitListItem, wrapInList} = require("prosemirror-schema-list")
const editing = require("./editing")
const {schema} = require("./schema")

const {chain, toggleMark} = editing
const {heading, list_item: item, bullet_list: bullets} = schema.nodes
const {strong, em, code} = schema.marks

const BUTTONS = {
  strong: toggleMark(strong),
  em: toggleMark(em),
  code: toggleMark(code),
  heading: editing.toggleBlock(heading, {level: 2}),
  list: wrapInList(bullets),
  lift: liftListItem(item),
}

const KEYS = {
  "Enter": chain(editing.newlineInCode, splitListItem(item), liftListItem(item), editing.splitBlock),
  "Shift-Enter": chain(editing.newlineInCode, editing.breakLine),
  "Backspace": chain(editing.deleteSelection, editing.joinBackward),
  "Delete": chain(editing.deleteSelection, editing.joinForward),
  "Tab": sinkListItem(item),
  "Shift-Tab": liftListItem(item),
  "Mod-b": BUTTONS.strong,
  "Mod-i": BUTTONS.em,
}

/// What the buttons do, and a plugin that binds the keys, with these commands of undo.
function commandsOf({undo, redo}) {
  const keys = {...KEYS, "Mod-z": undo, "Mod-y": redo, "Mod-Shift-z": redo}
  return {commands: {...BUTTONS, undo, redo}, keymap: () => editing.keymap(keys)}
}

module.exports = {commandsOf}
