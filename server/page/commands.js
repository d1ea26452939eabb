// What the tools and keys of the editor do, by name; and which of them are on.

import {liftListItem, sinkListItem, splitListItem, wrapInList} from "prosemirror-schema-list"
import {
  breakLine, chain, deleteSelection, hasMark, joinBackward, joinForward, keymap, liftBlocks, newlineInCode, setBlock, splitBlock,
  toggleMark, wrapIn,
} from "../../live/page/editing.js"
import {schema} from "./schema.js"

const {
  paragraph, heading, code_block: codeBlock, list_item: item, bullet_list: bullets, ordered_list: numbers, blockquote,
  horizontal_rule: rule,
} = schema.nodes
const {strong, em, code, link} = schema.marks

/// The kinds of blocks, by the value of the tool that chooses them.
export const BLOCKS = {
  paragraph: setBlock(paragraph),
  heading1: setBlock(heading, {level: 1}),
  heading2: setBlock(heading, {level: 2}),
  heading3: setBlock(heading, {level: 3}),
  code: setBlock(codeBlock),
}

/// The kind of the block in which the selection is, as a value of that tool; empty where it has none.
export function blockOf({selection: {$from: {parent}}}) {
  const name = {[paragraph.name]: "paragraph", [codeBlock.name]: "code", [heading.name]: `heading${parent.attrs.level}`}[parent.type.name]
  return name in BLOCKS ? name : ""
}

function insertRule(state, dispatch) {
  if (dispatch) dispatch(state.tr.replaceSelectionWith(rule.create()).scrollIntoView())
  return true
}

/// The commands of the tools. `pm` has the plugin's; `ask` opens the dialogs of links, images and comments.
export const commandsOf = (pm, ask) => ({
  strong: toggleMark(strong),
  em: toggleMark(em),
  mono: toggleMark(code),
  link: ask.link,
  bullets: wrapInList(bullets),
  numbers: wrapInList(numbers),
  quote: wrapIn(blockquote),
  lift: chain(liftListItem(item), liftBlocks),
  image: ask.image,
  rule: insertRule,
  undo: pm.undo,
  redo: pm.redo,
  comment: ask.comment,
})

const MARKS = {strong, em, mono: code, link}

/// Whether the mark of a tool is on; undefined of a tool without a mark.
export const isOn = (state, name) => (MARKS[name] ? hasMark(state, MARKS[name]) : undefined)

/// The plugin that binds the keys.
export function keysOf(commands) {
  return keymap({
    "Enter": chain(newlineInCode, splitListItem(item), liftListItem(item), splitBlock),
    "Shift-Enter": chain(newlineInCode, breakLine),
    "Backspace": chain(deleteSelection, joinBackward),
    "Delete": chain(deleteSelection, joinForward),
    "Tab": sinkListItem(item),
    "Shift-Tab": liftListItem(item),
    "Mod-b": commands.strong,
    "Mod-i": commands.em,
    "Mod-e": commands.mono,
    "Mod-k": commands.link,
    "Mod-z": commands.undo,
    "Mod-y": commands.redo,
    "Mod-Shift-z": commands.redo,
    "Mod-Shift-b": commands.quote,
    "Mod-Shift-8": commands.bullets,
    "Mod-Shift-9": commands.numbers,
    "Mod-Alt-m": commands.comment,
    "Mod-Alt-0": BLOCKS.paragraph,
    "Mod-Alt-1": BLOCKS.heading1,
    "Mod-Alt-2": BLOCKS.heading2,
    "Mod-Alt-3": BLOCKS.heading3,
  })
}
