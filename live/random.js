// Random transactions of ProseMirror's basic schema with lists, by the calls that an editor's commands make.

"use strict"

const {Selection, TextSelection} = require("prosemirror-state")
const {canJoin, canSplit, findWrapping, liftTarget} = require("prosemirror-transform")
const {liftListItem, sinkListItem, splitListItem, wrapInList} = require("prosemirror-schema-list")

/// Draws from a seed, the same ones for the same seed (xorshift of 32 bits).
class Draws {
  constructor(seed) { this.state = (seed * 2654435761 + 1) >>> 0 || 1 }

  /// A whole number below `n`.
  below(n) {
    let x = this.state
    x ^= x << 13
    x ^= x >>> 17
    x ^= x << 5
    this.state = x >>> 0
    return this.state % n
  }

  chance(percent) { return this.below(100) < percent }

  one(list) { return list[this.below(list.length)] }
}

const WORDS = ["a", "and ", "Ann", "plan", "\u{1F600}", "milk, ", "é", " ", "twice as long a text "]

// ---- places

const anywhere = (draws, doc) => draws.below(doc.content.size + 1)

// A range, mostly a short one, of which the ends lie anywhere.
function range(draws, doc, most = 12) {
  const from = anywhere(draws, doc)
  return [from, Math.min(from + draws.below(draws.chance(10) ? 80 : most), doc.content.size)]
}

// A place in a textblock, or null.
function textPlace(draws, doc) {
  const $pos = Selection.near(doc.resolve(anywhere(draws, doc))).$from
  return $pos.parent.inlineContent ? $pos.pos : null
}

function blocks(draws, doc) {
  const [from, to] = range(draws, doc, 6)
  return doc.resolve(from).blockRange(doc.resolve(to))
}

function mark(draws, {marks}) {
  const {strong, em, code, link} = marks
  return draws.chance(30)
    ? link.create({href: draws.one(["https://a.example/", "https://b.example/"])})
    : draws.one([strong, em, code]).create()
}

// ---- transactions: each adds what it does to `tr`, or leaves it without steps

function text(tr, draws) {
  const pos = textPlace(draws, tr.doc)
  if (pos !== null) tr.insertText(draws.one(WORDS), pos)
}

function replaceText(tr, draws) {
  const pos = textPlace(draws, tr.doc)
  if (pos !== null) tr.insertText(draws.one(WORDS), pos, Math.min(pos + draws.below(4), tr.doc.resolve(pos).end()))
}

function remove(tr, draws) {
  const [from, to] = range(draws, tr.doc)
  if (draws.chance(50)) tr.deleteRange(from, to)
  else tr.delete(from, to)
}

function paste(tr, draws) {
  const [from, to] = range(draws, tr.doc, 5), slice = tr.doc.slice(...range(draws, tr.doc, 20))
  if (draws.chance(50)) tr.replaceRange(from, to, slice)
  else tr.replace(from, to, slice)
}

function node(tr, draws) {
  const {image, hard_break: hardBreak, horizontal_rule: rule} = tr.doc.type.schema.nodes
  const made = draws.one([image.create({src: "map.png"}), hardBreak.create(), rule.create()])
  const pos = made.isInline ? textPlace(draws, tr.doc) : anywhere(draws, tr.doc)
  if (pos !== null) tr.replaceRangeWith(pos, pos, made)
}

function split(tr, draws) {
  const pos = textPlace(draws, tr.doc), depth = draws.chance(80) ? 1 : 2
  if (pos !== null && canSplit(tr.doc, pos, depth)) tr.split(pos, depth)
}

function join(tr, draws) {
  const start = anywhere(draws, tr.doc)
  for (let pos = start; pos < Math.min(start + 40, tr.doc.content.size); pos++)
    if (canJoin(tr.doc, pos)) return tr.join(pos)
}

function wrap(tr, draws) {
  const around = blocks(draws, tr.doc)
  const wrapping = around && around.depth < 6 && findWrapping(around, tr.doc.type.schema.nodes.blockquote)
  if (wrapping) tr.wrap(around, wrapping)
}

function lift(tr, draws) {
  const around = blocks(draws, tr.doc), target = around && liftTarget(around)
  if (typeof target == "number") tr.lift(around, target)
}

function blockType(tr, draws) {
  const {paragraph, heading, code_block: code} = tr.doc.type.schema.nodes
  const type = draws.one([paragraph, heading, code])
  tr.setBlockType(...range(draws, tr.doc), type, type == heading ? {level: 1 + draws.below(3)} : null)
}

function nodeMarkup(tr, draws) {
  const headings = []
  tr.doc.descendants((it, pos) => { if (it.type.name == "heading") headings.push(pos) })
  if (headings.length) tr.setNodeMarkup(draws.one(headings), null, {level: 1 + draws.below(6)})
}

function addMark(tr, draws) { tr.addMark(...range(draws, tr.doc, 20), mark(draws, tr.doc.type.schema)) }

function removeMark(tr, draws) {
  const it = mark(draws, tr.doc.type.schema)
  tr.removeMark(...range(draws, tr.doc, 20), draws.chance(50) ? it : it.type)
}

// A command of prosemirror-schema-list at a random selection.
function list(tr, draws, state) {
  const {list_item: item, bullet_list: bullet, ordered_list: ordered} = state.schema.nodes
  const command = draws.one([wrapInList(bullet), wrapInList(ordered), splitListItem(item), liftListItem(item), sinkListItem(item)])
  const [from, to] = range(draws, state.doc).map(pos => state.doc.resolve(pos))
  let made = tr
  command(state.apply(state.tr.setSelection(TextSelection.between(from, to))), it => { made = it })
  made.steps.forEach(step => made !== tr && tr.step(step))
}

const KINDS = [
  [text, 30], [replaceText, 8], [remove, 10], [paste, 6], [node, 5], [split, 8], [join, 4], [wrap, 2], [lift, 5],
  [blockType, 4], [nodeMarkup, 2], [addMark, 10], [removeMark, 4], [list, 8],
]

/// A random transaction of a state, or null where the draw led to no step. A document of more than `most` tokens is cut first.
function randomTransaction(state, draws, most) {
  const tr = state.tr
  if (state.doc.content.size > most) {
    const from = anywhere(draws, state.doc)
    tr.deleteRange(from, Math.min(from + most / 4, state.doc.content.size))
  } else {
    let draw = draws.below(KINDS.reduce((sum, [, weight]) => sum + weight, 0))
    const [make] = KINDS.find(([, weight]) => (draw -= weight) < 0)
    make(tr, draws, state)
  }
  return tr.docChanged ? tr : null
}

module.exports = {Draws, randomTransaction}
