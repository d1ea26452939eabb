// What a house tells of positions, of steps taken back, of authors and of its own edits, beside what ProseMirror makes of it.

"use strict"

const {tokensOf} = require("./played")

const MOST_POSITIONS = 6, MOST_STEPS = 4

// A whole number from the one to the other.
const between = (draws, from, to) => from + draws.below(Math.max(1, to - from + 1))

// What the house answers to a `map`, as ProseMirror maps the positions.
function mapped({from: first, version, played}, {from, to, positions}) {
  if (from < first) return {from: first}
  if (to > version) return {version}
  const {size} = played.docAt(from).content
  if (to < from || positions.some(([pos]) => pos > size)) return {none: "range"}
  const mapping = played.mapping(from, to)
  const moved = positions.map(([pos, side]) => {
    const {pos: at, deleted} = mapping.mapResult(pos, side)
    return [at, deleted]
  })
  return {positions: moved, version: to}
}

/// Has positions of an earlier document mapped to a later one. Now and then the versions or a position are none.
async function askMap(beside, draws) {
  const {from: first, version} = beside, isOdd = draws.chance(10) ? 1 : 0
  const from = between(draws, Math.max(0, first - isOdd), version), to = between(draws, Math.max(0, from - isOdd), version + isOdd)
  const most = from < first ? 0 : beside.docAt(from).content.size + isOdd
  const positions = Array.from({length: draws.below(MOST_POSITIONS + 1)}, () => [between(draws, 0, most), draws.chance(50) ? 1 : -1])
  const line = {op: "map", in: beside.name, from, to, positions}, text = JSON.stringify(line)
  beside.same(text, await beside.house.askLine(text), JSON.stringify(mapped(beside, line)))
}

// What the house answers to a `revert` of steps that it can't take back, or null.
function outOf({from: first, version}, {from, count}) {
  if (from < first) return {from: first}
  return from + count > version ? {version} : null
}

/// Has entries of the log taken back. ProseMirror applies the steps that are told, and so does the other process, which then has the same
/// log. What is left is the document before the entries where none came since, and where those since lie apart, what they make of it.
async function askRevert(beside, draws, counts) {
  const {from: first, version, played} = beside, isOdd = draws.chance(10) ? 1 : 0
  // Mostly some of the last.
  const from = between(draws, draws.chance(60) ? Math.max(first, version - MOST_STEPS) : Math.max(0, first - isOdd), version - 1)
  const count = between(draws, 1 - isOdd, Math.min(MOST_STEPS, version - from) + isOdd)
  const line = {op: "revert", in: beside.name, clientID: "reviewer", from, count}, text = JSON.stringify(line), out = outOf(beside, line)
  const told = await beside.house.askLine(text), {accepted, refused, steps, apart} = JSON.parse(told)
  if (out) return beside.same(text, told, JSON.stringify(out))
  if (refused) return counts.refused++
  const what = `${text} at version ${version}`
  beside.same(what, JSON.stringify(accepted), JSON.stringify({count: steps.length, from: version}))
  beside.same(what, apart, count > 0 && Boolean(apart))
  const left = count > 0 && (apart || from + count == version) ? played.tokensWithout(from, from + count) : null
  beside.play(steps)
  if (left) beside.same(what, tokensOf(played.doc).join(), left.join())
  counts.reverts++
  counts.apart += apart && from + count < version ? 1 : 0
  return beside.took("reviewer", version, steps)
}

// For each token of the document the step since a version that put it in, as the steps' maps tell, in runs.
function runsOf(played, from, clientIDs) {
  const by = Array(played.docAt(from).content.size).fill(null), runs = []
  played.mapsOf(from, played.version).forEach((map, i) => {
    const ranges = [], own = {clientID: clientIDs[i], version: from + i + 1}
    map.forEach((start, end, newStart, newEnd) => ranges.unshift([start, end - start, newEnd - newStart]))
    for (const [start, size, put] of ranges) by.splice(start, size, ...Array(put).fill(own))
  })
  by.forEach((own, i) => {
    if (i > 0 && own === by[i - 1]) runs[runs.length - 1].size++
    else runs.push(own ? {clientID: own.clientID, size: 1, version: own.version} : {size: 1})
  })
  return runs
}

/// Asks who put each token in since a version, which now and then is none.
async function askAuthors(beside, draws) {
  const {from: first, version, played} = beside, isOdd = draws.chance(10) ? 1 : 0
  const from = between(draws, Math.max(0, first - isOdd), version + isOdd)
  const text = JSON.stringify({op: "authors", in: beside.name, from}), told = await beside.house.askLine(text)
  if (from < first || from > version) return beside.same(text, told, JSON.stringify(from < first ? {from: first} : {version}))
  const {clientIDs} = await beside.ask({op: "since", version: from})
  return beside.same(text, told, JSON.stringify({authors: runsOf(played, from, clientIDs), version}))
}

/// Has a text put in or something deleted by the house. ProseMirror applies the step that is told, and so does the other process.
async function askEdit(beside, draws, counts) {
  const {version, played} = beside, {size} = played.doc.content, from = draws.below(size + 1), to = Math.min(size, from + draws.below(5))
  const edit = draws.chance(70) ? {op: "text", from, to, text: draws.one(["bot", "a ", ""])} : {op: "delete", from, to}
  const line = {op: "edit", in: beside.name, clientID: "bot", edit}
  const {accepted, steps, none, refused} = await beside.house.ask(line)
  if (none || refused) return
  beside.same(JSON.stringify(line), JSON.stringify(accepted), JSON.stringify({count: 1, from: version}))
  counts.edits++
  beside.play(steps)
  await beside.took("bot", version, steps)
}

// Each word with its act, and how often it comes.
const WORDS = [["map", askMap, 6], ["revert", askRevert, 4], ["authors", askAuthors, 4], ["edit", askEdit, 4]]

/// The words that the program has of these, as `[act, weight]`. Those that it has not are told.
async function wordsOf(house) {
  const found = []
  for (const [word, act, weight] of WORDS) {
    if (await house.knows(word)) found.push([act, weight])
    else console.log(`house: ${word} left out, for the program has no such word`)
  }
  return found
}

module.exports = {between, wordsOf}
