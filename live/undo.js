// Undo amid others' changes, by mapping inverted steps: what takes an own step back is kept when the step is made, and mapped over
// all that came later. A step and the one that undid it are mirrors, so that a place in text that was deleted comes back with the
// text. It is written after prosemirror-history, which Debian has no package of; what an editor's steps become when they are
// rebased is told by collab.js.

"use strict"

const {Plugin, PluginKey, TextSelection} = require("prosemirror-state")
const {Mapping} = require("prosemirror-transform")
const {invertStep, isMirror} = require("./invert")

const undoKey = new PluginKey("undo")

// One step of the timeline, which is the log as far as the editor knows it and then its unconfirmed steps. `inverse` takes an own
// step back, and is null of others' steps; `undoes` is the item that an undo step took back, or null.
class Item {
  constructor(map, inverse, undoes = null) {
    this.map = map
    this.inverse = inverse
    this.undoes = undoes
  }
}

// `done` and `undone` are lists of events, which are lists of items; `ranges` is where the last edit was, and null where no edit
// can join its event any more.
class Timeline {
  constructor(items, done, undone, ranges, time) {
    Object.assign(this, {items, done, undone, ranges, time})
  }
}

// ---- events

function changedRanges(maps) {
  const ranges = []
  maps.forEach((map, i) => map.forEach((_from, _to, from, to) => {
    for (const later of maps.slice(i + 1)) [from, to] = [later.map(from, -1), later.map(to, 1)]
    ranges.push({from, to})
  }))
  return ranges
}

const mapRanges = (ranges, mapping) => ranges && ranges.map(({from, to}) => ({from: mapping.map(from, 1), to: mapping.map(to, -1)}))

// Whether an edit belongs to the event before it: it came soon after it, at a place that it had changed.
function joins(tr, timeline, delay) {
  if (tr.getMeta("appendedTransaction")) return true
  if (!timeline.ranges || tr.time - timeline.time > delay) return false
  let touches = false
  tr.mapping.maps[0].forEach((from, to) => {
    touches = touches || timeline.ranges.some(it => from <= it.to && to >= it.from)
  })
  return touches
}

// Lets the oldest events go, and the items before all that are left.
function pruned({items, done, undone, ranges, time}, depth) {
  const kept = done.slice(-depth)
  const used = new Set([...kept, ...undone].flat())
  const first = kept.length < done.length ? items.findIndex(it => used.has(it)) : 0
  return new Timeline(first > 0 ? items.slice(first) : items, kept, undone, ranges, time)
}

// ---- what a transaction makes of the timeline

function edited(timeline, tr, {depth, newGroupDelay}) {
  const made = tr.steps.map((step, i) => new Item(step.getMap(), invertStep(step, tr.docs[i])))
  const last = timeline.done[timeline.done.length - 1]
  const done = last && joins(tr, timeline, newGroupDelay)
    ? [...timeline.done.slice(0, -1), [...last, ...made]]
    : [...timeline.done, made]
  const ranges = changedRanges(tr.mapping.maps)
  return pruned(new Timeline([...timeline.items, ...made], done, [], ranges, tr.time), depth)
}

// Others' steps, or own ones that are not to be undone.
function passed(timeline, tr) {
  const items = [...timeline.items, ...tr.mapping.maps.map(map => new Item(map, null))]
  return new Timeline(items, timeline.done, timeline.undone, mapRanges(timeline.ranges, tr.mapping), timeline.time)
}

// The last items are the unconfirmed steps that were taken back. Others' steps come in their place, and then what they became.
function rebased(timeline, tr, {over, became}) {
  const start = Math.max(timeline.items.length - became.length, 0)
  const old = timeline.items.slice(start)
  const now = new Map()
  became.slice(became.length - old.length).forEach((it, i) => {
    const {inverse, undoes} = old[i]
    if (!it) return now.set(old[i], null)
    now.set(old[i], new Item(it.step.getMap(), inverse && it.inverse, now.has(undoes) ? now.get(undoes) : undoes))
  })
  const renewed = events => events
    .map(event => event.map(it => (now.has(it) ? now.get(it) : it)).filter(it => it))
    .filter(event => event.length)
  const items = [
    ...timeline.items.slice(0, start),
    ...over.map(step => new Item(step.getMap(), null)),
    ...[...now.values()].filter(it => it),
  ]
  const ranges = mapRanges(timeline.ranges, tr.mapping)
  return new Timeline(items, renewed(timeline.done), renewed(timeline.undone), ranges, timeline.time)
}

// What `undo` and `redo` made: the event went, and the steps that took it back are an event of the other list.
function takenBack(timeline, tr, {isRedo, left, undoes}) {
  const made = tr.steps.map((step, i) => new Item(step.getMap(), invertStep(step, tr.docs[i]), undoes[i]))
  const other = isRedo ? timeline.done : timeline.undone
  const more = made.length ? [...other, made] : other
  return new Timeline([...timeline.items, ...made], isRedo ? more : left, isRedo ? left : more, null, tr.time)
}

/// The plugin. `depth` is how many events can be undone; edits that come within `newGroupDelay` milliseconds at one place are one
/// event.
function undoHistory({depth = 100, newGroupDelay = 500} = {}) {
  return new Plugin({
    key: undoKey,
    state: {
      init: () => new Timeline([], [], [], null, 0),
      apply(tr, timeline) {
        const told = tr.getMeta(undoKey), carried = tr.getMeta("rebased")
        if (told) return takenBack(timeline, tr, told)
        if (carried) return rebased(timeline, tr, carried)
        if (!tr.docChanged) return timeline
        return tr.getMeta("addToHistory") === false ? passed(timeline, tr) : edited(timeline, tr, {depth, newGroupDelay})
      },
    },
  })
}

// ---- undo and redo

// The mapping over some items. Of a step that took one back and was then taken back itself, the pair counts of which both are here.
function mappingOver(items) {
  const mapping = new Mapping(), place = new Map()
  items.forEach((item, i) => {
    mapping.appendMap(item.map, place.get(item.undoes))
    place.set(item, i)
  })
  return mapping
}

// Adds the steps that take an event back to the transaction, the last first, each mapped over all that came after its step. What is
// lost, or does not apply, is left out. Gives for each step the item that it took back and is the mirror of, or null.
function takeBack(tr, event, timeline) {
  const items = [...timeline], undoes = []
  for (const item of [...event].reverse()) {
    for (const inverse of item.inverse) {
      const mapped = inverse.map(mappingOver(items.slice(items.indexOf(item) + 1)))
      if (!mapped || tr.maybeStep(mapped).failed) continue
      const undone = isMirror(item.map, item.inverse) ? item : null
      items.push(new Item(mapped.getMap(), null, undone))
      undoes.push(undone)
    }
  }
  return undoes
}

function command(isRedo) {
  return (state, dispatch) => {
    const {items, done, undone} = undoKey.getState(state)
    const events = isRedo ? undone : done
    if (events.length == 0) return false
    if (!dispatch) return true
    const tr = state.tr
    let [count, undoes] = [events.length, []]
    // An event of which nothing is left is passed by.
    while (count > 0 && tr.steps.length == 0) undoes = takeBack(tr, events[--count], items)
    if (tr.docChanged) {
      const ranges = changedRanges(tr.mapping.maps)
      if (ranges.length) tr.setSelection(TextSelection.near(tr.doc.resolve(ranges[ranges.length - 1].to), -1))
    }
    dispatch(tr.setMeta(undoKey, {isRedo, left: events.slice(0, count), undoes}).scrollIntoView())
    return true
  }
}

/// Commands: the editor's last event undone, and the last undone one made again. False where there is none.
const undo = command(false), redo = command(true)

/// How many events can be undone and redone.
const undoDepth = state => undoKey.getState(state).done.length
const redoDepth = state => undoKey.getState(state).undone.length

module.exports = {undoHistory, undo, redo, undoDepth, redoDepth}
