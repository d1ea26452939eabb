// A plugin for ProseMirror's editor: its state stays ProseMirror's, and rebasing over others' steps and undo amid them are the
// engine's. ProseMirror's packages are handed in, since there is one of each in a program.

import {decorated, moved as movedCursors} from "./cursors.js"
import {Entry} from "./entry.js"
import {closed, grouped, isQuiet, moved as movedGroup, noGroup} from "./groups.js"
import {Link} from "./link.js"

const CLOSE = "gezhufetClose"

const noCursors = new Map()

// What a state knows: the newest of what its document has had, the event that the next edit may join, and others' cursors.
class Value {
  constructor(last, group, cursors) { Object.assign(this, {last, group, cursors}) }
}

const withCursor = (cursors, [id, cursor]) => {
  const now = new Map(cursors)
  now.delete(id)
  return cursor ? now.set(id, cursor) : now
}

// A transaction of the editor: its steps are told to the engine once the view has them.
function edited({last, group}, tr, {delay, isAfterTurn}) {
  const quiet = isAfterTurn || isQuiet(tr)
  const next = quiet ? closed({event: group.event + 1}) : grouped(group, tr, delay)
  return [tr.steps.reduce((before, step, i) => new Entry(before, step, tr.docs[i], next.event, quiet), last), next]
}

function applied(value, tr, key, delay) {
  const {last, cursors} = value, told = tr.getMeta(key)
  const group = tr.getMeta(CLOSE) ? closed(value.group) : value.group
  if (told?.cursor) return new Value(last, group, withCursor(cursors, told.cursor))
  const now = movedCursors(cursors, tr, told?.foreign)
  if (told?.root) return new Value(told.root, told.isTurn ? closed(group) : movedGroup(group, tr.mapping), now)
  if (!tr.docChanged) return group === value.group ? value : new Value(last, group, now)
  // What a plugin adds to an undo is not undone.
  const isAfterTurn = Boolean(tr.getMeta("appendedTransaction")?.getMeta(key)?.isTurn)
  return new Value(...edited({last, group}, tr, {delay, isAfterTurn}), now)
}

/// The plugin and its commands, over ProseMirror's packages: `packages` has `Plugin`, `PluginKey` and `TextSelection` of
/// prosemirror-state, `Step` and `ReplaceStep` of prosemirror-transform, and `Decoration` and `DecorationSet` of prosemirror-view.
export function pluginOf(packages) {
  const {Plugin, PluginKey, TextSelection, Step, ReplaceStep} = packages
  const key = new PluginKey("gezhufet")

  const linkOf = state => key.get(state)?.spec.link ?? null

  /// `client` is one of `openClient`, which has the state's document. `send(message)` gives a promise of the authority's answer. The
  /// other options docs/embed/JAVASCRIPT.md describes. A plugin serves one view.
  function collab({client, send, newGroupDelay = 500, pause = 1000, onError = () => {}, onRefuse = () => {}, ...rest}) {
    const link = new Link({client, send, pause, onError, onRefuse, ...rest}, {key, Step, ReplaceStep})
    return new Plugin({
      key,
      link,
      state: {
        init: () => new Value(link.root, noGroup, noCursors),
        apply: (tr, value) => applied(value, tr, key, newGroupDelay),
      },
      view: view => link.attach(view),
      props: {
        decorations(state) {
          const {cursors} = key.getState(state)
          return cursors.size ? decorated(state.doc, cursors, packages, rest) : null
        },
      },
    })
  }

  // Where the last change is.
  function select(tr) {
    const map = tr.mapping.maps[tr.mapping.maps.length - 1]
    let at = null
    map.forEach((_from, _to, _start, end) => { at = end })
    if (at === null) return tr
    return tr.setSelection(TextSelection.near(tr.doc.resolve(at), -1))
  }

  // Goes on to the next event where nothing was left of one. `next` gives the number of the event, undefined for redo.
  function turned(link, state, next, isThere) {
    while (isThere(link)) {
      const tr = link.turn(state.tr, next(link))
      if (!tr) return null
      if (tr.docChanged) return tr
    }
    return null
  }

  const command = (next, isThere) => (state, dispatch) => {
    const link = linkOf(state)
    if (!link?.has(state) || !isThere(link)) return false
    const tr = dispatch ? turned(link, state, next, isThere) : null
    if (tr) link.send(select(tr).scrollIntoView(), dispatch)
    return true
  }

  return {
    collab,

    /// Commands: the last event undone, and the last undone one made again. False where there is none.
    undo: command(link => link.events.next, link => link.events.next !== undefined),
    redo: command(() => undefined, link => link.events.undone.length > 0),

    /// A command that undoes one event, and leaves what came later. False where it is not there to undo.
    undoChange: event => command(() => event, link => link.events.done.includes(event)),

    /// How many events can be undone, and redone.
    undoDepth: state => linkOf(state).events.done.length,
    redoDepth: state => linkOf(state).events.undone.length,

    /// The number of the editor's last event, 0 before the first.
    lastEvent: state => key.getState(state).group.event,

    /// Has the next edit begin an event of its own.
    closeHistory: tr => tr.setMeta(CLOSE, true),

    /// How many steps of the log the editor has, and the steps that the log need not have yet, each with its event.
    getVersion: state => linkOf(state).version,
    getPending: state => linkOf(state).pending,

    /// Takes what the authority says unasked, an answer to `since` or a version.
    receive: (view, answer) => linkOf(view.state).receive(answer),

    /// Asks the authority what is new.
    pull: view => linkOf(view.state).pull(),

    /// Others' cursors by their clients' IDs, at places in the state's document.
    cursorsOf: state => key.getState(state).cursors,

    /// Shows another's cursor, as `sendCursor` told it there, with the `clientID` that it has; without `head` there is none any more.
    showCursor: (view, cursor) => linkOf(view.state).showCursor(cursor),
  }
}
