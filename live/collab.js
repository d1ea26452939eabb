// What an editor state knows of the authority: the version up to which it has the log, and its own steps that the log need not
// have yet, the unconfirmed ones. It is written after ProseMirror's guide on collaborative editing, with the calls of
// prosemirror-collab, which Debian has no package of. Two things are added: a step that the authority refused is taken out
// (`dropTransaction`), and steps are taken back exactly (invert.js).

"use strict"

const {Plugin, PluginKey} = require("prosemirror-state")
const {invertStep, isMirror} = require("./invert")

const collabKey = new PluginKey("collab")

/// A step, and what takes it back from the document that it led to.
class Unconfirmed {
  constructor(step, doc) {
    this.step = step
    this.inverse = invertStep(step, doc)
  }
}

class CollabState {
  constructor(version, unconfirmed) {
    this.version = version
    this.unconfirmed = unconfirmed
  }
}

/// The plugin. `version` is the one of the state's document, 0 unless told; `clientID` a text or a whole number that no other
/// editor of the document has.
function collab({version = 0, clientID}) {
  return new Plugin({
    key: collabKey,
    clientID,
    state: {
      init: () => new CollabState(version, []),
      apply(tr, collab) {
        const told = tr.getMeta(collabKey)
        if (told) return told
        if (!tr.docChanged) return collab
        const made = tr.steps.map((step, i) => new Unconfirmed(step, tr.docs[i]))
        return new CollabState(collab.version, [...collab.unconfirmed, ...made])
      },
    },
  })
}

/// The number of steps of the log that the state knows.
const getVersion = state => collabKey.getState(state).version

/// The ID under which the editor's steps stand in the log.
const getClientID = state => collabKey.get(state).spec.clientID

/// The steps that the log need not have yet, with their inverses, in order.
const getUnconfirmed = state => collabKey.getState(state).unconfirmed

/// What to submit: the version, the steps and the client's ID; null where nothing is unconfirmed.
function sendableSteps(state) {
  const {version, unconfirmed} = collabKey.getState(state)
  if (unconfirmed.length == 0) return null
  return {version, steps: unconfirmed.map(it => it.step), clientID: getClientID(state)}
}

// Takes `unconfirmed` back, the last first, applies `over`, and then each of `unconfirmed` but `without`, carried over what was
// applied since it was taken back. A step and what it became are mirrors. Gives what each of them became: null where nothing is
// left of it, or where it does not apply any more.
function rebaseSteps(unconfirmed, over, without, tr) {
  // Where the inverses of a step begin among the transaction's steps.
  const taken = new Map()
  for (const it of [...unconfirmed].reverse()) {
    taken.set(it, tr.steps.length)
    it.inverse.forEach(step => tr.step(step))
  }
  over.forEach(step => tr.step(step))
  return unconfirmed.map(it => {
    const [at, count, before] = [taken.get(it), it.inverse.length, tr.doc]
    const mapped = it === without ? null : it.step.map(tr.mapping.slice(at + count))
    if (!mapped || tr.maybeStep(mapped).failed) return null
    if (isMirror(it.step.getMap(), it.inverse)) tr.mapping.setMirror(at, tr.steps.length - 1)
    return new Unconfirmed(mapped, before)
  })
}

// The transaction that rebases the unconfirmed steps from the one of number `from` on. Those before `confirmed` are in the log. The
// undo history (undo.js) is told by the meta `rebased` what the steps became; prosemirror-history wants another value there.
function rebase(state, {version, confirmed, from, over, without}) {
  const {unconfirmed} = collabKey.getState(state)
  const tr = state.tr
  const became = rebaseSteps(unconfirmed.slice(from), over, without, tr)
  const still = [...unconfirmed.slice(confirmed, from), ...became.filter(it => it)]
  return tr
    .setMeta(collabKey, new CollabState(version, still))
    .setMeta("rebased", {over, became})
    .setMeta("addToHistory", false)
}

/// A transaction that takes over `steps`, the log's entries after the state's version, whose clients `clientIDs` tells. Own steps
/// at the front confirm as many unconfirmed ones; the others are applied, and what is still unconfirmed is rebased over them.
function receiveTransaction(state, steps, clientIDs) {
  const {version, unconfirmed} = collabKey.getState(state)
  const foreign = clientIDs.findIndex(id => id !== getClientID(state))
  const confirmed = foreign < 0 ? steps.length : foreign
  if (confirmed == steps.length)
    return state.tr.setMeta(collabKey, new CollabState(version + steps.length, unconfirmed.slice(confirmed)))
  return rebase(state, {version: version + steps.length, confirmed, from: confirmed, over: steps.slice(confirmed), without: null})
}

/// A transaction without the unconfirmed step of this number, counted from 0. Those after it are rebased, and those of them that
/// need it go too.
function dropTransaction(state, index) {
  const {version, unconfirmed} = collabKey.getState(state)
  return rebase(state, {version, confirmed: 0, from: index, over: [], without: unconfirmed[index]})
}

module.exports = {collab, getVersion, getClientID, getUnconfirmed, sendableSteps, receiveTransaction, dropTransaction}
