// The plugin for ProseMirror, without a page, over each engine that was built: after every transaction of an editor its document is the
// engine's, and at the end all are the authority's.

import assert from "node:assert/strict"
import {createRequire} from "node:module"
import {describe, it} from "node:test"
import {setImmediate as turn, setTimeout as pause} from "node:timers/promises"
import {openEngine} from "../src/index.js"
import {pluginOf} from "../prosemirror/plugin.js"
import {Desk} from "./desk.js"
import {engines} from "./values.js"

const require = createRequire(import.meta.url)

function packages() {
  try {
    const [state, transform] = ["prosemirror-state", "prosemirror-transform"].map(it => require(it))
    return {...state, ...transform, ...require("prosemirror-view"), basic: require("../../../tests/schema-line/basic-with-lists")}
  } catch {
    return null
  }
}

const found = packages()
const skip = !found && "ProseMirror's packages are missing"
const pm = found && pluginOf(found)

// An editor whose messages wait until they are handed on.
class Editor {
  constructor(engine, {clientID, doc, schema, plugins = [], ...options}) {
    const {EditorState, Step} = found
    Object.assign(this, {clientID, out: [], in: [], refused: [], errors: [], cursors: []})
    this.client = engine.openClient({schema, doc, clientID}, {Step})
    const send = message => new Promise((resolve, reject) => {
      this.out.push({message: JSON.parse(JSON.stringify(message)), resolve, reject})
    })
    const told = {onRefuse: (step, error) => this.refused.push(error), onError: error => this.errors.push(error)}
    this.view = new Desk(EditorState.create({
      doc, plugins: [pm.collab({client: this.client, send, pause: 1, newGroupDelay: 500, ...told, ...options}), ...plugins],
    }))
  }

  get state() { return this.view.state }
  get text() { return this.state.doc.textContent }

  dispatch(tr) {
    this.view.dispatch(tr)
    this.check()
  }

  /// Types at a time, in milliseconds.
  type(text, at, time = 1) { this.dispatch(this.state.tr.insertText(text, at).setTime(time)) }

  run(command) {
    const was = command(this.state, this.view.dispatch)
    this.check()
    return was
  }

  /// The document is the engine's, and the plugin counts as the engine does.
  check() {
    const {doc} = this.client.doc()
    assert.ok(doc.eq(this.state.doc), `${this.clientID}: the engine has ${doc}, the view ${this.state.doc}`)
    const {pending, redo, undo, version} = this.client.state()
    const counted = [pm.getPending(this.state).length, pm.redoDepth(this.state), pm.undoDepth(this.state), pm.getVersion(this.state)]
    assert.deepEqual(counted, [pending, redo, undo, version])
  }

  /// The next message comes to the authority.
  post(authority) {
    const sent = this.out.shift()
    if (sent) this.in.push({...sent, answer: authority.ask(sent.message)})
  }

  /// The next answer comes back, or is lost on its way.
  async take({isLost = false} = {}) {
    const {answer, resolve, reject} = this.in.shift() ?? {}
    if (!answer) return
    if (isLost) reject(new Error("lost"))
    else resolve(answer)
    await (isLost ? pause(3) : turn())
    this.check()
  }
}

async function settle(authority, ...editors) {
  const hasAll = ({state}) => pm.getVersion(state) == authority.version && pm.getPending(state).length == 0
  const isQuiet = it => it.out.length == 0 && it.in.length == 0 && hasAll(it)
  for (let i = 0; i < 500 && !editors.every(isQuiet); i++) for (const it of editors) {
    if (isQuiet(it)) continue
    if (!it.out.length && !it.in.length) pm.pull(it.view)
    it.post(authority)
    await it.take()
    await turn()
  }
  for (const it of editors) assert.ok(isQuiet(it), `${it.clientID} does not come to rest`)
}

for (const kind of engines) describe(`the plugin over ${kind}`, {skip}, () => {
  const {schema, doc: basicDoc} = found?.basic ?? {}
  const paragraphs = (...texts) => schema.node("doc", null, texts.map(it => schema.node("paragraph", null, it ? [schema.text(it)] : [])))

  async function opened(doc, names, options = {}) {
    const engine = await openEngine({kind})
    return [engine.openAuthority(schema, doc), ...names.map(clientID => new Editor(engine, {schema, doc, clientID, ...options}))]
  }

  for (const seed of [1, 2, 3]) it(`keeps to the engine through random transactions, ${seed}`, async () => {
    const {Draws, randomTransaction} = require("../../../live/random")
    const [authority, ...editors] = await opened(basicDoc, ["ann", 2, "eve"])
    const draws = new Draws(seed)
    for (let i = 0, time = 1; i < 600; i++) {
      const editor = draws.one(editors), draw = draws.below(100)
      time += draws.below(700)
      if (draw < 50) edit(editor, randomTransaction, draws, time)
      else if (draw < 56) editor.run(pm.undo)
      else if (draw < 58) editor.run(pm.redo)
      else if (draw < 62) editor.run(pm.undoChange(1 + draws.below(pm.lastEvent(editor.state) + 1)))
      else if (draw < 80) editor.post(authority)
      else await editor.take({isLost: draws.chance(10)})
    }
    await settle(authority, ...editors)
    for (const editor of editors) {
      assert.ok(editor.state.doc.eq(authority.doc().doc))
      assert.ok(editor.errors.every(error => error.message == "lost"), String(editor.errors))
    }
  })

  // ProseMirror's own calls may throw.
  function edit(editor, randomTransaction, draws, time) {
    let tr = null
    try {
      tr = randomTransaction(editor.state, draws, 800)
    } catch {}
    if (tr) editor.dispatch(tr.setTime(time))
  }

  it("gathers edits as prosemirror-history does", async () => {
    const [, ann] = await opened(paragraphs("0123456789"), ["ann"])
    const events = () => pm.undoDepth(ann.state)
    ann.type("a", 1, 1000)
    ann.type("b", 2, 1400)
    assert.equal(events(), 1)
    ann.type("c", 3, 2000)
    assert.equal(events(), 2, "after more than half a second")
    ann.type("d", 9, 2100)
    assert.equal(events(), 3, "at another place")
    ann.dispatch(pm.closeHistory(ann.state.tr))
    ann.type("e", 10, 2200)
    assert.equal(events(), 4, "after it was closed")
    ann.run(pm.undo)
    ann.type("f", 10, 2300)
    assert.equal(events(), 4, "after an undo")
    ann.dispatch(ann.state.tr.insertText("g", 1).setTime(9000).setMeta("addToHistory", false))
    ann.type("h", 12, 9001)
    assert.equal(ann.text, "gabc01234dfh56789")
    ann.run(pm.undo)
    ann.run(pm.undo)
    assert.equal(ann.text, "gabc01234d56789", "what is not for the history stays")
  })

  it("undoes amid others' changes, and one change by itself", async () => {
    const [authority, ann, bob] = await opened(paragraphs("one two"), ["ann", "bob"])
    ;[..."ANN "].forEach((letter, i) => ann.type(letter, 5 + i, 1 + i))
    const event = pm.lastEvent(ann.state)
    await settle(authority, ann, bob)
    bob.type("!", 7, 1)
    ann.type("late ", 1, 5000)
    await settle(authority, ann, bob)
    assert.equal(ann.text, "late one AN!N two")
    assert.ok(pm.undoChange(event)(ann.state))
    assert.ok(!pm.undoChange(99)(ann.state))
    ann.run(pm.undoChange(event))
    assert.ok(!pm.undoChange(event)(ann.state))
    await settle(authority, ann, bob)
    assert.equal(bob.text, "late one !two")
    ann.run(pm.redo)
    ann.run(pm.undo)
    ann.run(pm.undo)
    assert.equal(ann.text, "one !two")
    assert.ok(!ann.run(pm.undo))
  })

  it("does not forget what it heard before the answer that goes before it", async () => {
    const [authority, ann] = await opened(paragraphs(""), ["ann"]), slice = {content: [{type: "text", text: "b"}]}
    ann.type("a", 1)
    ann.post(authority)
    authority.ask({op: "submit", version: 1, clientID: "bob", steps: [{stepType: "replace", from: 1, to: 1, slice}]})
    // Both come in one moment, as a socket's messages may.
    const taken = ann.take()
    pm.receive(ann.view, authority.ask({op: "since", version: 1}))
    await taken
    ann.post(authority)
    await ann.take()
    assert.equal(ann.text, "ba")
    assert.deepEqual([ann.out.length, pm.getVersion(ann.state)], [0, 2])
  })

  it("maps the selection, and tells of mirrors", async () => {
    const {TextSelection} = found
    const [authority, ann, bob] = await opened(paragraphs("0123456789"), ["ann", "bob"])
    ann.type("own", 6, 1)
    ann.dispatch(ann.state.tr.setSelection(TextSelection.create(ann.state.doc, 7, 9)))
    bob.type("bob", 1, 1)
    await settle(authority, bob)
    let seen = null
    const {dispatch} = ann.view
    Object.defineProperty(ann.view, "dispatch", {value: tr => {
      if (tr.getMeta("rebased") !== undefined) seen = tr
      dispatch(tr)
    }})
    await settle(authority, ann, bob)
    assert.deepEqual([ann.state.selection.from, ann.state.selection.to], [10, 12])
    assert.equal(seen.getMeta("rebased"), 1)
    assert.equal(seen.getMeta("addToHistory"), false)
    assert.equal(seen.mapping.getMirror(0), 2)
  })

  it("keeps the marks that were chosen for what is typed next", async () => {
    const {TextSelection} = found
    const [authority, ann, bob] = await opened(paragraphs("ab", "cd"), ["ann", "bob"])
    ann.dispatch(ann.state.tr.setSelection(TextSelection.create(ann.state.doc, 6)))
    ann.dispatch(ann.state.tr.addStoredMark(schema.marks.em.create()))
    bob.type("1", 1, 1)
    await settle(authority, ann, bob)
    ann.dispatch(ann.state.tr.replaceSelectionWith(schema.text("x"), true).setTime(1))
    assert.equal(ann.text, "1abcxd")
    assert.equal(ann.state.doc.nodeAt(7).marks[0]?.type.name ?? "", "em")
  })

  it("takes back what the engine refuses", async () => {
    const [authority, ann] = await opened(paragraphs("ab", "cd"), ["ann"])
    ann.type("x", 1, 1)
    // ProseMirror looks at the content of a document less closely than the engine.
    ann.dispatch(ann.state.tr.insertText("\ud800", 1))
    assert.equal(ann.text, "xabcd")
    assert.deepEqual([ann.refused.length, ann.refused[0].name], [1, "FaultError"])
    ann.type("y", 1, 1)
    await settle(authority, ann)
    assert.equal(authority.doc().doc.textContent, "yxabcd")
  })

  it("has what other plugins append", async () => {
    const {Plugin} = found
    const marker = new Plugin({
      appendTransaction: (trs, _old, state) => (trs.some(it => it.docChanged) && !state.doc.textContent.endsWith("!")
        ? state.tr.insertText("!", state.doc.content.size - 1) : null),
    })
    const [authority, ann] = await opened(paragraphs("ab"), ["ann"], {plugins: [marker]})
    const bob = new Editor(await openEngine({kind}), {schema, doc: paragraphs("ab"), clientID: "bob"})
    ann.type("x", 1, 1)
    assert.equal(ann.text, "xab!")
    assert.equal(pm.undoDepth(ann.state), 1)
    bob.type("b", 1, 1)
    await settle(authority, ann, bob)
    ann.run(pm.undo)
    assert.equal(ann.text.replace("b", ""), "ab!")
    await settle(authority, ann, bob)
    assert.equal(bob.text, ann.text)
  })

  it("shows the engine's document where the view has gone astray", async () => {
    const [authority, ann] = await opened(paragraphs("ab"), ["ann"])
    const before = ann.state
    ann.type("x", 1, 1)
    ann.view.updateState(before)
    assert.equal(ann.text, "xab", "an old state comes back")
    ann.check()
    await settle(authority, ann)
  })

  it("sends again what could not be sent", async () => {
    const [authority, ann] = await opened(paragraphs("ab"), ["ann"])
    ann.type("x", 1, 1)
    ann.out.shift().reject(new Error("no network"))
    await pause(5)
    ann.out.shift().resolve({fault: "memory"})
    await pause(5)
    assert.deepEqual(ann.errors.map(it => it.message), ["no network"])
    await settle(authority, ann)
    assert.equal(authority.doc().doc.textContent, "xab")
  })

  it("takes what is told unasked, in any order", async () => {
    const [authority, ann, bob] = await opened(paragraphs("ab"), ["ann", "bob"])
    bob.type("1", 1, 1)
    await settle(authority, bob)
    const first = authority.ask({op: "since", version: 0})
    bob.type("2", 2, 1)
    await settle(authority, bob)
    const second = authority.ask({op: "since", version: 1})
    pm.receive(ann.view, second)
    assert.equal(ann.text, "ab")
    ann.out.shift().resolve(first)
    await turn()
    ann.check()
    pm.receive(ann.view, second)
    pm.receive(ann.view, first)
    assert.equal(ann.text, "12ab")
  })

  it("shows others' cursors where they are", async () => {
    const {TextSelection} = found, told = []
    const [authority, ann, bob] = await opened(paragraphs("0123456789"), ["ann", "bob"])
    // Clients of one authority may be in other engines.
    const eve = new Editor(await openEngine({kind}), {
      schema, doc: paragraphs("0123456789"), clientID: "eve", cursor: {name: "Eve"}, sendCursor: it => told.push(it),
    })
    const shown = editor => [...pm.cursorsOf(editor.state).values()].map(({anchor, head}) => [anchor, head])
    eve.dispatch(eve.state.tr.setSelection(TextSelection.create(eve.state.doc, 3, 5)))
    assert.deepEqual(told.pop(), {name: "Eve", clientID: "eve", version: 0, anchor: 3, head: 5})
    // Bob has typed before and within it.
    bob.type("b", 1, 1)
    pm.showCursor(bob.view, {clientID: "eve", version: 0, anchor: 3, head: 5})
    assert.deepEqual(shown(bob), [[4, 6]])
    await settle(authority, bob)
    // Eve's own letters are not in the log yet, and Ann does not know the log that Eve knows.
    eve.type("xyz", 3, 1)
    await settle(authority, eve)
    const last = told.pop()
    assert.equal(last.version, authority.version)
    pm.showCursor(ann.view, last)
    assert.deepEqual(shown(ann), [])
    await settle(authority, ann, bob)
    assert.deepEqual(shown(ann), [[last.anchor, last.head]])
    // One of an earlier version is carried on.
    pm.showCursor(bob.view, {clientID: "eve", version: 0, anchor: 9, head: 9})
    assert.deepEqual(shown(bob), [[13, 13]])
    pm.showCursor(bob.view, {clientID: "eve"})
    assert.deepEqual(shown(bob), [])
  })
})
