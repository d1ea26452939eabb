// The client (server/client.js) over a server in this process, with views that have no page.

import assert from "node:assert/strict"
import {after, before, test} from "node:test"
import {setTimeout as wait} from "node:timers/promises"
import {openEngine} from "../../bindings/js/src/index.js"
import {Desk} from "../../bindings/js/test/desk.js"
import {joinDocument} from "../client.js"
import {Changes} from "../page/changes.js"
import {Past} from "../page/past.js"
import {packageOf} from "../packages.js"
import {Line} from "./line.js"
import {serve} from "./servers.js"
import {tokenFor} from "./talker.js"
import {until} from "./waiting.js"

const packages = {...packageOf("prosemirror-state"), ...packageOf("prosemirror-transform"), ...packageOf("prosemirror-view")}
const {Schema} = packageOf("prosemirror-model")
const {schema} = packageOf("../tests/schema-line/basic-with-lists.js")
const {Draws, randomTransaction} = packageOf("../live/random.js")
const WebSocket = packageOf("ws")

let server, engine
before(async () => {
  server = await serve()
  engine = await openEngine({kind: "wasm"})
})
after(() => server.stop())

class Editor {
  static async join(document, user, {address = server.address, ...options} = {}) {
    const editor = new Editor()
    Object.assign(editor, {errors: [], resets: [], states: []})
    editor.session = await joinDocument({
      url: `${address.replace("http", "ws")}/documents/${document}`, token: tokenFor(user), name: user, schema, engine, packages, WebSocket,
      onError: error => editor.errors.push(error), onReset: lost => editor.resets.push(lost), onConnection: it => editor.states.push(it),
      ...options,
    })
    editor.view = new Desk(editor.session.createState())
    return editor
  }

  get text() { return this.view.state.doc.textContent }
  get pm() { return this.session.pm }

  type(text, at = 1) { this.view.dispatch(this.view.state.tr.insertText(text, at)) }
  close() { this.session.close() }
}

const settled = (...editors) => until(() => {
  const length = Math.max(...editors.map(it => it.session.length))
  return editors.every(({session}) => session.connection == "online" && session.isSettled && session.log.version == length)
}, "all are settled")

async function line(options) {
  const made = await new Line().open(), own = await serve({origins: [made.address], ...options})
  made.target = own.port
  return {line: made, server: own, address: made.address, stop: async () => { await made.close(); await own.stop() }}
}

test("two type, and see each other and their comments", async () => {
  const ann = await Editor.join("typing", "ann"), bob = await Editor.join("typing", "bob")
  for (let i = 0; i < 20; i++) (i % 2 ? ann : bob).type(String(i % 10))
  await settled(ann, bob)
  assert.equal(ann.text, bob.text)
  assert.equal(ann.text.length, 20)
  await until(() => ann.session.people.list.length == 1, "Ann sees Bob")
  assert.deepEqual(ann.session.people.list.map(it => it.name), ["bob"])
  const {TextSelection} = packages
  ann.view.dispatch(ann.view.state.tr.setSelection(TextSelection.create(ann.view.state.doc, 3, 6)))
  bob.type("before ", 1)
  const made = await ann.session.comments.add("why?")
  await bob.session.comments.reply(made.id, "so")
  bob.type("after", 16)
  await settled(ann, bob)
  for (const {session, view} of [ann, bob]) {
    const [{text, from, to, replies}] = session.comments.list
    assert.deepEqual([text, view.state.doc.textBetween(from, to), replies.length], ["why?", made.quote, 1])
  }
  await bob.session.comments.resolve(made.id, true)
  await until(() => ann.session.comments.list[0].resolved, "it is resolved")
  await ann.session.comments.remove(made.id)
  await until(() => bob.session.comments.list.length == 0, "it is gone")
  bob.close()
  await until(() => ann.session.people.list.length == 0, "Bob is gone")
  ann.close()
})

test("what is written without a connection is rebased, and nothing is there twice", async () => {
  const own = await line()
  const ann = await Editor.join("lost", "ann", {address: own.address})
  const bob = await Editor.join("lost", "bob", {address: own.server.address})
  for (let round = 0; round < 6; round++) {
    ann.type(`<${round}>`)
    await wait(round * 3)
    own.line.cut()
    await until(() => ann.session.connection == "offline", "it is offline")
    for (let i = 0; i < 30; i++) ann.type("a", 2)
    for (let i = 0; i < 5; i++) bob.type("b", bob.view.state.doc.content.size - 1)
    own.line.mend()
    await settled(ann, bob)
    assert.equal(ann.text, bob.text)
  }
  const count = letter => ann.text.split(letter).length - 1
  assert.deepEqual([..."012345"].map(count), Array(6).fill(1))
  assert.deepEqual([count("a"), count("b")], [180, 30])
  assert.deepEqual(ann.errors.map(it => it.message), [])
  ann.close()
  bob.close()
  await own.stop()
})

// Random transactions, undo and comments, while connections are slow and cut.
test("four editors come to one document, and their comments to one text", async () => {
  const draws = new Draws(4), lines = await Promise.all([1, 2, 3, 4].map(() => new Line().open()))
  const own = await serve({origins: lines.map(it => it.address), messageBurst: 5_000, messagesPerSecond: 1_000})
  for (const it of lines) it.target = own.port
  const editors = await Promise.all(lines.map((it, i) => Editor.join("random", `user${i}`, {address: it.address})))
  for (let round = 0; round < 200; round++) {
    const at = draws.below(4), {view, pm, session} = editors[at], draw = draws.below(100)
    if (draw < 60) randomEdit(view, draws)
    else if (draw < 68) pm.undo(view.state, view.dispatch)
    else if (draw < 72) pm.redo(view.state, view.dispatch)
    else if (draw < 76) pm.undoChange(1 + draws.below(pm.lastEvent(view.state) + 1))(view.state, view.dispatch)
    else if (draw < 82) comment(editors[at], draws)
    else if (draw < 88) lines[at].cut()
    else lines[at].mend()
    lines[at].delay = draws.below(20)
    await wait(draws.below(8))
    assert.ok(session.client.doc().doc.eq(view.state.doc))
  }
  for (const it of lines) Object.assign(it, {delay: 0}).mend()
  await settled(...editors)
  const placed = ({session}) => session.comments.list.map(it => [it.id, it.from, it.to])
  const isSame = () => editors.every(it => JSON.stringify(placed(it)) == JSON.stringify(placed(editors[0])))
  await until(isSame, "the comments are told")
  const [first, ...others] = editors.map(it => [it.view.state.doc.toString(), placed(it)])
  for (const it of others) assert.deepEqual(it, first)
  assert.ok(first[1].length > 0, "there are comments")
  for (const {errors} of editors) assert.deepEqual(errors.map(it => it.message).filter(it => !it.includes("deleted")), [])
  for (const it of editors) it.close()
  await Promise.all(lines.map(it => it.close()))
  await own.stop()
})

function randomEdit(view, draws) {
  let tr = null
  try {
    tr = randomTransaction(view.state, draws, 500)
  } catch {}
  if (tr) view.dispatch(tr)
}

function comment({view, session}, draws) {
  const {doc} = view.state, [from, to] = [draws.below(doc.content.size), draws.below(doc.content.size)].sort((a, b) => a - b)
  view.dispatch(view.state.tr.setSelection(packages.TextSelection.between(doc.resolve(from), doc.resolve(to))))
  session.comments.add(`comment ${draws.below(1000)}`)?.catch(() => {})
}

test("where the server has less than the client knew, the client begins anew", async () => {
  const own = await line()
  const ann = await Editor.join("anew", "ann", {address: own.address})
  ann.type("one")
  await settled(ann)
  await own.server.stop()
  ann.type("two")
  // A server of another store, and of the same name.
  const other = await serve({origins: [own.address]})
  own.line.target = other.port
  await until(() => ann.resets.length == 1, "it begins anew")
  assert.equal(ann.resets[0].textContent, "twoone")
  assert.equal(ann.text, "")
  ann.type("three")
  await settled(ann)
  assert.equal(ann.text, "three")
  ann.close()
  await own.line.close()
  await other.stop()
})

test("who may not is told", async () => {
  const code = async (document, options) => {
    try {
      (await Editor.join(document, "ann", options)).close()
    } catch (error) {
      return error.code ?? error.message
    }
    return "joined"
  }
  assert.equal(await code("secret", {token: tokenFor("ann", {documents: {other: "write"}})}), "access")
  assert.equal(await code("no.name"), "document")
  assert.equal(await code("typing", {token: "none"}), "token")
  assert.match(await code("typing", {schema: new Schema({nodes: {doc: {content: "text*"}, text: {}}})}), /schema/)
  const writer = await Editor.join("readable", "bob")
  const reader = await Editor.join("readable", "ann", {token: tokenFor("ann", {documents: {readable: "read"}})})
  assert.equal(reader.session.mayWrite, false)
  writer.type("seen")
  await until(() => reader.text == "seen", "the reader sees it")
  assert.equal(reader.session.comments.add("no"), null)
  for (const it of [reader, writer]) it.close()
})

test("a server that takes little at once gets all in the end", async () => {
  const small = await serve({messageBytes: 4_000, messagesPerSecond: 20, messageBurst: 10})
  const ann = await Editor.join("little", "ann", {address: small.address})
  const bob = await Editor.join("little", "bob", {address: small.address})
  for (let i = 0; i < 100; i++) ann.type("abcdefgh".repeat(10), 1)
  await settled(ann, bob)
  assert.equal(bob.text, "abcdefgh".repeat(1000))
  for (const it of [ann, bob]) it.close()
  await small.stop()
})

test("what is too long for a message is refused in the editor", async () => {
  const small = await serve({messageBytes: 4_000})
  const refused = [], ann = await Editor.join("long", "ann", {address: small.address, onRefuse: (_step, error) => refused.push(error.code)})
  ann.type("x".repeat(10_000))
  assert.deepEqual([ann.text, refused], ["", ["too-long"]])
  ann.type("x".repeat(3_000))
  await settled(ann)
  assert.equal(ann.session.log.version, 1)
  ann.close()
  await small.stop()
})

test("a token is renewed before it ends", async () => {
  const ends = [], token = () => {
    ends.push(Date.now() + 8_000)
    return tokenFor("ann", {expires: ends.at(-1)})
  }
  const ann = await Editor.join("renewed", "ann", {token})
  await until(() => Date.now() > ends[0] + 500, "the first token has ended")
  ann.type("still here")
  await settled(ann)
  assert.ok(ends.length > 2, `${ends.length} tokens`)
  assert.deepEqual(ann.states, ["online"])
  ann.close()
})

// What anyone takes back is what the author's own undo of it gives.
test("any change is taken back as its author would", async () => {
  const ann = await Editor.join("back", "ann"), bob = await Editor.join("back", "bob")
  const change = []
  for (let i = 0; i < 12; i++) {
    const {view, pm} = ann
    view.dispatch(pm.closeHistory(view.state.tr.insertText(`[${i}]`, 1 + (i * 7) % view.state.doc.content.size)))
    change.push(pm.lastEvent(view.state))
    if (i % 3 == 0) view.dispatch(view.state.tr.delete(2, 4))
    await settled(ann, bob)
    bob.type("b", 1 + (i * 5) % (bob.view.state.doc.content.size - 1))
    await settled(ann, bob)
  }
  await bob.session.history()
  const mapOf = step => packages.Step.fromJSON(schema, step).getMap()
  const seen = new Changes(mapOf), past = new Past(bob.session, engine)
  seen.add(bob.session.log.entries)
  for (const number of [1, 4, 7, 10]) {
    const text = `[${number}]`, found = seen.list.find(it => JSON.stringify(it.steps).includes(text))
    const tr = bob.view.state.tr
    for (const step of past.stepsBack(found)) tr.step(step)
    ann.pm.undoChange(change[number])(ann.view.state, own => assert.ok(own.doc.eq(tr.doc), `${text}: ${own.doc} and ${tr.doc}`))
    ann.view.updateState(ann.view.state)
  }
  const docs = bob.session.log.entries.map((_, i) => past.docAt(i + 1))
  assert.ok(docs[docs.length - 1].eq(bob.view.state.doc))
  for (const it of [ann, bob]) it.close()
})
