// Editors of some documents, which server-load.js starts as a process: each types so many letters a second at a place of its own. They keep
// where they type and no document, so that what is measured is the server. How long a letter takes is counted from when it is
// typed, also where it has to wait, until each of the others has it.
// usage: node bench/load-editors.js, with {kind, address, names, each, seconds, letters, secret} as its message

"use strict"

const WebSocket = require("ws")
const Y = require("yjs")

const now = () => Number(process.hrtime.bigint()) / 1e6
const pause = milliseconds => new Promise(resolve => setTimeout(resolve, milliseconds))
const letterOf = number => String.fromCharCode(97 + number % 26)

// How many letters took so many tenths of a millisecond.
class Counts {
  constructor() { this.counts = new Map() }

  add(milliseconds) {
    const tenths = Math.round(10 * milliseconds)
    this.counts.set(tenths, (this.counts.get(tenths) || 0) + 1)
  }
}

// What all editors of a document know of one another, by the names that entries or updates have of them.
class Room {
  constructor() { this.editors = new Map() }
}

class Editor {
  constructor(room, counts) {
    Object.assign(this, {room, counts, times: [], arrived: new Map(), isDone: false, sent: 0})
  }

  /// A letter of another came here: the next of those that it typed.
  saw(name) {
    const number = this.arrived.get(name) || 0, other = this.room.editors.get(name)
    this.arrived.set(name, number + 1)
    if (other) this.counts.add(now() - other.times[number])
  }
}

// ---- over the server

class Ours extends Editor {
  async join(address, name, number, {signToken, secret}) {
    const user = `${name}-${number}`, token = signToken(secret, {user, documents: {"*": "write"}, expires: Date.now() + 86400000})
    Object.assign(this, {pos: 1, version: 0, confirmed: 0, isSending: false})
    this.socket = new WebSocket(`${address.replace("http", "ws")}/documents/${name}`, ["gezhufet", `token.${token}`])
    this.socket.on("open", () => this.tell({op: "hello", version: null, ticket: null, name: user, color: null}))
    await new Promise((resolve, reject) => {
      this.socket.on("message", data => this.read(JSON.parse(data), resolve)).on("error", reject)
      this.socket.on("close", code => this.isDone || reject(new Error(`the server closes with ${code}`)))
    })
  }

  tell(message) { this.socket.send(JSON.stringify(message)) }

  read(message, joined) {
    const {op, answer, entries} = message
    if (op == "welcome") {
      this.version = message.version
      this.clientID = message.clientID
      this.room.editors.set(this.clientID, this)
      joined()
    } else if (op == "entries") this.take(entries)
    else if (op == "answer") this.answered(answer)
    else if (op == "error") this.refused(message)
  }

  take({clientIDs, steps, version}) {
    steps.forEach(({from}, i) => {
      if (version - steps.length + i < this.version) return
      this.version++
      if (from <= this.pos) this.pos++
      this.saw(clientIDs[i])
    })
    this.send()
  }

  answered({accepted, version}) {
    this.isSending = false
    if (accepted) {
      this.confirmed += accepted.count
      this.version += accepted.count
      this.pos += accepted.count
    } else if (version === undefined) throw new Error("the server refuses a letter")
    this.send()
  }

  async refused({retry, code}) {
    if (!retry) throw new Error(`the server says ${code}`)
    await pause(retry)
    this.isSending = false
    this.send()
  }

  // The letters that are not in the log yet, as many as there are. What is sent at an old version comes back, and is sent again.
  send() {
    if (this.isSending || this.confirmed == this.times.length) return
    this.isSending = true
    const steps = this.times.slice(this.confirmed).map((_, i) => {
      const at = this.pos + i
      return {stepType: "replace", from: at, to: at, slice: {content: [{type: "text", text: letterOf(this.confirmed + i)}]}}
    })
    this.sent++
    this.tell({op: "submit", id: 1, version: this.version, steps})
  }

  type() {
    this.times.push(now())
    this.send()
  }

  isSettled() { return this.confirmed == this.times.length }
}

// ---- over the relay

class Theirs extends Editor {
  async join(address, name) {
    this.doc = new Y.Doc()
    this.room.editors.set(this.doc.clientID, this)
    this.socket = new WebSocket(`${address.replace("http", "ws")}/${name}`)
    this.doc.on("update", update => {
      this.sent++
      this.socket.send(update)
    })
    await new Promise((resolve, reject) => this.socket.once("message", resolve).on("error", reject))
    this.socket.on("message", update => { for (const client of Y.parseUpdateMeta(update).from.keys()) this.saw(client) })
  }

  type() {
    const text = this.doc.getText("text")
    this.times.push(now())
    text.insert(text.length, letterOf(this.times.length))
  }

  isSettled() { return true }
}

// ---- the work

const hasAll = room => [...room.editors.values()].every(it => it.isSettled() &&
  [...room.editors].every(([name, other]) => other === it || (it.arrived.get(name) || 0) == other.times.length))

async function typeOn(editor, {seconds, letters}) {
  const every = 1000 / letters, start = now() + Math.random() * every
  for (let i = 0; i < seconds * letters; i++) {
    await pause(Math.max(0, start + i * every - now()))
    editor.type()
  }
}

async function main(given) {
  const {kind, address, names, each, secret} = given, Kind = kind == "ours" ? Ours : Theirs
  const {signToken} = await import("../server/tokens.js"), counts = new Counts(), rooms = [], editors = []
  for (const name of names) {
    const room = new Room()
    rooms.push(room)
    for (let i = 0; i < each; i++) {
      const editor = new Kind(room, counts)
      await editor.join(address, name, i, {signToken, secret})
      editors.push(editor)
    }
  }
  process.send({ready: true})
  await new Promise(resolve => process.once("message", resolve))
  await Promise.all(editors.map(it => typeOn(it, given)))
  for (let i = 0; i < 600 && !rooms.every(hasAll); i++) await pause(100)
  const lacking = rooms.filter(it => !hasAll(it)).length
  for (const it of editors) it.isDone = true
  process.send({counts: [...counts.counts], lacking, sent: editors.reduce((sum, it) => sum + it.sent, 0)}, () => process.exit(0))
}

process.on("unhandledRejection", error => {
  console.error(error)
  process.exit(1)
})
process.once("message", main)
