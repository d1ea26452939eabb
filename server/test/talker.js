// One who talks to a server by its messages, as an editor's client does, and keeps what it is told.

import {packageOf} from "../packages.js"
import {signToken} from "../tokens.js"
import {within} from "./waiting.js"

export const SECRET = "a-secret-of-sixteen-or-more"

const HOUR = 3_600_000

/** A token with the right to write in all documents, unless told. */
export const tokenFor = (user, {documents = {"*": "write"}, expires = Date.now() + HOUR, name, secret = SECRET} = {}) =>
  signToken(secret, {user, name, documents, expires})

export class Talker {
  #waiting = []
  #requests = new Map()
  #next = 1
  #end = null

  /** Connects. `options` go to the WebSocket. */
  constructor(address, document, {token, query = "", protocols, ...options} = {}) {
    const WebSocket = packageOf("ws")
    const url = `${address.replace(/^http/, "ws")}/documents/${document}${query}`
    this.socket = new WebSocket(url, protocols ?? ["gezhufet", ...(token ? [`token.${token}`] : [])], options)
    this.told = []
    this.errors = []
    this.closed = new Promise(resolve => this.socket.on("close", (code, reason) => resolve({code, reason: String(reason)})))
    this.opened = new Promise((resolve, reject) => this.socket.on("open", resolve).on("error", reject))
    this.opened.catch(() => {})
    this.closed.then(({code}) => {
      this.#end = new Error(`closed with ${code}`)
      for (const {reject} of [...this.#requests.values(), ...this.#waiting]) reject(this.#end)
      this.#requests.clear()
      this.#waiting = []
    })
    this.socket.on("message", data => this.#take(JSON.parse(data)))
  }

  #take(message) {
    this.told.push(message)
    if (message.op == "error") this.errors.push(message)
    const request = this.#requests.get(message.id)
    if (request && (message.op == "answer" || message.op == "error")) {
      this.#requests.delete(message.id)
      if (message.op == "answer") request.resolve(message.answer)
      else request.reject(Object.assign(new Error(message.message), message))
    }
    this.#waiting = this.#waiting.filter(({fits, resolve}) => !fits(message) || resolve(message))
  }

  send(message) { this.socket.send(typeof message == "string" ? message : JSON.stringify(message)) }

  /** The first message that fits, of those that came and will come. */
  heard(fits, what = "a message", time) {
    const known = this.told.find(fits)
    if (known) return Promise.resolve(known)
    if (this.#end) return Promise.reject(this.#end)
    const coming = new Promise((resolve, reject) => this.#waiting.push({fits, resolve, reject}))
    return within(coming, what, time)
  }

  /** Sends a request, and gives its answer. */
  ask(message) {
    if (this.#end) return Promise.reject(this.#end)
    const id = this.#next++
    const answer = new Promise((resolve, reject) => this.#requests.set(id, {resolve, reject}))
    this.send({...message, id})
    return within(answer, `the answer to ${message.op}`)
  }

  /** Says hello, and gives the welcome. */
  async hello(hello = {}) {
    await this.opened
    this.send({op: "hello", version: null, ticket: null, ...hello})
    this.welcome = await this.heard(it => it.op == "welcome", "the welcome")
    return this.welcome
  }

  /** Steps that put a text in at a place. */
  submit(version, text, pos = 1) { return this.ask({op: "submit", version, steps: [inserted(text, pos)]}) }

  close() {
    this.socket.close()
    return this.closed
  }

  kill() { this.socket.terminate() }
}

/** The step that puts a text in. */
export const inserted = (text, pos = 1) =>
  ({stepType: "replace", from: pos, to: pos, slice: {content: [{type: "text", text}]}})

/** One who is welcome. */
export async function join(address, document, user, {hello, ...options} = {}) {
  const talker = new Talker(address, document, {token: tokenFor(user), ...options})
  await talker.hello(hello)
  return talker
}
