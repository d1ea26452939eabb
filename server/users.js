// What each user has open and sends, and how much of it may be.

import {Refusal} from "./errors.js"

/** A measure that fills again by so much a second, up to its most. */
class Measure {
  #left
  #rate
  #most
  #time = Date.now()

  constructor(rate, most) {
    this.#rate = rate
    this.#most = most
    this.#left = most
  }

  /** Takes an amount. Gives 0, or where it is not there the milliseconds until it is. */
  take(amount, now = Date.now()) {
    this.#left = Math.min(this.#most, this.#left + (this.#rate * (now - this.#time)) / 1000)
    this.#time = now
    if (this.#left < amount) return Math.ceil((1000 * (amount - this.#left)) / this.#rate)
    this.#left -= amount
    return 0
  }

  get isFull() { return this.take(0) == 0 && this.#left >= this.#most }
}

class User {
  constructor({messagesPerSecond, messageBurst, bytesPerSecond, messageBytes, newDocumentsPerHour}) {
    this.connections = 0
    this.documents = new Map()
    this.messages = new Measure(messagesPerSecond, messageBurst)
    this.bytes = new Measure(bytesPerSecond, Math.max(4 * bytesPerSecond, messageBytes))
    this.refusals = new Measure(messagesPerSecond, 5 * messageBurst)
    this.made = new Measure(newDocumentsPerHour / 3600, newDocumentsPerHour)
  }

  get isIdle() { return this.connections == 0 && this.messages.isFull && this.made.isFull }
}

export class Users {
  #settings
  #users = new Map()
  #connections = 0
  #timer

  /** @param {import("./settings.js").Settings} settings */
  constructor(settings) {
    this.#settings = settings
    this.#timer = setInterval(() => this.#forget(), 60_000)
    this.#timer.unref()
  }

  get connections() { return this.#connections }

  get size() { return this.#users.size }

  #forget() { for (const [name, user] of this.#users) if (user.isIdle) this.#users.delete(name) }

  #user(name) {
    if (!this.#users.has(name)) this.#users.set(name, new User(this.#settings))
    return this.#users.get(name)
  }

  /** A user comes to a document by one more connection. Gives how it leaves. */
  enter(name, document) {
    const user = this.#user(name), {connections, connectionsPerUser, documentsPerUser} = this.#settings
    if (this.#connections >= connections) throw new Refusal("limit", "the server has too many connections", {retry: 5000})
    if (user.connections >= connectionsPerUser) throw new Refusal("limit", "you have too many connections", {retry: 5000})
    if (!user.documents.has(document) && user.documents.size >= documentsPerUser)
      throw new Refusal("limit", "you have too many documents open", {retry: 5000})
    this.#connections++
    user.connections++
    user.documents.set(document, (user.documents.get(document) ?? 0) + 1)
    return () => this.#leave(user, document)
  }

  #leave(user, document) {
    this.#connections--
    user.connections--
    const count = user.documents.get(document) - 1
    if (count) user.documents.set(document, count)
    else user.documents.delete(document)
  }

  /** A user sends so many bytes: a Refusal where that is too much at present. */
  send(name, bytes) {
    const user = this.#user(name)
    const pause = user.messages.take(1) || user.bytes.take(bytes)
    if (pause == 0) return
    if (user.refusals.take(1)) throw new Refusal("abuse", "you go on to send too much")
    throw new Refusal("rate", "you send too much at once", {retry: pause})
  }

  /** A user makes a document. */
  make(name) {
    const pause = this.#user(name).made.take(1)
    if (pause) throw new Refusal("limit", "you have made too many documents", {retry: pause})
  }

  end() { clearInterval(this.#timer) }
}
