// The comments of a document that is open. Each is a note of the store, with its places as they were told; where these are now the
// engine says (places.js). Without an engine in this process they stay as told, and who reads them carries them on.

import {randomBytes} from "node:crypto"
import {Refusal} from "./errors.js"
import {said} from "./log.js"
import {Order} from "./order.js"
import {Places} from "./places.js"
import {isCount, isVersion} from "./reading.js"

const KIND = "comment:"
const PLACES = "places"
const MOST_REPLIES = 200
const MOST_QUOTE = 300

const behind = () => new Refusal("behind", "the document has changed since; carry the places to its newest version", {retry: 100})
const none = () => new Refusal("op", "there is no such comment")

export class Comments {
  #document
  #limits
  #places = null
  #comments = new Map()
  #order = new Order()
  #saved = 0
  #isMoving = false

  /** @param {{document: import("./document.js").Document, settings: import("./settings.js").Settings}} parts */
  constructor({document, settings}) {
    this.#document = document
    this.#limits = settings
    for (const [id, value] of document.held.notes) if (id.startsWith(KIND)) this.#comments.set(value.id, value)
  }

  // ---- places

  /** Whether the document was read. */
  isBegun = false

  /** Begins with the document as it is read first, where there is no comment that is older. */
  begin(doc, version) {
    this.isBegun = true
    if (this.#places || !this.#document.engines) return
    if (this.#comments.size == 0) this.#places = this.#placesOf(doc, version)
    else this.#order.do(() => this.#restore()).catch(error => this.#lose(error))
  }

  #placesOf(doc, version) {
    return new Places((from, at) => this.#document.engines.client(this.#document.held.schema, from, at), doc, version)
  }

  // From what was saved last, or from the log's beginning.
  async #restore() {
    if (this.#places) return
    const {held} = this.#document, kept = held.notes.get(PLACES) ?? {...await held.doc(true), places: {}}
    const places = this.#placesOf(kept.doc, kept.version)
    await places.start()
    for (const [id, [from, to]] of Object.entries(kept.places)) if (this.#comments.has(id)) await places.add(id, from, to)
    const later = [...this.#comments.values()].filter(({id}) => !(id in kept.places)).sort((a, b) => a.version - b.version)
    this.#places = places
    this.#saved = kept.version
    for (const comment of later) await this.#place(comment)
    await this.#carry(this.#document.version)
  }

  // They stay as they were told, until the document is read again.
  #lose(error) {
    this.#document.log.warn("places-lost", {document: this.#document.name, ...said(error)})
    this.#places?.close()
    this.#places = null
  }

  // Has all places be those of a version.
  async #carry(version) {
    const places = this.#places
    while (places.version < version) {
      const {text, to} = await this.#document.entries(places.version, version)
      places.carry(text, to)
    }
  }

  // Has a comment's places ride along. False where they are of a document that is gone, or none of it.
  async #place({id, version, from, to}) {
    if (!this.#places || version < this.#places.version) return false
    try {
      await this.#places.start()
      await this.#carry(version)
      return await this.#places.add(id, from, to)
    } catch (error) {
      this.#lose(error)
      return false
    }
  }

  /** The log has grown: what nothing rides on begins anew, and places do not fall far behind. */
  grown(version) {
    const places = this.#places, isFar = places && version - places.version > this.#limits.snapshotEvery
    if (!isFar || this.#isMoving) return
    this.#isMoving = true
    this.#order.do(() => (places.isIdle ? this.#renew() : this.#save())).catch(error => this.#document.log.warn("places-stay", said(error)))
      .finally(() => { this.#isMoving = false })
  }

  async #renew() {
    const {doc, version} = await this.#document.held.doc()
    if (this.#places.isIdle) this.#places = this.#placesOf(doc, version)
  }

  async #save() {
    const places = this.#places
    if (!places || places.isIdle) return
    await this.#carry(this.#document.version)
    if (places.version == this.#saved || this.#comments.size == 0) return
    await this.#document.held.note(PLACES, {version: places.version, doc: places.doc(), places: Object.fromEntries(places.all())})
    this.#saved = places.version
  }

  // ---- comments

  /** All, with their places as far as they can be carried. */
  list() {
    return this.#order.do(async () => {
      await this.#catchUp()
      const now = this.#placesNow()
      return [...this.#comments.values()].map(comment => this.#placed(comment, now))
    })
  }

  async #catchUp() {
    if (!this.#places || this.#places.isIdle) return
    try {
      await this.#carry(this.#document.version)
    } catch (error) {
      this.#lose(error)
    }
  }

  #placed(comment, now) {
    const place = now.get(comment.id)
    return place ? {...comment, version: this.#places.version, from: place[0], to: place[1]} : comment
  }

  #text(text) {
    if (typeof text != "string" || text.trim() == "") throw new Refusal("op", "a comment has a text")
    if (text.length > this.#limits.commentText) throw new Refusal("limit", "the comment is too long")
    return text
  }

  /** @param {{user: string, name: string}} author */
  add({user, name}, {version, from, to, text, quote}) {
    if (!isVersion(version) || !isCount(from) || !isCount(to) || from > to) throw new Refusal("op", "a comment has places")
    const comment = {
      id: randomBytes(9).toString("base64url"), author: user, name, time: Date.now(), text: this.#text(text),
      quote: typeof quote == "string" ? quote.slice(0, MOST_QUOTE) : "", version, from, to, resolved: false, replies: [],
    }
    return this.#order.do(async () => {
      if (!await this.#document.reaches(version)) throw new Refusal("op", "the version is past the log")
      if (this.#comments.size >= this.#limits.comments) throw new Refusal("limit", "the document has too many comments")
      if (this.#places && version < this.#places.version) throw behind()
      if (!await this.#place(comment) && this.#places) throw new Refusal("op", "these are no places of the document")
      return this.#keep(comment)
    })
  }

  async #keep(comment) {
    try {
      await this.#document.held.note(KIND + comment.id, comment)
    } catch (error) {
      this.#places?.drop(comment.id)
      throw error
    }
    return this.#known(comment)
  }

  #known(comment) {
    this.#comments.set(comment.id, comment)
    return this.#placed(comment, this.#placesNow())
  }

  #placesNow() { return this.#places?.isIdle === false ? this.#places.all() : new Map() }

  #change(id, change) {
    return this.#order.do(async () => {
      const comment = this.#comments.has(id) ? await this.#document.held.note(KIND + id, change) : undefined
      if (!comment) throw none()
      return this.#known(comment)
    })
  }

  reply({user, name}, {comment, text}) {
    const reply = {author: user, name, time: Date.now(), text: this.#text(text)}
    return this.#change(comment, it => {
      if (it.replies.length >= MOST_REPLIES) throw new Refusal("limit", "the comment has too many replies")
      return {...it, replies: [...it.replies, reply]}
    })
  }

  resolve({comment, resolved}) {
    if (typeof resolved != "boolean") throw new Refusal("op", "resolved is true or false")
    return this.#change(comment, it => ({...it, resolved}))
  }

  remove({user}, {comment: id}) {
    return this.#order.do(async () => {
      const comment = this.#comments.get(id)
      if (!comment) throw none()
      if (comment.author != user) throw new Refusal("access", "a comment is taken away by its author alone")
      await this.#document.held.note(KIND + id, undefined)
      this.#forget(id)
    })
  }

  #forget(id) {
    this.#comments.delete(id)
    this.#places?.drop(id)
  }

  /** Another server has made a note. Gives what is to be told here, or null. */
  async hear(note) {
    if (!note.startsWith(KIND)) return null
    const id = note.slice(KIND.length)
    return this.#order.do(async () => {
      const value = this.#document.held.notes.get(note)
      if (!value) {
        this.#forget(id)
        return {op: "uncomment", comment: id}
      }
      if (!this.#comments.has(id) && await this.#document.reaches(value.version)) await this.#place(value)
      return {op: "comment", comment: this.#known(value)}
    })
  }

  /** Keeps where they are, and lets the engine's clients go. */
  async end() {
    await this.#order.do(() => this.#save()).catch(error => this.#document.log.warn("places-unsaved", said(error)))
    this.#places?.close()
    this.#places = null
  }
}
