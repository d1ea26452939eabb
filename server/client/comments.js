// The comments of a document, by the server's messages, and those that the editor makes: at what is selected, which is told to the
// server once it has the document in which the place is.

import {anchorsPlugin} from "./anchors.js"
import {LostError} from "./errors.js"

/// Errors of the server after which a comment is sent again.
const AGAIN = new Set(["behind", "rate"])

export class Comments {
  #session
  #options
  #anchors
  #known = new Map()
  #placed = new Map()
  #drafts = new Map()
  #count = 0
  #isTouched = false
  #isFetching = false

  /// `session` has the connection, the log and the view. `onComments(list)` is told where something has changed, `onChoose(id)` where the
  /// cursor comes into a comment or leaves all.
  constructor(session, packages, options) {
    this.#session = session
    this.#options = options
    this.#anchors = anchorsPlugin(packages, {onChoose: id => this.choose(id)})
  }

  get plugin() { return this.#anchors.plugin }

  /// The comments in the document's order, each with `from` and `to` in the editor's document; these are null where its text is gone.
  get list() {
    const {view} = this.#session, anchors = view ? this.#anchors.shownIn(view.state).anchors : new Map()
    const placed = [...this.#known.values()].map(it => {
      const {from, to} = anchors.get(it.id) ?? {}
      return {...it, ...(from < to ? {from, to} : {from: null, to: null})}
    })
    return placed.sort((a, b) => (a.from ?? Infinity) - (b.from ?? Infinity) || a.time - b.time)
  }

  /// The comment in which the cursor is, or which was chosen; null where there is none.
  get chosen() { return this.#session.view ? this.#anchors.shownIn(this.#session.view.state).chosen : null }

  // ---- what the server says

  /// The server has greeted. A comment of the editor's whose answer was lost may be among these.
  begin(comments) {
    const before = this.#known
    this.#known = new Map(comments.map(it => [it.id, it]))
    for (const [id, draft] of this.#drafts) {
      Object.assign(draft, {isWaiting: false, isSent: false})
      const came = comments.find(it => !before.has(it.id) && it.text == draft.text && it.quote == draft.quote)
      if (draft.isLost && came) this.#arrived(id, came)
    }
    this.#changed()
  }

  read({op, comment}) {
    if (op == "comment") this.#known.set(comment.id, comment)
    else {
      this.#known.delete(comment)
      this.#placed.delete(comment)
    }
    this.#changed()
  }

  #changed() {
    this.touch()
    this.#options.onComments(this.list)
  }

  // ---- what the editor does

  /// Makes a comment on what is selected. Gives a promise of it, and null where nothing is selected.
  add(text) {
    const {view} = this.#session, {from, to} = view.state.selection
    if (from == to || !this.#session.mayWrite) return null
    const id = `new ${++this.#count}`, quote = view.state.doc.textBetween(from, to, " ")
    const made = new Promise((resolve, reject) => this.#drafts.set(id, {text, quote, resolve, reject, isSent: false}))
    this.#show(new Map([...this.#anchors.shownIn(view.state).anchors, [id, {from, to, isNew: true}]]))
    this.touch()
    return made
  }

  /// Each gives a promise, which fails where it is not connected or the server refuses.
  reply(id, text) { return this.#ask({op: "reply", comment: id, text}) }
  resolve(id, resolved) { return this.#ask({op: "resolve", comment: id, resolved}) }
  remove(id) { return this.#ask({op: "uncomment", comment: id}) }

  /// Marks a comment in the document, null for none.
  choose(id) {
    const {view} = this.#session
    if (!view || this.chosen === id) return
    this.#anchors.show(view, {chosen: id})
    this.#options.onChoose(id)
  }

  async #ask(message) {
    const {comment, uncommented} = await this.#session.request(message)
    this.read(comment ? {op: "comment", comment} : {op: "uncomment", comment: uncommented})
  }

  // ---- places

  /// The document, the log or the comments may have changed.
  touch() {
    if (this.#isTouched) return
    this.#isTouched = true
    queueMicrotask(() => {
      this.#isTouched = false
      if (this.#session.isSettled) this.#settle()
    })
  }

  // The editor's document is the log's: comments stand where the log says, and new ones are told.
  #settle() {
    const {view} = this.#session, shown = this.#anchors.shownIn(view.state).anchors
    const wanted = new Map([...this.#known.values()].map(it => [it.id, this.#place(it)]).filter(([, it]) => it))
    for (const id of this.#drafts.keys()) if (shown.has(id)) wanted.set(id, shown.get(id))
    if (!isSame(shown, wanted)) {
      this.#show(wanted)
      this.#options.onComments(this.list)
    }
    for (const [id, draft] of this.#drafts) this.#send(id, draft, wanted.get(id))
  }

  // A comment of a version that is not here yet has no place so far, and one of before the log began gets it once that is known. From
  // where it was placed last it is carried on.
  #place(comment) {
    const {log} = this.#session, {id, resolved} = comment, before = this.#placed.get(id)
    const {version, from, to} = before?.comment === comment && before.log === log ? before : comment
    if (version < log.first) {
      this.#fetch()
      return null
    }
    if (version > log.version) return null
    const place = {from: log.carry(from, version, 1), to: log.carry(to, version, -1)}
    this.#placed.set(id, {comment, log, version: log.version, ...place})
    return {...place, resolved}
  }

  async #fetch() {
    if (this.#isFetching) return
    this.#isFetching = true
    try {
      await this.#session.history()
      this.touch()
    } catch (error) {
      this.#options.onError(error)
    }
    this.#isFetching = false
  }

  #show(anchors) { this.#anchors.show(this.#session.view, {anchors}) }

  async #send(id, draft, place) {
    if (draft.isSent || this.#session.connection != "online") return
    draft.isSent = true
    try {
      if (!place || place.from >= place.to) throw new Error("what the comment is on was deleted")
      const {text, quote} = draft, {from, to} = place, {version} = this.#session.log
      const {comment} = await this.#session.request({op: "comment", version, from, to, text, quote})
      this.#arrived(id, comment)
    } catch (error) {
      if (error instanceof LostError) draft.isLost = true
      else if (AGAIN.has(error.code)) this.#sendLater(draft, error.retry)
      else this.#drop(id, () => draft.reject(error))
    }
  }

  // It was not taken, and may be by then: of a newer version.
  #sendLater(draft, milliseconds) {
    draft.isWaiting = true
    setTimeout(() => {
      if (!draft.isWaiting) return
      Object.assign(draft, {isWaiting: false, isSent: false})
      this.touch()
    }, milliseconds)
  }

  #arrived(id, comment) {
    const {resolve} = this.#drafts.get(id)
    this.#known.set(comment.id, comment)
    this.#drop(id, () => resolve(comment))
  }

  #drop(id, then) {
    this.#drafts.delete(id)
    this.#changed()
    then()
  }
}

const isSame = (one, other) => one.size == other.size && [...one].every(([id, {from, to, resolved}]) => {
  const it = other.get(id)
  return it && it.from == from && it.to == to && it.resolved == resolved
})
