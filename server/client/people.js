// Who else is at the document, and where their cursors are.

// Cursors are told at most so often, in milliseconds.
const PAUSE = 100

export class People {
  #session
  #onChange
  #present = new Map()
  #names = new Map()
  #cursor = null
  #hasFocus = false
  #timer = null

  /// `session` has the connection and the view; `onChange()` is told where somebody comes or goes.
  constructor(session, onChange) {
    this.#session = session
    this.#onChange = onChange
  }

  /// Those who are there, as `{clientID, name, color}`, without the editor's own.
  get list() { return [...this.#present.values()].map(({clientID, name, color}) => ({clientID, name, color})) }

  /// The name of a client, undefined where it has not been there.
  nameOf(clientID) { return this.#names.get(clientID) }

  /// The server has greeted: those who were there before are there no more, unless it says so.
  begin(present) {
    const gone = [...this.#present.keys()]
    this.#present.clear()
    this.#names.set(this.#session.clientID, this.#session.name)
    for (const id of gone) this.#show({clientID: id})
    for (const it of present) this.#come(it)
    this.#onChange()
    this.#tellSoon()
  }

  read({op, ...it}) {
    if (op == "left") {
      this.#present.delete(it.clientID)
      this.#show({clientID: it.clientID})
      return this.#onChange()
    }
    const isNew = !this.#present.has(it.clientID)
    this.#come(it)
    if (isNew) this.#onChange()
    return undefined
  }

  #come({op: _, ...it}) {
    this.#present.set(it.clientID, it)
    this.#names.set(it.clientID, it.name)
    this.#show(it)
  }

  #show(cursor) {
    const {view, pm} = this.#session
    if (view) pm.showCursor(view, cursor)
  }

  /// The view is there: all cursors are shown in it.
  showAll() { for (const it of this.#present.values()) this.#show(it) }

  // ---- the editor's own

  /// The editor's cursor is somewhere else.
  sendCursor(cursor) {
    this.#cursor = cursor
    this.#tellSoon()
  }

  /// The editor has the focus, or not; without it others see no cursor.
  focus(hasFocus) {
    this.#hasFocus = hasFocus
    this.#tellSoon()
  }

  #tellSoon() { this.#timer ??= setTimeout(() => this.#tell(), PAUSE) }

  #tell() {
    this.#timer = null
    const {version, anchor, head} = this.#cursor ?? {}
    const isShown = this.#hasFocus && head !== undefined
    this.#session.tell({op: "presence", ...(isShown && {version, anchor, head})})
  }
}
