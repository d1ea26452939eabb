// The panel of the comments: each with what it is on, what was said, and a reply; and the form for a new one.

const find = id => document.getElementById(id)

const timeOf = ms => new Date(ms).toLocaleString(undefined, {dateStyle: "short", timeStyle: "short"})

export class Talk {
  #session
  #view
  #tell
  #items = new Map()

  /// `tell(text)` shows what can't be done.
  constructor(session, view, tell) {
    this.#session = session
    this.#view = view
    this.#tell = tell
    const form = find("comment-form")
    form.addEventListener("submit", event => {
      event.preventDefault()
      this.#send()
    })
    form.addEventListener("keydown", event => this.#key(event))
    form.querySelector("[data-action=cancel]").addEventListener("click", () => this.#leave())
    find("show-resolved").addEventListener("change", () => this.show())
    this.show()
  }

  /// A command: opens the form for a comment on what is selected.
  get begin() {
    return (state, dispatch) => {
      if (state.selection.empty || !this.#session.mayWrite) return false
      if (dispatch) this.#open()
      return true
    }
  }

  #open() {
    find("tab-comments").click()
    find("comment-form").hidden = false
    find("comment-text").focus()
  }

  #key(event) {
    if (event.key == "Escape") this.#leave()
    if (event.key == "Enter" && (event.ctrlKey || event.metaKey)) this.#send()
  }

  #leave() {
    find("comment-form").hidden = true
    find("comment-text").value = ""
    this.#view.focus()
  }

  #send() {
    const text = find("comment-text").value.trim()
    const made = text && this.#session.comments.add(text)
    if (!made) return this.#tell("A comment has a text, and is on something that is selected.")
    made.catch(error => this.#tell(`The comment was not made: ${error.message}`))
    this.#leave()
  }

  #do(promise) { promise.catch(error => this.#tell(`That was not done: ${error.message}`)) }

  // ---- the list

  /// Shows the comments that there are. Items stay, so that what is being written in one stays too.
  show() {
    const all = this.#session.comments.list, shown = all.filter(it => !it.resolved || find("show-resolved").checked)
    const place = find("comments")
    for (const [id, item] of this.#items) if (!shown.some(it => it.id === id)) {
      item.remove()
      this.#items.delete(id)
    }
    shown.forEach((comment, i) => {
      const item = this.#items.get(comment.id) ?? this.#add(comment)
      if (place.children[i] !== item) place.insertBefore(item, place.children[i] ?? null)
      this.#fill(item, comment)
    })
    find("no-comments").hidden = shown.length > 0
    this.choose(this.#session.comments.chosen)
  }

  #add({id}) {
    const item = find("comment-template").content.firstElementChild.cloneNode(true)
    const {comments} = this.#session, input = item.querySelector("input"), form = item.querySelector("form")
    const label = item.querySelector("label")
    input.id = label.htmlFor = `reply-${id}`
    form.addEventListener("submit", event => {
      event.preventDefault()
      const text = input.value.trim()
      if (text) this.#do(comments.reply(id, text).then(() => { input.value = "" }))
    })
    item.querySelector("[data-action=show]").addEventListener("click", () => this.#goTo(id))
    item.querySelector("[data-action=resolve]").addEventListener("click", event =>
      this.#do(comments.resolve(id, event.target.dataset.resolved != "true")))
    item.querySelector("[data-action=remove]").addEventListener("click", () => this.#do(comments.remove(id)))
    this.#items.set(id, item)
    return item
  }

  #fill(item, {quote, from, resolved, replies, ...first}) {
    const resolve = item.querySelector("[data-action=resolve]")
    item.querySelector(".quote").textContent = quote
    item.querySelector(".quote").setAttribute("aria-label", `On: ${quote}${from === null ? ", which is gone" : ""}`)
    item.classList.toggle("gone", from === null)
    item.classList.toggle("resolved", resolved)
    item.querySelector(".said").replaceChildren(...[first, ...replies].map(said))
    item.querySelector("form").hidden = resolve.hidden = !this.#session.mayWrite
    item.querySelector("[data-action=remove]").hidden = !this.#session.isOwn(first)
    resolve.textContent = resolved ? "Open again" : "Resolve"
    resolve.dataset.resolved = String(resolved)
  }

  // The cursor goes to the end of what a comment is on.
  #goTo(id) {
    const found = this.#session.comments.list.find(it => it.id === id), {state} = this.#view
    if (!found || found.from === null) return
    const selection = state.selection.constructor.near(state.doc.resolve(found.to), -1)
    this.#view.dispatch(state.tr.setSelection(selection).scrollIntoView())
    this.#session.comments.choose(id)
    this.#view.focus()
  }

  /// Marks a comment in the list.
  choose(id) {
    for (const [of, item] of this.#items) {
      item.classList.toggle("chosen", of === id)
      if (of === id) item.scrollIntoView({block: "nearest"})
    }
  }
}

function said({name, time, text}) {
  const line = document.createElement("p"), by = line.appendChild(document.createElement("b"))
  const at = document.createElement("span")
  by.textContent = name
  at.className = "soft"
  at.textContent = ` ${timeOf(time)}`
  line.append(at, document.createElement("br"), text)
  return line
}
