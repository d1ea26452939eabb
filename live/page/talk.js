// The panel of comments: one on what is selected in an editor, and the list. Where they stand at a version the server asks the house.

"use strict"

const {showComments} = require("./anchors")

const find = id => document.getElementById(id)

const PAUSE = 50, MOST_QUOTE = 200

class Talk {
  /// `server` tells and takes comments: `comments(version)`, `comment(value)`.
  constructor(panes, server) {
    this.panes = panes
    this.server = server
    this.pane = null
    this.count = 0
    this.isDue = false
    const form = find("comment")
    form.addEventListener("submit", event => {
      event.preventDefault()
      this.send()
    })
    form.addEventListener("keydown", ({key}) => { if (key == "Escape") this.leave() })
  }

  /// Opens the form for what is selected in a pane.
  begin(pane) {
    if (pane.view.state.selection.empty) return pane.tell("Select what the comment is on.")
    this.pane = pane
    find("comment").hidden = false
    find("comment-text").focus()
  }

  leave() {
    find("comment").hidden = true
    find("comment-text").value = ""
    this.pane.view.focus()
  }

  // The place is told in a document of the log, in which the editor's steps have to be first.
  async send() {
    const text = find("comment-text").value.trim(), {pane} = this
    this.leave()
    while (!pane.isQuiet) await new Promise(resolve => setTimeout(resolve, PAUSE))
    const {state} = pane.view, {from, to} = state.selection
    const quote = state.doc.textBetween(from, to, " ").slice(0, MOST_QUOTE)
    if (!text || !quote) return pane.tell("The comment has no text, or is on none.")
    await this.server.comment({version: pane.editor.version, from, to, by: pane.name, text, quote}).catch(error => pane.tell(error.message))
  }

  /// There is one more comment.
  grow() {
    this.count++
    this.later()
  }

  /// An editor may have come to another version.
  later() {
    if (this.isDue) return
    this.isDue = true
    setTimeout(() => {
      this.isDue = false
      for (const pane of this.panes) this.place(pane)
    }, PAUSE)
  }

  async place(pane) {
    const {version} = pane.editor, at = `${version} ${this.count}`
    if (!pane.isQuiet || pane.placedAt == at) return
    const comments = await this.server.comments(version)
    if (!pane.isQuiet || pane.editor.version != version) return this.later()
    pane.placedAt = at
    pane.editor.dispatch(showComments(pane.editor.state, comments))
    this.show(comments)
  }

  show(comments) {
    find("comments").replaceChildren(...comments.map(({by, text, quote, from, to}) => {
      const item = document.createElement("li"), of = item.appendChild(document.createElement("q"))
      of.textContent = quote
      item.classList.toggle("gone", from >= to)
      item.append(` ${by}: ${text}`)
      return item
    }))
  }
}

module.exports = {Talk}
