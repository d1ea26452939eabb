// One of the page's two editors: an editor (editor.js) under a view of ProseMirror's. It sends its steps to the server, which hands them
// to the house; the log's entries the page tells it.

"use strict"

const {Node} = require("prosemirror-model")
const {EditorView} = require("prosemirror-view")
const {Editor} = require("../editor")
const {undo, redo, undoDepth, redoDepth} = require("../undo")
const {anchorsPlugin} = require("./anchors")
const {Authors, authorsPlugin, colorsOf} = require("./authors")
const {commandsOf} = require("./commands")
const {schema} = require("./schema")

const PAUSE = 1000
const {commands, keymap} = commandsOf({undo, redo})

class Pane {
  /// `server.ask(line)` gives the house's answer. `onShow()` is told that the editor has changed; `showsAuthors()` says whether each
  /// author's text has a colour.
  constructor(place, {doc, version}, {record, server, onShow, showsAuthors}) {
    Object.assign(this, {place, server, onShow, isSending: false, name: place.id})
    const authors = new Authors(record)
    const find = () => {
      const spans = showsAuthors() ? authors.of(this.editor) : null
      return spans && {spans, colors: colorsOf(record)}
    }
    this.editor = new Editor({
      doc: Node.fromJSON(schema, doc), version, clientID: `${this.name}.${crypto.getRandomValues(new Uint32Array(1))[0]}`,
      plugins: [keymap(), anchorsPlugin(), authorsPlugin(find)],
      onChange: state => this.show(state),
      onDrop: (step, why) => this.tell(`A change was not accepted: ${JSON.stringify(why)}`),
    })
    this.view = new EditorView(place.querySelector(".document"), {
      state: this.editor.state,
      attributes: {"aria-label": `the ${this.name} editor`},
      dispatchTransaction: tr => this.editor.dispatch(tr),
    })
    for (const button of place.querySelectorAll("[data-command]")) this.bind(button)
    this.show(this.editor.state)
  }

  // A click must not take the focus from the view; a key on the button leaves it there.
  bind(button) {
    button.addEventListener("mousedown", event => event.preventDefault())
    button.addEventListener("click", () => commands[button.dataset.command](this.view.state, this.view.dispatch))
  }

  /// Whether the log has all that the editor made.
  get isQuiet() { return this.editor.unconfirmed.length == 0 && !this.isSending }

  /// The log's next entries.
  receive(entries) {
    this.editor.take(null, entries)
    this.view.updateState(this.view.state)
  }

  show(state) {
    if (!this.view) return
    this.view.updateState(state)
    const {version, unconfirmed} = this.editor
    this.place.querySelector(".state").textContent =
      `version ${version}, ${unconfirmed.length} unconfirmed, ${undoDepth(state)} to undo, ${redoDepth(state)} to redo`
    this.send()
    this.onShow()
  }

  tell(text) { this.place.querySelector(".told").textContent = text }

  // One message is on its way at a time. Where the server can't be reached, the steps wait.
  async send() {
    if (this.isSending) return
    this.isSending = true
    while (this.editor.unconfirmed.length > 0) {
      const message = this.editor.compose()
      try {
        const what = this.editor.take(message, await this.server.ask(message.line))
        if (what == "memory") await new Promise(resolve => setTimeout(resolve, PAUSE))
        else if (what != "dropped") this.tell("")
      } catch (error) {
        this.tell(`${error.message}; the changes are sent again`)
        await new Promise(resolve => setTimeout(resolve, PAUSE))
      }
    }
    this.isSending = false
    this.onShow()
  }
}

module.exports = {Pane}
