// What the page without a server runs: two panes, each with an editor of ProseMirror's over a client of the engine, and the authority.
// All are in one instance of the module, and what they tell each other goes by way of a slow network (network.js).

"use strict"

const {EditorState, Plugin, PluginKey, TextSelection} = require("prosemirror-state")
const {ReplaceStep, Step} = require("prosemirror-transform")
const {Decoration, DecorationSet, EditorView} = require("prosemirror-view")
const {openEngine} = require("../../bindings/js/src/index.js")
const {pluginOf} = require("../../bindings/js/prosemirror/plugin.js")
const {changesOf, inWords} = require("./changes")
const {commandsOf} = require("./commands")
const {Network} = require("./network")
const {schema, first} = require("./schema")

const pm = pluginOf({Plugin, PluginKey, TextSelection, Step, ReplaceStep, Decoration, DecorationSet})
const {commands, keymap} = commandsOf(pm)

const NAMES = ["left", "right"]
const find = id => document.getElementById(id)

class Pane {
  constructor(engine, network, name) {
    this.place = find(name)
    this.name = name
    this.client = engine.openClient({schema, doc: first, clientID: name}, {Step})
    this.number = network.join(this)
    this.network = network
    const plugins = [keymap(), pm.collab({
      client: this.client,
      send: message => this.send(message),
      sendCursor: cursor => this.sendCursor(cursor),
      cursor: {name},
      onRefuse: (_step, error) => this.tell(error.message),
      onError: error => this.tell(error.message),
      caret: ({name: of}) => caretOf(of),
      shade: ({name: of}) => ({class: `selected by-${of}`}),
    })]
    this.view = new EditorView(this.place.querySelector(".document"), {
      state: EditorState.create({schema, doc: first, plugins}),
      attributes: {"aria-label": `the ${name} document`, spellcheck: "false"},
      handleDOMEvents: {keydown: leave},
      dispatchTransaction: tr => {
        this.view.updateState(this.view.state.apply(tr))
        this.show()
      },
    })
    for (const button of this.place.querySelectorAll("button")) this.bind(button)
    this.show()
  }

  // A click must not take the focus from the view; a key on the button leaves it there.
  bind(button) {
    button.addEventListener("mousedown", event => event.preventDefault())
    button.addEventListener("click", () => commands[button.dataset.command](this.view.state, this.view.dispatch))
  }

  send(message) {
    const events = pm.getPending(this.view.state).map(it => it.event)
    return this.network.ask(this.number, message, events)
  }

  receive(answer) { return pm.receive(this.view, answer) }

  async sendCursor(cursor) {
    await this.network.passes()
    for (const other of window.panes || []) if (other !== this) pm.showCursor(other.view, cursor)
  }

  canTakeBack(event) { return pm.undoChange(event)(this.view.state) }

  takeBack(event) { return pm.undoChange(event)(this.view.state, this.view.dispatch) }

  show() {
    if (!this.view) return
    const {state} = this.view, pending = pm.getPending(state).length
    const told = [`version ${pm.getVersion(state)}`, pending ? `${pending} on their way` : "nothing on its way"]
    this.place.querySelector(".state").textContent = told.join(", ")
    const isThere = {undo: pm.undoDepth(state) > 0, redo: pm.redoDepth(state) > 0}
    for (const [name, can] of Object.entries(isThere))
      this.place.querySelector(`[data-command=${name}]`).setAttribute("aria-disabled", String(!can))
    window.log?.show()
  }

  tell(text) { this.place.querySelector(".told").textContent = text }
}

function caretOf(name) {
  const caret = document.createElement("span"), label = caret.appendChild(document.createElement("span"))
  caret.className = `caret by-${name}`
  label.textContent = name
  return caret
}

// Tab may be a list's. Escape leaves the document for the next control.
function leave(view, event) {
  if (event.key == "Escape") view.dom.blur()
  return false
}

// The list of changes. Its items stay where they are, so that a button keeps the focus.
class Log {
  constructor(network, panes) {
    this.network = network
    this.panes = panes
    this.place = find("changes")
    this.items = new Map()
  }

  show() {
    for (const change of changesOf(this.network.entries)) {
      const key = `${change.pane} ${change.event || `at ${change.from}`}`
      if (!this.items.has(key)) this.items.set(key, this.add(change))
      this.fill(this.items.get(key), change)
    }
  }

  add({pane, event}) {
    const item = find("change").content.firstElementChild.cloneNode(true), button = item.querySelector("button")
    item.querySelector(".by").textContent = NAMES[pane]
    item.classList.add(`by-${NAMES[pane]}`)
    if (event) button.addEventListener("click", () => this.panes[pane].takeBack(event))
    else button.remove()
    this.place.prepend(item)
    return item
  }

  fill(item, {pane, event, from, to, steps}) {
    const range = to - from > 1 ? `${from + 1} to ${to}` : `${to}`
    item.querySelector(".what").textContent = event ? inWords(steps) : `undo: ${inWords(steps)}`
    item.querySelector(".at").textContent = range
    if (!event) return
    const isThere = this.panes[pane].canTakeBack(event), button = item.querySelector("button")
    item.classList.toggle("gone", !isThere)
    button.setAttribute("aria-disabled", String(!isThere))
    button.textContent = isThere ? "Take back" : "Taken back"
    button.setAttribute("aria-label", `${button.textContent}: ${NAMES[pane]} ${inWords(steps)}`)
  }
}

const bytesOf = text => Uint8Array.from(atob(text), it => it.charCodeAt(0))

async function main() {
  const slider = find("delay"), tellDelay = () => { find("told-delay").textContent = `${(slider.value / 1000).toFixed(1)} s` }
  slider.addEventListener("input", tellDelay)
  tellDelay()
  const engine = await openEngine({kind: "wasm", module: bytesOf(find("module").textContent)})
  const network = new Network(engine.openAuthority(schema, first), () => Number(slider.value), () => window.log.show())
  const panes = NAMES.map(name => new Pane(engine, network, name))
  window.log = new Log(network, panes)
  window.network = network
  window.panes = panes
}

main().catch(error => { find("fault").textContent = error.message })
