// The tools above the document. One of them is reached by Tab, and the others from there by the arrows, as in other editors.

import {BLOCKS, blockOf, isOn} from "./commands.js"

const find = id => document.getElementById(id)

export class Toolbar {
  #view
  #commands
  #place = find("tools")
  #block = find("block")

  constructor(view, commands) {
    this.#view = view
    this.#commands = commands
    for (const button of this.#place.querySelectorAll("button")) this.#bind(button)
    this.#block.addEventListener("change", () => this.#run(BLOCKS[this.#block.value]))
    this.#place.addEventListener("keydown", event => this.#walk(event))
    this.#items.forEach((it, i) => { it.tabIndex = i == 0 ? 0 : -1 })
  }

  get #items() { return [...this.#place.querySelectorAll("select, button")] }

  // A click must not take the focus from the document; a key on the button leaves it there.
  #bind(button) {
    button.addEventListener("mousedown", event => event.preventDefault())
    button.addEventListener("click", () => this.#run(this.#commands[button.dataset.command]))
  }

  #run(command) {
    const view = this.#view
    if (view.editable) command(view.state, view.dispatch, view)
  }

  #walk(event) {
    const items = this.#items, at = items.indexOf(document.activeElement)
    const to = {ArrowRight: at + 1, ArrowLeft: at - 1, Home: 0, End: items.length - 1}[event.key]
    if (event.key == "Escape") this.#view.focus()
    if (to === undefined || (event.target == this.#block && event.key.startsWith("Arrow") && event.altKey)) return
    event.preventDefault()
    this.focus((to + items.length) % items.length)
  }

  /// Gives one of the tools the focus.
  focus(at = this.#items.findIndex(it => it.tabIndex == 0)) {
    this.#items.forEach((it, i) => { it.tabIndex = i == at ? 0 : -1 })
    this.#items[at].focus()
  }

  /// Shows what is on, and what can be done, in the view's state.
  show() {
    const {state, editable} = this.#view
    this.#block.value = blockOf(state)
    this.#block.disabled = !editable
    for (const button of this.#place.querySelectorAll("button")) {
      const {command: name} = button.dataset, on = isOn(state, name)
      if (on !== undefined) button.setAttribute("aria-pressed", String(on))
      button.setAttribute("aria-disabled", String(!editable || !this.#commands[name](state)))
    }
  }
}
