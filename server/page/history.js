// The panel of the history: the changes with a button each that takes it back, and a slider that shows the document of any version.

import {EditorState} from "prosemirror-state"
import {Decoration, DecorationSet, EditorView} from "prosemirror-view"
import {inWords} from "../../live/page/changes.js"
import {Changes} from "./changes.js"
import {Past} from "./past.js"

const find = id => document.getElementById(id)
const SHOWN = 50

export class History {
  #session
  #view
  #past
  #changes
  #tell
  #items = new Map()
  #shown = SHOWN
  #pastView = null
  #isOpen = false

  /// `tell(text)` shows what can't be done.
  constructor(session, view, engine, tell) {
    this.#session = session
    this.#view = view
    this.#tell = tell
    this.#past = new Past(session, engine)
    this.#restart()
    find("version").addEventListener("input", () => this.#slide())
    find("past-end").addEventListener("click", () => this.leave())
    find("more-changes").addEventListener("click", () => {
      this.#shown += SHOWN
      this.show()
    })
  }

  #restart() {
    const {schema, packages: {Step}} = this.#session
    this.#changes = new Changes(step => Step.fromJSON(schema, step).getMap())
    this.#items.clear()
    find("changes").replaceChildren()
  }

  /// The panel is opened: what was before the page is asked for.
  async open() {
    try {
      await this.#session.history()
      this.#isOpen = true
      this.show()
    } catch (error) {
      this.#tell(`The history can't be had: ${error.message}`)
    }
  }

  /// The session has begun anew.
  reset() {
    this.#restart()
    this.#past = new Past(this.#session, this.#session.engine)
    if (this.#isOpen) this.open()
  }

  /// Shows what the log and the editor have come to.
  show() {
    const {log} = this.#session
    if (!this.#isOpen || log.first > 0 || find("panel-history").hidden) return
    this.#changes.add(log.entries.slice(this.#changes.count))
    const slider = find("version"), isAtEnd = slider.value == slider.max
    slider.max = log.version
    if (isAtEnd) slider.value = log.version
    this.#tellVersion()
    const {list} = this.#changes, from = Math.max(0, list.length - this.#shown)
    for (let i = list.length - 1; i >= from; i--) this.#showOne(list[i], i)
    find("more-changes").hidden = from == 0
  }

  // The items stay where they are, so that a button keeps the focus.
  #showOne(change, number) {
    if (!this.#items.has(change)) this.#items.set(change, this.#add(change, number))
    const item = this.#items.get(change), isThere = this.#isThere(change), button = item.querySelector("button")
    const words = inWords(change.steps), by = this.#nameOf(change), first = change.at[0] + 1, last = change.at[change.at.length - 1] + 1
    item.querySelector(".what").textContent = change.event === 0 ? `undo: ${words}` : words
    item.querySelector(".by").textContent = by
    item.querySelector(".at").textContent = last > first ? `${first} to ${last}` : `${last}`
    item.classList.toggle("gone", !isThere)
    button.textContent = isThere ? "Take back" : "Taken back"
    button.setAttribute("aria-disabled", String(!isThere || !this.#session.mayWrite))
    button.setAttribute("aria-label", `${button.textContent}: ${by} ${words}`)
  }

  #add(change, number) {
    const item = find("change-template").content.firstElementChild.cloneNode(true), place = find("changes")
    item.dataset.number = number
    item.querySelector("button").addEventListener("click", () => this.#takeBack(change))
    const after = [...place.children].find(it => Number(it.dataset.number) < number)
    place.insertBefore(item, after ?? null)
    return item
  }

  // An ID begins with the user's, which of a server that is open to all ends with a random number.
  #nameOf({clientID}) {
    return this.#session.people.nameOf(clientID) ?? String(clientID).split("~")[0].replace(/\.[0-9a-f]{8}$/, "")
  }

  #isThere(change) {
    if (change.event) return this.#session.pm.undoChange(change.event)(this.#view.state)
    return !change.isBack
  }

  // An own change is one to undo. Any other is taken back by steps that are an own change.
  #takeBack(change) {
    const {pm, mayWrite} = this.#session, view = this.#view
    if (!mayWrite || !this.#isThere(change)) return
    if (change.event) {
      pm.undoChange(change.event)(view.state, view.dispatch)
      return this.show()
    }
    const steps = this.#past.stepsBack(change), tr = pm.closeHistory(view.state.tr)
    if (!steps.length) this.#tell("Nothing is left of this change.")
    for (const step of steps) tr.step(step)
    change.isBack = true
    if (steps.length) view.dispatch(tr)
    this.show()
  }

  // ---- the slider

  #tellVersion() {
    const {value, max} = find("version")
    find("version-told").textContent = `${value} of ${max}`
  }

  #slide() {
    const {value, max} = find("version")
    this.#tellVersion()
    if (value == max) return this.leave()
    const version = Number(value), doc = this.#past.docAt(version)
    find("past-told").textContent = `The document of version ${version}. It can't be changed.`
    this.#showPast(doc, version)
  }

  #showPast(doc, version) {
    const {schema, log, packages: {Step}} = this.#session, made = []
    const map = version > 0 ? Step.fromJSON(schema, log.entries[version - 1].step).getMap() : null
    map?.forEach((_from, _to, start, end) => made.push(Decoration.inline(start, end, {class: "gezhufet-selection"})))
    const state = EditorState.create({doc}), decorations = () => DecorationSet.create(doc, made)
    if (this.#pastView) this.#pastView.setProps({state, decorations})
    else {
      const attributes = {"aria-label": "The document of an earlier version", role: "document"}
      this.#pastView = new EditorView(find("past"), {state, decorations, editable: () => false, attributes})
    }
    this.#toggle(true)
  }

  #toggle(isPast) {
    find("editor").hidden = isPast
    find("past").hidden = find("past-bar").hidden = !isPast
  }

  /// Back to the editor.
  leave() {
    const slider = find("version")
    slider.value = slider.max
    this.#tellVersion()
    this.#toggle(false)
  }
}
