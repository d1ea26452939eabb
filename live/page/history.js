// The panel of the log: its changes, the last one first, each with a button that has the house take it back.

"use strict"

const {Changes} = require("../../server/page/changes.js")
const {nameOf} = require("./authors")
const {inWords} = require("./changes")

const find = id => document.getElementById(id)

// Entries that follow one another: `{from, count}`, the last first.
function runsOf(places) {
  const runs = []
  for (const at of places) {
    const last = runs[0]
    if (last && last.from + last.count == at) last.count++
    else runs.unshift({from: at, count: 1})
  }
  return runs
}

class History {
  /// `takeBack(run)` has the house take entries back, and gives its answer; null where it can't. `tell(text)` shows what is not done.
  constructor(record, takeBack, tell) {
    Object.assign(this, {record, takeBack, tell})
    this.maps = new WeakMap()
    this.changes = new Changes(step => this.maps.get(step))
    this.items = new Map()
  }

  /// Shows what the log has come to. Items stay where they are, so that a button keeps the focus.
  show() {
    const news = this.record.entries.slice(this.changes.count)
    for (const {step, map} of news) this.maps.set(step, map)
    this.changes.add(news)
    for (const change of this.changes.list) {
      if (!this.items.has(change)) this.items.set(change, this.add(change))
      this.fill(this.items.get(change), change)
    }
  }

  add(change) {
    const item = find("change").content.firstElementChild.cloneNode(true), button = item.querySelector("button")
    if (this.takeBack) button.addEventListener("click", () => this.back(change))
    else button.remove()
    find("changes").prepend(item)
    return item
  }

  fill(item, {clientID, at, steps, isBack}) {
    const words = inWords(steps), [first, last] = [at[0] + 1, at[at.length - 1] + 1], button = item.querySelector("button")
    item.querySelector(".by").textContent = nameOf(clientID)
    item.querySelector(".what").textContent = words
    item.querySelector(".at").textContent = last > first ? `${first} to ${last}` : `${last}`
    item.classList.toggle("gone", Boolean(isBack))
    if (!button) return
    button.textContent = isBack ? "Taken back" : "Take this change back"
    button.setAttribute("aria-disabled", String(Boolean(isBack)))
    button.setAttribute("aria-label", `${button.textContent}: ${nameOf(clientID)} ${words}`)
  }

  // The last entries first, so that each is taken back from what it made.
  async back(change) {
    if (change.isBack) return
    change.isBack = true
    for (const run of runsOf(change.at)) {
      const answer = await this.takeBack(run)
      if (!answer.accepted) this.tell(`That was not taken back: ${JSON.stringify(answer)}`)
      if (answer.apart === false) this.tell("Later changes touch what was taken back. They stay.")
      change.isBack = change.isBack && Boolean(answer.accepted)
    }
    this.show()
  }
}

module.exports = {History}
