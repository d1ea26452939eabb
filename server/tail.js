// The last entries of a log, as the engine wrote them, kept at hand: most editors ask for no others.

import {frameOf} from "./frames.js"
import {textOf} from "./store/entries.js"

export class Tail {
  #most
  #first
  #ids = []
  #steps = []
  #sizes = []
  // What was told last, which most are told.
  #made = {from: -1, to: -1, frame: null}

  /**
   * @param {number} version where it begins
   * @param {number} most how many entries it has, or twice as many
   */
  constructor(version, most) {
    this.#first = version
    this.#most = most
  }

  /** The number of the log's entries before its end. */
  get version() { return this.#first + this.#steps.length }

  /** Whether all from a version on are here. */
  has(version) { return version >= this.#first }

  /** @param {import("./store/entries.js").Entries} entries those that come next */
  add({clientIDs, steps, version}) {
    if (version - steps.length != this.version) throw new Error("entries do not go on from those at hand")
    for (const [i, step] of steps.entries()) {
      this.#steps.push(step)
      this.#ids.push(clientIDs[i])
      this.#sizes.push(Buffer.byteLength(step) + Buffer.byteLength(clientIDs[i]) + 2)
    }
    if (this.#steps.length > 2 * this.#most) this.#cut(this.#steps.length - this.#most)
  }

  #cut(count) {
    for (const list of [this.#steps, this.#ids, this.#sizes]) list.splice(0, count)
    this.#first += count
  }

  // The version at the end of the entries from one on that so many bytes hold.
  #end(from, bytes, most) {
    const end = Math.min(this.version, most)
    let [to, size] = [from, 0]
    while (to < end && ((size += this.#sizes[to - this.#first]) <= bytes || to == from)) to++
    return to
  }

  /**
   * The text of entries from a version on, as many as so many bytes hold, one at least, and the version at their end.
   * @param {number} from
   * @param {number} bytes
   * @param {number} most the version to which they go at most
   */
  text(from, bytes, most = this.version) {
    const to = this.#end(from, bytes, most)
    return {text: this.#write(from, to), to}
  }

  /** The same as a message's frame for those who watch. */
  frame(from, bytes) {
    const to = this.#end(from, bytes, this.version)
    if (this.#made.from != from || this.#made.to != to)
      this.#made = {from, to, frame: frameOf(`{"op":"entries","entries":${this.#write(from, to)}}`)}
    return this.#made
  }

  #write(from, to) {
    const part = list => list.slice(from - this.#first, to - this.#first)
    return textOf({clientIDs: part(this.#ids), steps: part(this.#steps), version: to})
  }
}
