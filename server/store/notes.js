// The notes of one document in a file: lines of JSON, of which the last one of an ID is what it is. A line that a crash has cut is none,
// and where most of the file is stale it is written anew.

import fs from "node:fs/promises"
import path from "node:path"
import {Order} from "../order.js"

/** So many bytes more than twice what is needed a file may have. */
const SPARE = 1_000_000

const lineOf = (id, value) => `${JSON.stringify({id, value})}\n`

function read(text) {
  const notes = new Map()
  for (const line of text.split("\n").slice(0, -1)) {
    const {id, value} = JSON.parse(line)
    if (value === undefined) notes.delete(id)
    else notes.set(id, value)
  }
  return notes
}

async function sync(file, flag, text) {
  const handle = await fs.open(file, flag, 0o600)
  try {
    await handle.writeFile(text)
    await handle.sync()
  } finally {
    await handle.close()
  }
}

/** What a note is to be, undefined for none: a value, or what a function makes of the one that is there. */
export function valueOf(value, before) {
  if (typeof value != "function") return value
  return before === undefined ? undefined : value(before)
}

/** Has a folder's names on the disk. */
export async function syncFolder(folder) {
  const handle = await fs.open(folder, "r")
  try {
    await handle.sync()
  } finally {
    await handle.close()
  }
}

export class Notes {
  #file
  #size
  #sizes = new Map()
  #order = new Order()
  #isTorn = false

  constructor(file, notes, size) {
    this.#file = file
    this.#size = size
    this.notes = notes
    for (const [id, value] of notes) this.#sizes.set(id, Buffer.byteLength(lineOf(id, value)))
  }

  /** Those of a file, none where it is not there. After a line that was cut the file is written anew. */
  static async open(file) {
    let text = ""
    try {
      text = await fs.readFile(file, "utf8")
    } catch (error) {
      if (error.code != "ENOENT") throw error
    }
    const kept = new Notes(file, read(text), Buffer.byteLength(text))
    if (text && !text.endsWith("\n")) await kept.#rewrite()
    return kept
  }

  async #rewrite() {
    const text = [...this.notes].map(([id, value]) => lineOf(id, value)).join("")
    await sync(`${this.#file}.new`, "w", text)
    await fs.rename(`${this.#file}.new`, this.#file)
    await syncFolder(path.dirname(this.#file))
    this.#size = Buffer.byteLength(text)
    this.#isTorn = false
  }

  /**
   * Keeps a value, or takes it away where it is undefined: one after the other, and on the disk once it is done. Of a function that is
   * what it makes of the value that is there, and nothing where none is. Gives the value.
   */
  set(id, told) {
    return this.#order.do(async () => {
      const value = valueOf(told, this.notes.get(id))
      if (value !== undefined || this.notes.has(id)) await this.#append(id, value)
      return value
    })
  }

  async #append(id, value) {
    const line = lineOf(id, value), size = Buffer.byteLength(line)
    await this.#write(line)
    this.#size += size
    if (value === undefined) this.notes.delete(id)
    else this.notes.set(id, value)
    if (value === undefined) this.#sizes.delete(id)
    else this.#sizes.set(id, size)
    await this.#shorten()
  }

  // What a full disk has cut is taken back, so that the next line begins anew. Where that fails too, all is written anew before it.
  async #write(line) {
    if (this.#isTorn) await this.#rewrite()
    try {
      await sync(this.#file, "a", line)
    } catch (error) {
      await fs.truncate(this.#file, this.#size).catch(() => { this.#isTorn = true })
      throw error
    }
  }

  // Most lines may be stale. That it can't be written anew is no fault.
  async #shorten() {
    const needed = [...this.#sizes.values()].reduce((sum, size) => sum + size, 0)
    if (this.#size > 2 * needed + SPARE) await this.#rewrite().catch(() => {})
  }
}
