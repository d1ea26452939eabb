// The files of a folder of documents. Beside the engine's logs stand the notes of each document, and the epoch of its log.

import fs from "node:fs/promises"
import path from "node:path"
import {said} from "../log.js"
import {epochIn, forgetEpochs, newEpoch, noteEpoch} from "./epochs.js"
import {Notes, syncFolder} from "./notes.js"

/** The note that says what a document was made of. */
export const MADE = "document"

/** How a file that is a house's begins, and no document's own log. */
const HOUSE_BEGINS = ' {"op":'

const isMissing = error => {
  if (error.code != "ENOENT") throw error
}

const sizeOf = file => fs.stat(file).then(it => it.size, error => isMissing(error) ?? 0)

async function isHouse(file) {
  const handle = await fs.open(file).catch(isMissing)
  if (!handle) return false
  try {
    const {buffer, bytesRead} = await handle.read(Buffer.alloc(HOUSE_BEGINS.length), 0, HOUSE_BEGINS.length, 0)
    return buffer.toString("utf8", 0, bytesRead) == HOUSE_BEGINS
  } finally {
    await handle.close()
  }
}

export class Files {
  #folder
  #log
  #checking = null

  /**
   * @param {string} folder
   * @param {import("../log.js").Log} log
   */
  constructor(folder, log) {
    this.#folder = folder
    this.#log = log
  }

  /** The one log of all documents. */
  get house() { return path.join(this.#folder, "house.log") }

  /** The file of a document's own log. */
  log(name) { return this.#file(name, "log") }

  #file(name, kind) { return path.join(this.#folder, `${name}.${kind}`) }

  /** Makes the folder. What is there has to be of the same kind: one log of all documents, or one for each. */
  async start(isOfHouse) {
    await fs.mkdir(this.#folder, {recursive: true, mode: 0o700})
    const isOther = await (isOfHouse ? this.#hasLogs() : isHouse(this.house))
    if (isOther) throw new Error(`the documents in ${this.#folder} are those of the store ${isOfHouse ? "folder" : "house"}`)
    await this.check()
  }

  // Whether there is a document with a log of its own.
  async #hasLogs() {
    const names = new Set(await fs.readdir(this.#folder))
    return [...names].some(it => it.endsWith(".notes") && it != "house.notes" && names.has(it.replace(/notes$/, "log")))
  }

  /** Whether something stands in a file. */
  async has(file) { return await sizeOf(file) > 0 }

  /** Has the folder's names on the disk. */
  sync() { return syncFolder(this.#folder) }

  /** The notes of a document, which say what it was made of where it is there. Those of one that was there once are put aside. */
  async notes(name, isThere) {
    const file = this.#file(name, "notes"), notes = await Notes.open(file)
    if (isThere && !notes.notes.has(MADE)) throw new Error(`the notes of ${name} do not say its schema`)
    if (isThere || ![...notes.notes.keys()].some(id => id != MADE)) return notes
    await fs.rename(file, `${file}.old`)
    return Notes.open(file)
  }

  /** The epoch of a log, and how it is noted. That it can't be noted is no fault: it may be another one the next time. */
  async epoch(name, isThere, version) {
    const file = this.#file(name, "epoch"), epoch = isThere ? await epochIn(file, version) : newEpoch()
    const unnoted = error => this.#log.warn("epoch-unnoted", {document: name, ...said(error)})
    const note = at => noteEpoch(file, epoch, at).catch(unnoted)
    await note(version)
    return {epoch, noteEpoch: note}
  }

  /** Has each log get another epoch. */
  renew() { return forgetEpochs(this.#folder) }

  /** Throws where no file can be written and read again. Who asks at once is told the same. */
  check() {
    this.#checking ??= this.#check().finally(() => { this.#checking = null })
    return this.#checking
  }

  async #check() {
    const file = this.#file("check", "tmp")
    try {
      await fs.writeFile(file, "kept")
      if (await fs.readFile(file, "utf8") != "kept") throw new Error("what was written is not there")
    } finally {
      await fs.rm(file, {force: true})
    }
  }
}
