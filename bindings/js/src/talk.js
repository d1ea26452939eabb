// What the talks of an authority, a client and a house have in common: the lines of schemas and documents, lines that are told, and
// their end.

import {EndedError, FaultError, MemoryError, RefusedError} from "./errors.js"
import {documentLine, schemaLine} from "./lines.js"

export const isSchema = value => typeof value?.nodeFromJSON == "function"
const isNode = value => typeof value?.toJSON == "function"

/// The line of a JSON value. A text is a line of JSON as it is.
export function lineOf(value) {
  if (typeof value != "string") return JSON.stringify(value) ?? "null"
  if (/[\r\n]/.test(value)) throw new TypeError("a line has no line break")
  return value
}

/// The line of ProseMirror's `Schema`, or of its JSON.
export const lineOfSchema = schema => (isSchema(schema) ? schemaLine(schema) : lineOf(schema))

/// The line of ProseMirror's `Node`, or of its JSON.
export const lineOfDocument = doc => (isNode(doc) ? documentLine(doc) : lineOf(doc))

/// Gives an answer as it is meant, or the error that it is. `keepsRefusal`: that a step does not apply is an answer.
export function judged(answer, keepsRefusal = false) {
  const {fault, line, refused} = answer
  if (fault === "memory") throw new MemoryError()
  if (fault !== undefined) throw new FaultError(fault, line)
  if (refused && !keepsRefusal) throw new RefusedError(refused.reason, refused.index ?? 0, refused.at)
  return answer
}

// A talk that nothing holds any more is closed, as far as its engine stands.
const abandoned = new FinalizationRegistry(({engine, talk}) => {
  try {
    engine.close(talk)
  } catch {}
})

export class Talk {
  #engine
  #talk
  #what

  /// `what` it is, an authority, a client or a house, says the error of a line that comes after its end. `opened` is the engine's talk
  /// and, but of a house, the answer to its first lines; an error where these have a fault.
  constructor(engine, what, {talk, answer}) {
    this.#engine = engine
    this.#talk = talk
    this.#what = what
    abandoned.register(this, {engine, talk}, this)
    try {
      if (answer !== undefined) judged(JSON.parse(answer))
    } catch (error) {
      this.close()
      throw error
    }
  }

  get engine() { return this.#engine }

  /// The answer to a line, both texts without their LF. A fault is an answer too.
  tell(line) {
    if (this.#talk === null) throw new EndedError(`the ${this.#what} was closed`)
    try {
      return this.#engine.tell(this.#talk, line)
    } catch (error) {
      if (error instanceof MemoryError) return '{"fault":"memory"}'
      throw error
    }
  }

  /// The answer to a message, both as JSON values.
  ask(message) { return JSON.parse(this.tell(JSON.stringify(message))) }

  close() {
    if (this.#talk === null) return
    const talk = this.#talk
    this.#talk = null
    abandoned.unregister(this)
    this.#engine.close(talk)
  }
}
