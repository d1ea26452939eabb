// The engine as a WebAssembly module, gezhufet.wasm: it imports nothing, and its exports pass numbers. A line goes in and an answer
// comes out by one buffer in its memory.

import {EndedError, GezhufetError, MemoryError} from "./errors.js"
import {readFile, textOf, viewOf} from "./platform.js"

// The bytes of a line that the engine reads, its LF not counted. Of a longer one, which has a fault, one byte more is told.
const LINE_LIMIT = 1048576
const PAGE = 65536
// The bytes that the module's buffer has always. A text of a third as many units has a place there, since a unit takes three at most.
const LEAST = 4096
const SHORT = 1365

const OWN_MODULE = new URL("../gezhufet.wasm", import.meta.url)
const encoder = new TextEncoder()
const compiled = new Map()

const bytesOf = line => encoder.encode(line).subarray(0, LINE_LIMIT + 1)

async function compile(url) {
  const bytes = await readFile(url)
  if (bytes) return WebAssembly.compile(bytes)
  const response = await fetch(url)
  if (!response.ok) throw new Error(`${url} is not there: ${response.status}`)
  return WebAssembly.compile(await response.arrayBuffer())
}

// A module as it is given: compiled, its bytes, or its address, of which each is compiled once.
function moduleOf(given = OWN_MODULE) {
  if (given instanceof WebAssembly.Module) return given
  if (given instanceof ArrayBuffer || ArrayBuffer.isView(given)) return WebAssembly.compile(given)
  const url = String(given)
  if (!compiled.has(url)) {
    const made = compile(new URL(url))
    compiled.set(url, made)
    made.catch(() => compiled.delete(url))
  }
  return compiled.get(url)
}

/// One instance of the module, which holds many talks. `memory` is the most bytes that it takes; at 2^32 - 65,536 all are taken.
export async function openWasm({module, memory} = {}) {
  return new WasmEngine(await WebAssembly.instantiate(await moduleOf(module)), memory)
}

class WasmEngine {
  #exports
  #ask
  #fault = null
  #least = null

  constructor({exports}, memory) {
    this.#exports = exports
    this.#ask = exports.ask
    if (memory !== undefined) this.#call("limit", Math.max(Math.floor(memory / PAGE), 1) * PAGE)
  }

  get kind() { return "wasm" }

  // Calls an export. After an exception memory may be half written, so the instance is never called again.
  #call(name, first, second, third) {
    this.#ensure()
    try {
      return this.#exports[name](first, second, third) >>> 0
    } catch (fault) {
      throw this.#stopped(fault)
    }
  }

  #ensure() {
    if (this.#fault) throw new EndedError("the engine has stopped by a fault", {cause: this.#fault})
  }

  #stopped(fault) {
    this.#fault = fault
    return new EndedError(`the engine has stopped by a fault: ${fault.message}`, {cause: fault})
  }

  /// An authority's talk by its two lines, which is a number, and the answer to both.
  open(...lines) { return this.#open("open", lines) }

  /// A client's talk by its three lines, and the answer to them.
  openClient(...lines) { return this.#open("open_client", lines) }

  /// The module has no house, so that a page loads less.
  openHouse() { throw new GezhufetError("the WebAssembly module has no house; the addon has one") }

  #open(name, lines) {
    const bytes = lines.map(bytesOf), sizes = bytes.map(it => it.length)
    this.#write(bytes, sizes.reduce((sum, size) => sum + size))
    const talk = this.#call(name, ...sizes)
    if (talk == 0) throw new MemoryError()
    return {talk, answer: this.#answer(talk, this.#call("length"))}
  }

  /// The answer to a line, without its LF.
  tell(talk, line) {
    const bytes = this.#put(line), length = this.#asked(talk, bytes)
    return length <= LEAST ? textOf(this.#first(), length - 1) : this.#answer(talk, length)
  }

  // The same as #call("ask", ..), by a function that is not looked for.
  #asked(talk, bytes) {
    this.#ensure()
    try {
      return this.#ask(talk, bytes) >>> 0
    } catch (fault) {
      throw this.#stopped(fault)
    }
  }

  /// Lets a talk go. A stopped engine has let all go.
  close(talk) {
    if (!this.#fault) this.#call("close", talk)
  }

  /// The bytes that are in use, and those of the whole memory, which never shrinks.
  get memory() { return {used: this.#call("used"), size: this.#exports.memory.buffer.byteLength} }

  // The place of so many bytes of the buffer, which may move.
  #room(length) {
    this.#least = null
    const at = this.#call("room", length)
    if (at == 0) throw new MemoryError()
    return at
  }

  // Puts a line into the buffer, and gives how many bytes it has.
  #put(line) {
    if (line.length <= SHORT) return encoder.encodeInto(line, this.#first()).written
    const bytes = bytesOf(line)
    this.#write([bytes], bytes.length)
    return bytes.length
  }

  // Puts lines' bytes into the buffer, one after the other.
  #write(lines, length) {
    let at = this.#room(length)
    for (const bytes of lines) {
      this.#bytes(at, bytes.length).set(bytes)
      at += bytes.length
    }
  }

  // The first bytes of the buffer. They are looked for again where it may have moved, or the memory has grown: then a view of the memory
  // as it was has no bytes.
  #first() {
    if (!this.#least?.length) this.#least = this.#bytes(this.#room(LEAST), LEAST)
    return this.#least
  }

  // A whole answer of so many bytes.
  #answer(talk, length) {
    this.#least = null
    const at = this.#call("answer", talk)
    if (at == 0) throw new MemoryError()
    return textOf(this.#bytes(at, length), length - 1)
  }

  #bytes(at, length) { return viewOf(this.#exports.memory.buffer, at, length) }
}
