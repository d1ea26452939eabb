// The live authority, as a process or in this one (bindings/js): a line in, a line out, in order. docs/use/LIVE.md describes the lines.

"use strict"

const fs = require("fs")
const path = require("path")
const {spawn} = require("child_process")

const ENGINES = ["wasm", "addon"]
const PROGRAM = [path.join(__dirname, "..", "pm"), "live"]

/// The program and its words: what the variable PM_LIVE has, else `./pm live`, which builds the program where it is not built. The
/// words `wasm` and `addon` are no programs: they are the engines in this process.
function command() {
  const given = (process.env.PM_LIVE || "").split(" ").filter(word => word)
  return given.length ? given : PROGRAM
}

// The process.
class Authority {
  constructor([program, ...words]) {
    this.process = spawn(program, words, {stdio: ["pipe", "pipe", "inherit"]})
    this.waiting = []
    this.parts = []
    this.fault = null
    this.ended = new Promise(resolve => this.process.on("close", resolve))
    this.ended.then(status => this.fail(new Error(`the authority ended with status ${status}`)))
    this.process.on("error", error => this.fail(error))
    this.process.stdin.on("error", error => this.fail(error))
    this.process.stdout.setEncoding("utf8").on("data", text => this.read(text))
  }

  // A long answer comes in many parts.
  read(text) {
    const [first, ...rest] = text.split("\n")
    this.parts.push(first)
    for (const next of rest) {
      const line = this.parts.join("")
      this.parts = [next]
      const taker = this.waiting.shift()
      if (taker) taker.resolve(line)
    }
  }

  fail(error) {
    this.fault = this.fault || error
    for (const {reject} of this.waiting.splice(0)) reject(this.fault)
  }

  /// The next line that it writes.
  nextLine() {
    if (this.fault) return Promise.reject(this.fault)
    return new Promise((resolve, reject) => this.waiting.push({resolve, reject}))
  }

  /// The answer to a line, which is a text without its LF.
  askLine(line) {
    const answer = this.nextLine()
    if (!this.fault) this.process.stdin.write(line + "\n")
    return answer
  }

  /// The answer to a message, both as JSON values.
  async ask(message) { return JSON.parse(await this.askLine(JSON.stringify(message))) }

  /// The bytes of memory that the process takes, as Linux tells them.
  get bytes() {
    const status = fs.readFileSync(`/proc/${this.process.pid}/status`, "utf8")
    return Number(/^VmRSS:\s+(\d+) kB$/m.exec(status)[1]) * 1024
  }

  /// Tells the process that no line comes any more. Gives the status with which it ends.
  close() {
    this.process.stdin.end()
    return this.ended
  }
}

// The same calls on an authority in this process, or a house.
class Inside {
  /// `opened` is what the package opens, or a promise of it.
  constructor(opened) {
    this.opened = opened
    this.ended = new Promise(resolve => { this.end = resolve })
  }

  async askLine(line) { return (await this.opened).tell(line) }

  async ask(message) { return JSON.parse(await this.askLine(JSON.stringify(message))) }

  /// The bytes of memory that this process takes.
  get bytes() { return process.memoryUsage().rss }

  async close() {
    const opened = await this.opened
    opened.close()
    this.end(0)
    return this.ended
  }
}

const refusal = ({line, fault}) => new Error(`the authority refused line ${line} with code ${fault}`)

async function startInside(schema, doc, kind) {
  const {openAuthority} = await import("../bindings/js/src/index.js")
  try {
    return new Inside(await openAuthority(schema, doc, {kind}))
  } catch (error) {
    throw error.line === undefined ? error : refusal({line: error.line, fault: error.code})
  }
}

/// Starts an authority on a schema and a first document, or without one on the top type filled. It is the process that the words
/// name, or where they are `wasm` or `addon` that engine in this process. An error where it refuses them.
async function startAuthority(schema, doc = null, words = command()) {
  const [kind] = [words].flat()
  if (ENGINES.includes(kind)) return startInside(schema, doc, kind)
  const {schemaLine, documentLine} = await import("../bindings/js/src/lines.js")
  // What throws here starts no process.
  const lines = `${schemaLine(schema)}\n${doc ? documentLine(doc) : "null"}`
  const authority = new Authority([words].flat())
  // The answer comes behind the second line.
  const answer = JSON.parse(await authority.askLine(lines))
  if (answer.fault !== undefined) throw refusal(answer)
  return authority
}

module.exports = {Authority, ENGINES, Inside, startAuthority, command}
