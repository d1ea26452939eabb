// A house whose documents are found again: what it accepts is in a file of its own before it is answered (docs/use/HOUSE.md). What the
// house does not know of, as comments, is in a second file beside it, `FILE.notes`. Without a file both are in memory alone.

"use strict"

const fs = require("fs")
const {command} = require("../authority")
const {House} = require("../house")

const LF = 10

// The whole lines of a file. A last line that a crash cut is taken away: nobody was told that it was taken.
function wholeLines(file) {
  if (!fs.existsSync(file)) return []
  const bytes = fs.readFileSync(file), end = bytes.lastIndexOf(LF) + 1
  if (end < bytes.length) fs.truncateSync(file, end)
  return bytes.toString("utf8", 0, end).split("\n").slice(0, -1)
}

// The values that were kept, in the order in which they came.
class Notes {
  constructor(file) {
    this.list = file ? wholeLines(file).map(line => JSON.parse(line)) : []
    this.file = file && fs.openSync(file, "a")
  }

  append(value) {
    this.list.push(value)
    if (this.file === undefined) return
    fs.writeSync(this.file, `${JSON.stringify(value)}\n`)
    fs.fsyncSync(this.file)
  }

  close() { if (this.file !== undefined) fs.closeSync(this.file) }
}

const hasBytes = file => fs.existsSync(file) && fs.statSync(file).size > 0

class KeptHouse extends House {
  /// Over a file, which is taken up where there is one, or without one.
  constructor(file) {
    const isOpened = file !== undefined && hasBytes(file)
    super(command(), file === undefined ? [] : [isOpened ? "open" : "new", file])
    this.isOpened = isOpened
    this.notes = new Notes(file && `${file}.notes`)
  }

  /// Waits until the documents of the file are there: the process says then how many there are.
  async begin() { if (this.isOpened) await this.process.nextLine() }

  /// Keeps a value for the next start.
  note(value) { this.notes.append(value) }

  close() {
    this.notes.close()
    return super.close()
  }
}

module.exports = {KeptHouse}
