// Plays sessions of one client that types letters, each in an event of its own, by the word `replay`, and tells how the processor's
// time of a line and the memory grow with the session (docs/change/GROWTH.md). A letter stands alone in one of 2,000 paragraphs or after
// others, so that no text is long. In the first sessions nothing is undone, so each letter's event can be undone at the end. In the
// second every thousandth line is an undo, which shows what undos add. In the third every other line is one, so that one event is
// left at most: what its memory is below that of the first is what a history has dropped.
// usage: node bench/letters.js [LINES..]      25000, 50000 and 100000 lines unless told

"use strict"

const {fileOf, inTurn, play, row, title} = require("./measure")

const paragraphs = 2000, told = process.argv.slice(2).map(Number)
const types = {nodes: [{name: "doc", content: "p+"}, {name: "p", content: "text*"}, {name: "text"}]}
const first = {type: "doc", content: Array(paragraphs).fill({type: "p"})}

// Letter number `i` goes at the front of a paragraph, when those before it have their letters already.
function letter(i) {
  const at = (i % paragraphs) * (Math.floor(i / paragraphs) + 3) + 1
  return {c: "a", op: "text", from: at, to: at, text: "x"}
}

// So many lines, of which every so many is an undo; 0 means none is.
function session(count, every) {
  const lines = []
  for (let i = 1, typed = 0; i <= count; i++) {
    const undoes = every && i % every == 0
    lines.push(undoes ? {c: "a", op: "undo"} : letter(typed))
    typed += undoes ? -1 : 1
  }
  return fileOf([types, first, ["a"], ...lines])
}

title("microseconds of the processor a line", "letters.js", "")
for (const [what, every] of [["nothing undone", 0], ["an undo every 1,000 lines", 1000], ["an undo every other line", 2]]) {
  for (const count of told.length ? told : [25000, 50000, 100000]) {
    const input = session(count, every), megabytes = []
    const [micros] = inTurn([() => {
      const ran = play("replay", input)
      megabytes.push(ran.megabytes)
      return 1000 * ran.busy / count
    }])
    row(`${what}, ${count} lines`, micros, [], {note: `${Math.max(...megabytes).toFixed(1)} MB`})
  }
}
