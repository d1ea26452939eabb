// Does what the program pm_live does, over an engine in this process: reads lines from standard input, writes their answers, and ends
// with its status. The input is UTF-8. With `many` the addon does what `pm_live many` does.
// usage: node tests/wasm/lines.js [wasm | addon [many]]

"use strict"

const fs = require("fs")

// The lines of a text. A last line without LF is a line.
function linesOf(text) {
  const lines = text.split("\n")
  if (lines[lines.length - 1] == "") lines.pop()
  return lines
}

// The answers to lines, and the status. Without a second line, a first one that has no fault is answered that the second is missing.
function played(engine, [schema, doc, ...rest]) {
  if (schema === undefined) return {answers: ['{"fault":2,"line":1}'], status: 1}
  const {talk, answer} = engine.open(schema, doc ?? "null")
  const fault = JSON.parse(answer)
  if (fault.fault !== undefined) return {answers: [answer], status: 1}
  if (doc === undefined) return {answers: ['{"fault":2,"line":2}'], status: 1}
  return {answers: [answer, ...rest.map(line => engine.tell(talk, line))], status: 0}
}

// The answers of a house.
function housed(engine, lines) {
  const {talk} = engine.openHouse()
  return {answers: lines.map(line => engine.tell(talk, line)), status: 0}
}

async function main(kind = "wasm", many) {
  const {openWasm} = await import("../../bindings/js/src/wasm.js")
  const {openAddon} = await import("../../bindings/js/src/addon.js")
  const engine = await (kind == "addon" ? openAddon() : openWasm())
  const lines = linesOf(fs.readFileSync(0, "utf8")), {answers, status} = many ? housed(engine, lines) : played(engine, lines)
  fs.writeSync(1, answers.map(line => line + "\n").join(""))
  process.exitCode = status
}

main(process.argv[2], process.argv[3])
