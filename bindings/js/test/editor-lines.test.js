// The client's talk line by line: each file of tests/editor is answered by each engine that was built as its answers say.

import assert from "node:assert/strict"
import fs from "node:fs"
import {describe, it} from "node:test"
import {openAddon} from "../src/addon.js"
import {openWasm} from "../src/wasm.js"
import {engines} from "./values.js"

const folder = new URL("../../../tests/editor/", import.meta.url)
const files = fs.existsSync(folder) ? fs.readdirSync(folder).filter(it => it.endsWith(".in")) : []

// The lines of a text. A last line without LF is a line.
function linesOf(text) {
  const lines = text.split("\n")
  if (lines[lines.length - 1] == "") lines.pop()
  return lines
}

// A client is opened by three lines, so a file without them is not played.
function answersTo(engine, [schema, doc, client, ...rest]) {
  const {talk, answer} = engine.openClient(schema, doc, client)
  const isOpen = JSON.parse(answer).fault === undefined
  const answers = [answer, ...(isOpen ? rest.map(line => engine.tell(talk, line)) : [])]
  engine.close(talk)
  return answers.map(line => line + "\n").join("")
}

const skip = files.length == 0 && "tests/editor is missing"

for (const kind of engines) describe(`the lines of the client's talk over ${kind}`, {skip}, () => {
  for (const file of files) it(file.replace(/\.in$/, "").replace(/-/g, " "), async () => {
    const engine = await (kind == "addon" ? openAddon() : openWasm())
    const lines = linesOf(fs.readFileSync(new URL(file, folder), "utf8"))
    if (lines.length < 3) return
    assert.equal(answersTo(engine, lines), fs.readFileSync(new URL(file.replace(/\.in$/, ".out"), folder), "utf8"))
  })
})
