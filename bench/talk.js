// Times the client's talk of the engine in WebAssembly, by the JavaScript package, in node and in a page of a headless Chromium: 1,000
// pending letters that go over 1,000 of another, and one typed letter. Beside it ProseMirror in the same process: pending steps rebased
// as rebaseSteps of prosemirror-collab does it, and a letter that a state without plugins applies.
// usage: node bench/talk.js      the variable WASM names another module than out/gezhufet.wasm

"use strict"

const fs = require("fs")
const path = require("path")
const {RUNS, ensure, row, title} = require("./measure")
const {chromium, openPage} = require("./page")
const {measure} = require("./talk-work")

const MODULE = process.env.WASM || path.join(__dirname, "..", "out", "gezhufet.wasm")

async function inNode(bytes) {
  const {openEngine} = await import("../bindings/js/src/index.js")
  return measure(await openEngine({module: bytes}), RUNS)
}

async function inPage(bytes) {
  const {tab, close} = await openPage("talk-page.js", bytes)
  try {
    await tab.until("window.measure !== undefined")
    await tab.value(`void measure(${RUNS}).then(it => { window.figures = it }, error => { window.figures = String(error) })`)
    await tab.until("window.figures !== undefined", 600000)
    return await tab.value("window.figures")
  } finally {
    await close()
  }
}

const UNITS = {ms: "pending steps over others', milliseconds", us: "a letter by the client's talk, microseconds"}

async function main() {
  ensure(fs.existsSync(MODULE), `${MODULE} is not built; ./pm wasm builds it`)
  const bytes = fs.readFileSync(MODULE)
  const places = [["node", await inNode(bytes)], ...(chromium() ? [["Chromium", await inPage(bytes)]] : [])]
  for (const unit of Object.keys(UNITS)) {
    title(UNITS[unit], "talk.js")
    for (const [where, rows] of places) {
      ensure(Array.isArray(rows), `in ${where}: ${rows}`)
      for (const it of rows) if (it.unit == unit) row(`${where}: ${it.what}`, ...it.figures)
    }
  }
}

main()
