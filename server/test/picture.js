// Makes the picture of the page for README: three at one document, with comments.
// usage: NODE_PATH=/usr/share/nodejs node server/test/picture.js [FILE] [light | dark]     docs/use/server.png unless told

import fs from "node:fs"
import {createRequire} from "node:module"
import {startServer} from "../server.js"
import {pause, Writer} from "./writer.js"

const {Browser, chromium} = createRequire(import.meta.url)("../../live/page/chromium.js")
const DOCUMENT = "spring-meeting"

async function write(ann) {
  await ann.insert("Spring meeting")
  await ann.press("Ctrl-Alt-1", "Enter")
  await ann.insert("We meet on the first Friday of May, at noon, in the garden. Please say by Monday what you bring.")
  await ann.press("Enter", "Ctrl-Shift-8")
  for (const line of ["Ann: bread and salt", "Bob: milk, two litres", "Carla: a kite"]) {
    await ann.insert(line)
    await ann.press("Enter")
  }
  await ann.press("Enter")
  await ann.insert("If it rains")
  await ann.press("Ctrl-Alt-2", "Enter")
  await ann.insert("Then we meet in the hall, as last year. Its key is with the neighbours.")
  await ann.select("first Friday")
  await ann.press("Ctrl-b")
  await ann.select("as last year")
  await ann.press("Ctrl-i")
  await ann.select("the hall")
  await ann.press("Ctrl-k")
  await ann.insert("https://hall.example/")
  await ann.press("Enter")
}

async function comment(writer, on, text) {
  await writer.select(on)
  await writer.press("Ctrl-Alt-m")
  await writer.insert(text)
  await writer.press("Ctrl-Enter")
  await pause(300)
}

async function make(browser, address) {
  const open = (name, color) => Writer.open(browser, {address}, DOCUMENT, name, {color, width: 1120, height: 600})
  const ann = await open("Ann", "#1f5fbf")
  await write(ann)
  const bob = await open("Bob", "#a8420c"), carla = await open("Carla", "#22703a")
  await comment(bob, "two litres", "Is that enough?")
  await comment(carla, "the neighbours", "They are away in May.")
  await ann.value("document.querySelector('#comments input').focus()")
  await ann.insert("Bring three!")
  await ann.press("Enter")
  await bob.select("by Monday")
  await carla.after("a kite")
  await ann.after("at noon")
  await pause(1000)
  return ann
}

async function main(file = "docs/use/server.png", scheme = "light") {
  const secret = ["a-secret-of-a-picture-alone"]
  const server = await startServer({port: 0, store: "memory", engines: 1, open: true, secret, logLevel: "error"})
  const browser = new Browser(chromium())
  try {
    const {tab} = await make(browser, server.address)
    await tab.call("Emulation.setEmulatedMedia", {features: [{name: "prefers-color-scheme", value: scheme}]})
    fs.writeFileSync(file, await tab.picture())
  } finally {
    await browser.close()
    await server.stop()
  }
}

await main(...process.argv.slice(2))
