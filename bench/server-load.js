// Loads the server with editors that type, in memory and over a folder, by a log for each document or a house of all, and with the same a
// relay that checks nothing, and one that keeps the documents of Yjs (load-relay.js). Tells how long it takes until the others have a
// letter, the memory, and the processor's time. At the end each document has all its letters.
// usage: node bench/server-load.js [EDITORS] [DOCUMENTS] [SECONDS] [SIDE..]
//   2000, 200 and 600 unless told, two letters a second; the sides are memory, folder, house, relay and yjs, one after the other
// The variable PM_LIVE names another program than the one that is built, FOLDER where the folder is made. Others are the server's own.

"use strict"

const fs = require("fs")
const path = require("path")
const {fork, spawn} = require("child_process")
const {ensure, LIVE} = require("./measure")

const [EDITORS, DOCUMENTS, SECONDS] = [2000, 200, 600].map((standing, i) => Number(process.argv[2 + i] || standing))
const LETTERS = 2, LOADERS = 2, SECRET = "the-secret-of-a-load-that-nobody-keeps"
const EACH = Math.round(EDITORS / DOCUMENTS)
const FOLDER = path.join(process.env.FOLDER || path.join(__dirname, "..", "out"), `server-load-${process.pid}`)

const names = Array.from({length: DOCUMENTS}, (_, i) => `load-${process.pid}-${i}`)
const pause = milliseconds => new Promise(resolve => setTimeout(resolve, milliseconds))

// ---- a process and what it started

const childrenOf = pid => fs.readdirSync(`/proc/${pid}/task`).flatMap(task =>
  fs.readFileSync(`/proc/${pid}/task/${task}/children`, "utf8").split(" ").filter(it => it).map(Number))

const treeOf = pid => [pid, ...childrenOf(pid).flatMap(treeOf)]

// The processor's time that they took and those of them that have ended, in seconds, and the greatest resident memory in MB.
function spentBy(pid) {
  const hundredths = treeOf(pid).map(it => {
    const fields = fs.readFileSync(`/proc/${it}/stat`, "utf8").split(") ").pop().split(" ")
    return fields.slice(11, 15).reduce((sum, field) => sum + Number(field), 0)
  })
  const kilobytes = treeOf(pid).map(it => Number(/VmHWM:\s+(\d+)/.exec(fs.readFileSync(`/proc/${it}/status`, "utf8"))[1]))
  const sum = figures => figures.reduce((a, b) => a + b, 0)
  return {seconds: sum(hundredths) / 100, megabytes: sum(kilobytes) / 1024}
}

// ---- the sides

function startOurs(store) {
  const env = {
    GEZHUFET_PROGRAM: LIVE, ...process.env, GEZHUFET_PORT: "0", GEZHUFET_SECRET: SECRET, GEZHUFET_STORE: store, GEZHUFET_FOLDER: FOLDER,
  }
  const child = spawn(process.execPath, [path.join(__dirname, "..", "server", "main.js")], {env, stdio: ["ignore", "inherit", "pipe"]})
  return started(child, child.stderr, text => /"event":"listening".*?"port":(\d+)/.exec(text)?.[1])
}

function startTheirs(kind) {
  const child = spawn(process.execPath, [path.join(__dirname, "load-relay.js"), kind], {stdio: ["ignore", "pipe", "inherit"]})
  return started(child, child.stdout, text => /^(\d+)\n/.exec(text)?.[1])
}

function started(child, output, portIn) {
  return new Promise((resolve, reject) => {
    let [text, port] = ["", null]
    output.setEncoding("utf8").on("data", part => {
      text = (text + part).slice(-100000)
      if (port) return
      port = portIn(text)
      if (port) resolve({child, address: `http://127.0.0.1:${port}`})
    })
    child.on("exit", status => reject(new Error(`it ended with ${status}: ${text}`)))
  })
}

// The letters of a document, as the side itself has them.
async function lengthOurs(address, name) {
  const {signToken} = await import("../server/tokens.js")
  const token = signToken(SECRET, {user: "reader", documents: {"*": "read"}, expires: Date.now() + 3600000})
  const response = await fetch(`${address}/documents/${name}`, {headers: {Authorization: `Bearer ${token}`}})
  const {doc, error} = await response.json()
  return doc ? JSON.stringify(doc).match(/"text":"[^"]*"/g).reduce((sum, it) => sum + it.length - 9, 0) : error.message
}

const lengthTheirs = async (address, name) => (await (await fetch(`${address}/${name}`)).json()).length

const OURS = {kind: "ours", start: startOurs, lengthOf: lengthOurs}, THEIRS = {kind: "theirs", start: startTheirs, lengthOf: lengthTheirs}

const SIDES = {
  memory: {...OURS, title: "server in memory"},
  folder: {...OURS, title: "server over a folder"},
  house: {...OURS, title: "server over a house"},
  relay: {...THEIRS, title: "relay"},
  yjs: {...THEIRS, title: "Yjs"},
}

// ---- what is measured

function startLoader(kind, address, own) {
  const loader = fork(path.join(__dirname, "load-editors.js"))
  const heard = key => new Promise((resolve, reject) => {
    loader.on("message", message => { if (message[key]) resolve(message) })
    loader.on("exit", status => reject(new Error(`a loader ended with ${status}`)))
  })
  const ready = heard("ready"), done = heard("counts")
  done.catch(() => {})
  loader.send({kind, address, names: own, each: EACH, seconds: SECONDS, letters: LETTERS, secret: SECRET})
  return {loader, ready, done}
}

// The time within which so many of a hundred letters came, in milliseconds.
function within(counts, percent) {
  const sorted = [...counts].sort(([a], [b]) => a - b), all = sorted.reduce((sum, [, count]) => sum + count, 0)
  let seen = 0
  return sorted.find(([, count]) => (seen += count) >= all * percent / 100)[0] / 10
}

async function load(name) {
  const {kind, start, lengthOf} = SIDES[name], {child, address} = await start(name)
  const loaders = Array.from({length: LOADERS}, (_, i) => startLoader(kind, address, names.filter((_it, at) => at % LOADERS == i)))
  await Promise.all(loaders.map(it => it.ready))
  const before = spentBy(child.pid), begin = Date.now()
  for (const {loader} of loaders) loader.send("go")
  const reports = await Promise.all(loaders.map(it => it.done)), took = (Date.now() - begin) / 1000
  const after = spentBy(child.pid), counts = new Map()
  for (const [tenths, count] of reports.flatMap(it => it.counts)) counts.set(tenths, (counts.get(tenths) || 0) + count)
  const lacking = reports.reduce((sum, it) => sum + it.lacking, 0)
  ensure(lacking == 0, `${name}: in ${lacking} documents letters are lacking`)
  for (const document of names) {
    const length = await lengthOf(address, document)
    ensure(length == EACH * SECONDS * LETTERS, `${name}: ${document} has ${length} letters`)
  }
  await ended(child)
  const sent = reports.reduce((sum, it) => sum + it.sent, 0), letters = EACH * DOCUMENTS * SECONDS * LETTERS
  const seconds = after.seconds - before.seconds
  return {
    half: within(counts, 50), most: within(counts, 99), megabytes: after.megabytes, seconds,
    letter: 1e6 * seconds / letters, processors: seconds / took, letters: letters / took, sent: sent / letters,
  }
}

function ended(child) {
  child.removeAllListeners("exit")
  child.kill()
  return new Promise(resolve => child.on("exit", resolve))
}

// A row of BENCH.md.
function row(what, measured, key, digits) {
  console.log(`| ${what} | ${measured.map(it => it[key].toFixed(digits)).join(" | ")} |`)
}

async function main() {
  const sides = process.argv.slice(5).length ? process.argv.slice(5) : Object.keys(SIDES), measured = []
  for (const side of sides) {
    measured.push(await load(side))
    fs.rmSync(FOLDER, {recursive: true, force: true})
    await pause(1000)
  }
  const what = `${EACH * DOCUMENTS} editors, ${DOCUMENTS} documents, ${SECONDS} s, ${LETTERS} letters a second each`
  console.log(`| **server-load.js**: ${what} | ${sides.map(it => SIDES[it].title).join(" | ")} |\n|---${"|---".repeat(sides.length)}|`)
  row("ms until the others have a letter, median", measured, "half", 1)
  row("of 99 of 100", measured, "most", 1)
  row("seconds of a processor", measured, "seconds", 1)
  row("µs of it for a letter", measured, "letter", 0)
  row("processors at work", measured, "processors", 2)
  row("greatest memory, MB", measured, "megabytes", 0)
  row("letters a second", measured, "letters", 0)
  row("messages sent for a letter", measured, "sent", 2)
}

main().catch(error => {
  console.error(`bench: ${error.stack}`)
  process.exit(1)
})
