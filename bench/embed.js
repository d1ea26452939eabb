// Times the answer to a letter that one editor submits, by each way to the engine, in one run: over pipes to the process pm_live, from
// node, C and Python; and in the caller's own process by the C library, the node addon, the Python package, and the WebAssembly module
// in node and in a page of a headless Chromium. All send the same lines (letter.js), and at the end the documents of all are compared.
// Then 1,000 pending letters go over 1,000 of another in that page, beside rebaseSteps of ProseMirror's. The note says what is asked of a
// ratio. Below a time stands the processor's, of both ends, which other work on the machine changes little.
// usage: node bench/embed.js [LETTERS]      LETTERS in each run, 4000 unless told
// GEZHUFET_PREFIX names another folder than out/ that has the C library.

"use strict"

const fs = require("fs")
const os = require("os")
const path = require("path")
const {execFileSync} = require("child_process")
const {Authority} = require("../live/authority")
const {documentOf, schema, timeLetters} = require("./letter")
const {LIVE, RUNS, busy, ensure, row, title} = require("./measure")
const {chromium, openPage} = require("./page")

const LETTERS = Number(process.argv[2] || 4000), WARM = 3000
const TOP = path.join(__dirname, ".."), MODULE = path.join(TOP, "bindings", "js", "gezhufet.wasm")
const PREFIX = process.env.GEZHUFET_PREFIX || path.join(TOP, "out")

// ---- the ways: each gives the microseconds of a letter, the processor's, and the document at the end

async function overPipe(tokens) {
  const authority = new Authority(LIVE.split(" "))
  const answer = await authority.askLine([schema, documentOf(tokens)].map(line => JSON.stringify(line)).join("\n"))
  ensure(JSON.parse(answer).version === 0, `the process answers ${answer}`)
  const spent = () => busy(process.pid) + busy(authority.process.pid)
  const timed = await timeLetters(authority, {tokens, warm: WARM, letters: LETTERS, isLate: true, spent})
  await authority.close()
  return timed
}

const inNode = kind => async tokens => {
  const {openAuthority} = await import("../bindings/js/src/index.js")
  const authority = await openAuthority(schema, documentOf(tokens), {kind})
  const timed = await timeLetters(authority, {tokens, warm: WARM, letters: LETTERS, spent: () => busy(process.pid)})
  authority.close()
  return timed
}

const inPage = tab => tokens => tab.value(`letters(${JSON.stringify({tokens, warm: WARM, letters: LETTERS})})`)

// A program of bench/ that writes all three.
const ran = (program, ...words) => async tokens => {
  const env = {
    ...process.env,
    GEZHUFET_LIBRARY: `${PREFIX}/lib/libgezhufet.so`,
    PYTHONPATH: path.join(TOP, "bindings", "python"),
    PYTHONDONTWRITEBYTECODE: "1",
  }
  const options = {env, encoding: "utf8", maxBuffer: 1 << 26}
  const [figures, doc] = execFileSync(program, [...words, tokens, WARM, LETTERS].map(String), options).split("\n")
  const [micros, busyMicros] = figures.split(" ").map(Number)
  return {micros, busyMicros, doc}
}

function compiled() {
  const folder = fs.mkdtempSync(path.join(os.tmpdir(), "gezhufet-library-")), program = path.join(folder, "library")
  process.on("exit", () => fs.rmSync(folder, {recursive: true}))
  const words = ["-std=c11", "-O2", "-I", `${PREFIX}/include`, path.join(__dirname, "library.c"), `${PREFIX}/lib/libgezhufet.a`]
  execFileSync("cc", [...words, "-o", program])
  return program
}

// ---- the rows

// Each way with what it is beside, and the greatest ratio that is asked.
function waysBy(tab) {
  const c = compiled(), python = path.join(__dirname, "library.py")
  return {
    "the pipe, from node": {time: overPipe},
    "the pipe, from C": {time: ran(c, LIVE), beside: "the pipe, from node"},
    "the pipe, from Python": {time: ran("python3", python, LIVE), beside: "the pipe, from node"},
    "C": {time: ran(c, "inside"), beside: "the pipe, from node", asked: 0.25},
    "Python": {time: ran("python3", python, "inside"), beside: "the pipe, from Python", asked: 0.5},
    "the node addon": {time: inNode("addon"), beside: "the pipe, from node", asked: 0.25},
    "WebAssembly in node": {time: inNode("wasm"), beside: "the pipe, from node", asked: 0.33},
    ...(tab && {"WebAssembly in Chromium": {time: inPage(tab), beside: "the pipe, from node", asked: 0.5}}),
  }
}

async function letters(ways, tokens) {
  const found = Object.fromEntries(Object.keys(ways).map(name => [name, []]))
  for (let i = 0; i < RUNS; i++) for (const name in ways) found[name].push(await ways[name].time(tokens))
  const [{doc}] = found["the pipe, from node"]
  for (const name in found) ensure(found[name].every(it => it.doc == doc), `${name} comes to another document`)
  const of = (name, key) => found[name].map(it => it[key])
  title(`a letter in ${tokens} tokens, microseconds`, "embed.js", "the pipe")
  for (const [name, {beside, asked}] of Object.entries(ways)) {
    if (!beside) continue
    row(`${name}, beside ${beside}`, of(name, "micros"), of(beside, "micros"), {note: asked ? `asked at most ${asked}` : ""})
    // A page can't tell it.
    if (of(name, "busyMicros")[0]) row("  the processor's", of(name, "busyMicros"), of(beside, "busyMicros"))
  }
}

async function rebases(tab) {
  title("pending letters over another's in the page, ms", "embed.js", "ProseMirror")
  for (const paragraphs of [1, 5000]) {
    const of = JSON.stringify({pending: 1000, foreign: 1000, places: 1, paragraphs}), sides = [[], []]
    for (let i = 0; i < RUNS; i++) (await tab.value(`rebase(${of})`)).forEach((ms, side) => sides[side].push(ms))
    row(`1000 over 1000, in one of ${paragraphs} paragraphs`, ...sides, {note: "asked at most 0.10"})
  }
}

async function main() {
  const page = chromium() ? await openPage("embed-page.js", fs.readFileSync(MODULE)) : null
  if (!page) console.error("bench: Chromium is missing, so the rows of a page are left out")
  try {
    if (page) await page.tab.until("window.rebase !== undefined")
    const ways = waysBy(page?.tab)
    for (const tokens of [400, 4000, 400000]) await letters(ways, tokens)
    if (page) await rebases(page.tab)
  } finally {
    await page?.close()
  }
}

main().catch(error => {
  console.error(`bench: ${error.message}`)
  process.exit(1)
})
