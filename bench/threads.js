// Times the word `run`, in which each client has a thread of its own, beside the word `replay`, on one session in which clients
// mostly work by themselves: each types and undoes letters in its paragraph, and once in so many lines it pulls and pushes. In
// the file's order no two do so at once, so that each push is accepted; under `run` some come late. Both are whole runs of the
// program. The time of all processors over that on the wall is how many worked at once.
// usage: node bench/threads.js [CLIENTS [LINES]]      so many lines a client

"use strict"

const {ensure, fileOf, inTurn, middle, play, row, title, written} = require("./measure")

const [clients, lines] = [32, 500].map((n, i) => Number(process.argv[i + 2] || n))
const each = 100

const types = {nodes: [{name: "doc", content: "paragraph+"}, {name: "paragraph", content: "text*"}, {name: "text"}]}
const paragraph = {type: "paragraph", content: [{type: "text", text: "abcdefghij".repeat(4)}]}
const names = Array.from({length: clients}, (_, i) => "c" + (i + 1))

// What a client does on its line of this number.
function act(client, line) {
  const turn = (line + 3 * client) % each
  if (turn > each - 3) return {c: names[client], op: turn == each - 1 ? "push" : "pull"}
  if (line % 3 == 2) return {c: names[client], op: "undo"}
  const from = 42 * client + 1
  return {c: names[client], op: "text", from, to: from, text: "x"}
}

const acts = Array.from({length: lines * clients}, (_, i) => act(i % clients, Math.floor(i / clients)))
const session = fileOf([types, {type: "doc", content: Array(clients).fill(paragraph)}, names, ...acts])
const worked = []

const seconds = word => () => {
  const ran = play(word, session), isRun = word == "run"
  ensure(isRun == written(ran).startsWith("order "), `the report of ${word} begins otherwise`)
  if (isRun) worked.push(ran.busy / ran.ms)
  return ran.ms / 1000
}
const figures = inTurn([seconds("run"), seconds("replay")])
title("the word run, seconds", "threads.js", "replay")
row(`${clients} clients, ${lines} lines each, a push in ${each}`, ...figures, {note: `${middle(worked).toFixed(2)} processors worked`})
