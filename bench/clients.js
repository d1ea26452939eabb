// Times the word `replay` on a session in which many clients edit one place: in turn each types eight letters at the front of the
// one paragraph, pulls and pushes. So each letter is taken by all other clients. Tells the seconds and the greatest memory of the
// program alone. A run takes long, so it is taken three times and no more.
// usage: node bench/clients.js [CLIENTS [LINES]]      so many lines a client

"use strict"

const {RUNS, ensure, fileOf, inTurn, middle, play, row, title, written} = require("./measure")

const [clients, lines] = [32, 3000].map((n, i) => Number(process.argv[i + 2] || n))
const letters = 8, turn = letters + 2
const names = Array.from({length: clients}, (_, i) => "c" + (i + 1))

function act(c, line) {
  if (line % turn < letters) return {c, op: "text", from: 1, to: 1, text: "x"}
  return {c, op: line % turn == letters ? "pull" : "push"}
}

// Client after client has a whole turn.
function session() {
  const types = {nodes: [{name: "doc", content: "paragraph+"}, {name: "paragraph", content: "text*"}, {name: "text"}]}
  const acts = []
  for (let start = 0; start < lines; start += turn)
    for (const c of names) for (let line = start; line < Math.min(start + turn, lines); line++) acts.push(act(c, line))
  return fileOf([types, null, names, ...acts])
}

const input = session(), megabytes = []
const seconds = () => {
  const ran = play("replay", input)
  ensure(written(ran).includes(`\nlog ${clients * Math.floor(lines / turn) * letters}\n`), "a letter is missing in the log")
  megabytes.push(ran.megabytes)
  return ran.ms / 1000
}
const runs = Math.min(RUNS, 3), [figures] = inTurn([seconds], runs)

title(`one place for all, seconds, ${runs} runs`, "clients.js", "")
row(`${clients} clients, ${lines} lines each`, figures, [], {note: `${middle(megabytes).toFixed(1)} MB`})
