// What the benchmarks share: runs of a program, the median of several figures with their spread, and the lines of the table.
//   RUNS=N               how often each side of a row is taken, 7 unless told
//   PROGRAM, PM_LIVE     other builds than those in crates/NAME/out

"use strict"

const fs = require("fs")
const os = require("os")
const path = require("path")
const {spawnSync} = require("child_process")

const RUNS = Number(process.env.RUNS || 7)
const built = (variable, name) => process.env[variable] || path.join(__dirname, "..", "crates", name, "out", name)
const PROGRAM = built("PROGRAM", "pm_program")
const LIVE = built("PM_LIVE", "pm_live")

// ---- runs

const folder = fs.mkdtempSync(path.join(os.tmpdir(), "gezhufet-bench-"))
process.on("exit", () => fs.rmSync(folder, {recursive: true}))
let files = 0

/// The path of a new file with these lines, each a text or a JSON value. It goes at the end.
function fileOf(lines) {
  const name = path.join(folder, String(files++))
  fs.writeFileSync(name, lines.map(line => (typeof line == "string" ? line : JSON.stringify(line)) + "\n").join(""))
  return name
}

/// Ends the benchmark where `holds` is false, so that no figure is told of work that was not done.
function ensure(holds, what) {
  if (holds) return
  console.error(`bench: ${what}`)
  process.exit(1)
}

/// The milliseconds that a call takes, and its answer.
function timed(work) {
  const start = process.hrtime.bigint(), answer = work()
  return {ms: Number(process.hrtime.bigint() - start) / 1e6, answer}
}

/// A whole run of a program from a file into a file, so that no pipe is timed: its milliseconds, the path of what it wrote, and
/// what it wrote to standard error.
function run([program, ...words], input) {
  const output = path.join(folder, "output"), stdio = [fs.openSync(input), fs.openSync(output, "w"), "pipe"]
  const {ms, answer} = timed(() => spawnSync(program, words, {stdio}))
  stdio.slice(0, 2).forEach(file => fs.closeSync(file))
  ensure(answer.status === 0, `${program} ${words.join(" ")} ended with status ${answer.status}`)
  return {ms, output, error: answer.stderr.toString()}
}

/// The same under GNU time, which takes a millisecond: also the greatest resident memory in MB, and the milliseconds of all
/// processors.
function weighed(command, input) {
  const ran = run(["/usr/bin/time", "-f", "%M %U %S", ...command], input)
  const [kilobytes, user, system] = ran.error.trim().split("\n").pop().split(" ").map(Number)
  return {...ran, megabytes: kilobytes / 1024, busy: 1000 * (user + system)}
}

/// The processor's time that a process took so far, its threads and all, in nanoseconds.
function busy(pid) {
  const tasks = `/proc/${pid}/task`
  const times = fs.readdirSync(tasks).map(task => fs.readFileSync(`${tasks}/${task}/schedstat`, "utf8"))
  return times.reduce((sum, text) => sum + Number(text.split(" ")[0]), 0)
}

/// Plays a session by the program.
const play = (word, session) => weighed([PROGRAM, word], session)

/// What a run wrote, as a text.
const written = ran => fs.readFileSync(ran.output, "utf8")

/// The figures of so many runs of each side, which take turns, so that what else the machine does meets all of them alike.
function inTurn(sides, runs = RUNS) {
  const figures = sides.map(() => [])
  for (let i = 0; i < runs; i++) sides.forEach((side, at) => figures[at].push(side(i)))
  return figures
}

// ---- the table

/// The median.
const middle = figures => [...figures].sort((a, b) => a - b)[figures.length >> 1]

// Three digits or more, and two below 1.
function shown(n) {
  const size = Math.abs(n), text = size < 1 ? n.toPrecision(2) : n.toFixed(size < 10 ? 2 : size < 100 ? 1 : 0)
  return text.padStart(9)
}

const spread = figures => [middle(figures), Math.min(...figures), Math.max(...figures)].map(shown).join("")

/// The head of some rows: the script, what they tell and in which unit, and what stands beside ours; nothing where that is empty.
function title(what, script, beside = "ProseMirror") {
  const heads = ["ours", "least", "most"].map(word => word.padStart(9)).join("")
  const others = beside && [beside.padStart(12), "    least", "     most", "   ratio"].join("")
  console.log(`\n${`${script}: ${what}`.padEnd(54)}${heads}${others}`)
}

/// A row: the medians of both sides, each with its least and greatest figure, and how many times longer ours took. Where more is
/// better, as letters in a second, it is how many times less ours got done.
function row(what, ours, beside = [], {isSpeed = false, note = ""} = {}) {
  const [first, second] = isSpeed ? [beside, ours] : [ours, beside]
  const ratio = beside.length ? (middle(first) / middle(second)).toFixed(2) : ""
  const others = beside.length ? spread(beside) : " ".repeat(27)
  console.log(`${what.padEnd(54)}${spread(ours)}   ${others}${ratio.padStart(8)}  ${note}`.trimEnd())
}

module.exports = {RUNS, PROGRAM, LIVE, fileOf, ensure, timed, run, weighed, busy, play, written, inTurn, middle, title, row}
