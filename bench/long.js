// Times edits of one long paragraph beside ProseMirror's, and tells how they grow with it (docs/change/GROWTH.md).
//
// Letters, marks, cuts and pastes: what lines of `step` add to a whole run of the word `replay`, which is the client's edit with
// its inverse, the authority's edit, and the report's line. Beside it are ProseMirror's invert and apply of the same steps for the
// client and its apply for the authority. So that the paragraph stays about as long as it is, 100 letters are typed one after
// another in the middle, and then one step takes them out; a word in the middle is marked and unmarked by turns; and the second
// half is cut and pasted at the front. The lines of pastes hold half of the paragraph, so there reading each line as JSON counts
// on ProseMirror's side too.
//
// The check: the word `check` on one text of 500,000 letters. Beside it are /bin/cat on the same input, which is what a process
// costs that reads it, and then ProseMirror's JSON, `Node.fromJSON` and `check` of the same lines.
//
// Memory: the greatest of `replay` with 2,000 letters typed in the middle of 400,000. Pending: a whole `replay` in which a client
// has 99,000 letters pending, typed in one place, when it takes a letter of another.
//
// usage: node bench/long.js [ROW..]      all rows, or those of letters, marks, pastes, check, memory and pending

"use strict"

const {Node} = require("prosemirror-model")
const {Step} = require("prosemirror-transform")
const {schemaOf} = require("./collab")
const {RUNS, PROGRAM, ensure, fileOf, inTurn, middle, play, row, run, timed, title, written} = require("./measure")

const types = {
  marks: [{name: "strong"}],
  nodes: [{name: "doc", content: "p+"}, {name: "p", content: "text*"}, {name: "text"}],
  version: 2,
}
const SIZES = [1000, 100000, 400000]
// How many letters are typed before a step takes them out.
const TYPED = 100
// How much longer a line may take in the longest paragraph than in the shortest.
const GROWTH = 1.5

const lettersOf = count => "abcdefghij".repeat(count / 10 + 1).slice(0, count)
const text = letters => ({text: letters, type: "text"})
const paragraph = count => ({content: [{content: [text(lettersOf(count))], type: "p"}], type: "doc"})
const listOf = (count, make) => Array.from({length: count}, (_, i) => make(i))
const lineOf = step => JSON.stringify({c: "ann", op: "step", step})
const replace = (from, to, letters) => ({stepType: "replace", from, to, ...letters && {slice: {content: [text(letters)]}}})

// ---- what an edit of each kind is, in a paragraph of so many letters, where others of its kind were made before

function letter(i, count) {
  const first = (count >> 1) + 1, at = first + i % (TYPED + 1)
  return i % (TYPED + 1) == TYPED ? replace(first, at) : replace(at, at, "x")
}

function mark(i, count) {
  const from = (count >> 1) + 1
  return {stepType: i % 2 ? "removeMark" : "addMark", mark: {type: "strong"}, from, to: from + 5}
}

// A cut and its paste are two lines. After each pair the halves have changed places.
function paste(i, count) {
  const half = count >> 1, all = lettersOf(count), halves = [all.slice(0, half), all.slice(half)]
  return i % 2 ? replace(1, 1, halves[1 - (i >> 1) % 2]) : replace(half + 1, count + 1)
}

// ---- lines of a replay

function milliseconds(session, made) {
  const ran = play("replay", session)
  ensure((written(ran).match(/^\d+ made 1$/gm) || []).length == made, "a step was not made")
  return ran.ms
}

const sessionOf = (count, lines) => fileOf([types, paragraph(count), ["ann"], JSON.stringify({c: "ann", op: "push"}), ...lines])

function theirs(doc, steps) {
  let client = doc, authority = doc
  for (const step of steps) {
    step.invert(client)
    client = step.apply(client).doc
  }
  for (const step of steps) authority = step.apply(authority).doc
  return client.eq(authority)
}

// The microseconds of `each` lines in paragraphs of each size, ours and ProseMirror's: of a run with so many lines and ProseMirror's loop
// of so many, which are told for each size.
function measure(make, each, ours, others, reads = false) {
  const schema = schemaOf(types), bases = SIZES.map(() => 0)
  const sides = SIZES.flatMap((count, at) => {
    const lines = listOf(ours[at], i => lineOf(make(i, count))), session = sessionOf(count, lines), without = sessionOf(count, [])
    const doc = Node.fromJSON(schema, paragraph(count)), theirLines = lines.slice(0, others[at])
    const stepsOf = () => theirLines.map(line => Step.fromJSON(schema, JSON.parse(line).step)), steps = stepsOf()
    return [
      () => { bases[at] = Math.min(milliseconds(without, 0), milliseconds(without, 0)) },
      () => 1000 * each * (Math.min(milliseconds(session, ours[at]), milliseconds(session, ours[at])) - bases[at]) / ours[at],
      () => 1000 * each * timed(() => ensure(theirs(doc, reads ? stepsOf() : steps), "ProseMirror's documents differ")).ms / others[at],
    ]
  })
  const figures = inTurn(sides)
  return SIZES.map((_, at) => figures.slice(3 * at + 1, 3 * at + 3))
}

// The rows of a kind, with what is asked of each: at most so much of ProseMirror's time.
function rowsOf(what, figures, asked, grows) {
  figures.forEach(([ours, other], at) => {
    const grown = middle(ours) / middle(figures[0][0]), last = at == SIZES.length - 1
    const growth = grows && last ? `, x${grown.toFixed(2)}, at most x${GROWTH.toFixed(2)}` : ""
    row(at ? `  ${SIZES[at]}` : `${what}, ${SIZES[at]}`, ours, other, {note: `at most ${asked[at].toFixed(2)}${growth}`})
  })
}

// ---- the rows

const lines = "a line in a paragraph of N letters, microseconds"
const ROWS = {
  letters: () => {
    title(lines, "long.js")
    rowsOf("a letter typed in the middle", measure(letter, 1, [20200, 8080, 8080], [8080, 2020, 1010]), [0.5, 0.25, 0.25], true)
  },
  marks: () => {
    title(lines, "long.js")
    rowsOf("a word marked in the middle", measure(mark, 1, [20000, 8000, 8000], [8000, 2000, 1000]), [0.5, 0.25, 0.25], true)
  },
  pastes: () => {
    title("half a paragraph cut and pasted 20 times, microseconds", "long.js")
    rowsOf("of letters", measure(paste, 40, [4000, 80, 80], [4000, 80, 80], true), [1, 1, 1], false)
  },
  check: () => {
    const input = [types, paragraph(500000), ["a"]].map(line => JSON.stringify(line)), file = fileOf(input)
    const read = () => {
      const doc = Node.fromJSON(schemaOf(JSON.parse(input[0])), JSON.parse(input[1]))
      doc.check()
      return doc.content.size
    }
    const ours = () => {
      const ran = run([PROGRAM, "check"], file)
      ensure(written(ran) == `ok 0 ${read()}\n`, "the two sides differ")
      return ran.ms
    }
    const [mine, others, floor] = inTurn([ours, () => timed(read).ms, () => run(["/bin/cat"], file).ms])
    title("the word check, milliseconds", "long.js", "cat + parse")
    row("one text of 500,000 letters", mine, others.map((ms, i) => ms + floor[i]), {note: `cat: ${middle(floor).toFixed(1)}, at most 1.50`})
  },
  memory: () => {
    const session = sessionOf(400000, listOf(2000, i => lineOf(replace(200001 + i, 200001 + i, "x"))))
    const [megabytes] = inTurn([() => play("replay", session).megabytes])
    title("greatest memory, MB", "long.js", "")
    row("2,000 letters typed in the middle of 400,000", megabytes, [], {note: "at most 12"})
  },
  pending: () => {
    const typed = (c, at) => ({c, op: "text", from: at, to: at, text: "x"})
    const turn = [{c: "bob", op: "push"}, {c: "ann", op: "pull"}]
    const session = fileOf([types, paragraph(400), ["ann", "bob"], ...listOf(99000, i => typed("ann", 201 + i)), typed("bob", 1), ...turn])
    const [seconds] = inTurn([() => {
      const ran = play("replay", session)
      ensure(/rebased 0 1 0/.test(written(ran)), "ann did not keep her steps")
      return ran.ms / 1000
    }], Math.min(RUNS, 3))
    title(`pending letters in a replay, seconds, ${seconds.length} runs`, "long.js", "")
    row("99,000 in one place over a letter of another", seconds, [], {note: "at most 3.00"})
  },
}

const told = process.argv.slice(2)
ensure(told.every(name => ROWS[name]), `the rows are: ${Object.keys(ROWS).join(" ")}`)
for (const name of told.length ? told : Object.keys(ROWS)) ROWS[name]()
