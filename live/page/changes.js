// What changed, in words: the log's steps, gathered by the event of the editor that made them.

"use strict"

const MOST = 40

const textOf = ({text = "", content = []}) => text + content.map(textOf).join("")

const quoted = text => `“${text.length > MOST ? text.slice(0, MOST) + "…" : text}”`

// Of a replacement its kind, and what it put in.
function replaced({from, to, slice}) {
  if (!slice) return ["removed", ""]
  const text = textOf(slice)
  if (text) return [to > from ? "replaced by" : "wrote", text]
  return slice.openStart ? ["split a block", ""] : ["inserted", slice.content[0].type.replace("_", " ")]
}

function did(step) {
  switch (step.stepType) {
    case "replace": return replaced(step)
    case "replaceAround": return ["changed a block", ""]
    case "addMark": return [`made ${step.mark.type}`, ""]
    case "removeMark": return [`made not ${step.mark.type}`, ""]
    default: return [step.stepType, ""]
  }
}

/// What some steps did: `wrote “a word”, split a block`.
function inWords(steps) {
  const parts = []
  for (const [kind, text] of steps.map(did)) {
    const last = parts[parts.length - 1]
    if (last && last.kind == kind) {
      last.text += text
      last.count++
    } else parts.push({kind, text, count: 1})
  }
  const shown = parts.map(({kind, text, count}) => (text ? `${kind} ${quoted(text)}` : count > 1 ? `${kind} (${count})` : kind))
  return shown.length > 3 ? `${shown.slice(0, 3).join(", ")} …` : shown.join(", ")
}

/// The changes of a log: `entries` are `{pane, event, step}`. Steps of one event are one change, also where others' stand between them;
/// steps of undo, of event 0, are one where they stand together.
function changesOf(entries) {
  const changes = [], open = new Map()
  entries.forEach(({pane, event, step}, at) => {
    const last = changes[changes.length - 1]
    const known = event ? open.get(`${pane} ${event}`) : last && last.event == 0 && last.pane == pane && last.to == at ? last : null
    const change = known || {pane, event, from: at, steps: []}
    change.steps.push(step)
    change.to = at + 1
    if (known) return
    changes.push(change)
    if (event) open.set(`${pane} ${event}`, change)
  })
  return changes
}

module.exports = {changesOf, inWords}
