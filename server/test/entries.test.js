// Entries are cut out of the engine's answers as texts, and written as they came.

import assert from "node:assert/strict"
import {test} from "node:test"
import {back, entriesIn, front, textOf} from "../store/entries.js"
import {random} from "./random.js"

const TEXTS = ["a\"b", "\\", "]", "},{", "", "\\\"", "ä\n\u2028", "[[", ",", "\"],\"steps\":["]

function valueOf(pick, levels) {
  const kind = pick(levels > 3 ? 2 : 4)
  if (kind == 0) return pick(100)
  if (kind == 1) return TEXTS[pick(TEXTS.length)]
  const items = Array.from({length: pick(4)}, () => valueOf(pick, levels + 1))
  return kind == 2 ? items : Object.fromEntries(items.map((it, i) => [`${TEXTS[pick(TEXTS.length)]}${i}`, it]))
}

const read = ({clientIDs, steps, version}) =>
  ({clientIDs: clientIDs.map(it => JSON.parse(it)), steps: steps.map(it => JSON.parse(it)), version})

test("entries of all kinds are those of the answer", () => {
  const draw = random(11), pick = below => Math.floor(draw() * below)
  for (let times = 0; times < 5_000; times++) {
    const count = pick(4), list = make => Array.from({length: count}, make)
    const value = {clientIDs: list(() => TEXTS[pick(TEXTS.length)]), steps: list(() => valueOf(pick, 0)), version: count + pick(1_000)}
    const json = JSON.stringify(value), entries = entriesIn(json)
    assert.deepEqual(read(entries), value)
    assert.equal(textOf(entries), json)
    assert.deepEqual(read(back(entries, value.version)), {clientIDs: [], steps: [], version: value.version})
    assert.equal(front(entries, 1).steps.length, Math.min(count, 1))
  }
})

test("a fault is no entries, and what is cut off ends", () => {
  assert.throws(() => entriesIn('{"fault":"memory"}'), {code: "store"})
  const json = JSON.stringify({clientIDs: ["a"], steps: [{text: "b"}], version: 1})
  for (let length = 0; length < json.length; length++) {
    try {
      entriesIn(json.slice(0, length))
    } catch (error) {
      assert.equal(error.code, "store")
    }
  }
})
