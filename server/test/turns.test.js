// Whose steps a document takes next.

import assert from "node:assert/strict"
import {test} from "node:test"
import {setImmediate as later} from "node:timers/promises"
import {Turns} from "../turns.js"
import {Clock} from "./clock.js"
import {relayTo} from "./network.js"
import {serve} from "./servers.js"
import {join} from "./talker.js"
import {many} from "./together.js"
import {within} from "./waiting.js"

const STALE = {version: 1}, ACCEPTED = {accepted: {count: 1, from: 1}}

// Some who come to a document, and the order in which they have their turns.
async function comers(work) {
  const clock = new Clock(), turns = new Turns(), had = [], all = Object.fromEntries([..."abc"].map(name => [name, {name}]))
  const come = async name => {
    turns.take(all[name]).then(() => had.push(name))
    await later()
  }
  const end = async (name, answer) => {
    turns.end(all[name], answer)
    await later()
  }
  try {
    await work({come, end, leave: name => turns.leave(all[name]), pass: () => clock.pass(1_000), had: () => had.join("")})
  } finally {
    clock.end()
  }
}

test("they have their turns as they came, and who has to come again does so first", () => comers(async ({come, end, had}) => {
  for (const name of "abc") await come(name)
  assert.equal(had(), "a")
  await end("a", ACCEPTED)
  await end("b", STALE)
  await come("a")
  assert.equal(had(), "ab")
  await come("b")
  assert.equal(had(), "abb")
  await end("b", ACCEPTED)
  await end("c", {})
  assert.equal(had(), "abbca")
  await end("a", {refused: {index: 0, reason: 1}})
  await come("c")
  assert.equal(had(), "abbcac")
}))

test("who three times does not come again is not waited for, until something of it is accepted", () => comers(async given => {
  const {come, end, pass, had} = given
  // Whether another waits until the time has passed.
  const isWaitedFor = async () => {
    const before = had()
    await come("a")
    await end("a", STALE)
    await come("b")
    const isHeld = had() == `${before}a`
    pass()
    await later()
    assert.equal(had(), `${before}ab`)
    await end("b", ACCEPTED)
    return isHeld
  }
  for (const isHeld of [true, true, true, false, false]) assert.equal(await isWaitedFor(), isHeld)
  await come("a")
  await end("a", ACCEPTED)
  assert.equal(await isWaitedFor(), true)
}))

test("who leaves is not waited for", () => comers(async ({come, end, leave, had}) => {
  await come("a")
  await come("b")
  leave("a")
  assert.equal(had(), "a")
  await end("a", STALE)
  leave("b")
  leave("a")
  await later()
  assert.equal(had(), "ab")
  await end("b", {})
}))

// Writes letters one after the other, until it has so many or all is done.
async function write(talker, count, isDone) {
  for (let version = talker.welcome.version, had = 0; had < count && !isDone();) {
    const {accepted, version: length} = await talker.submit(version, "x")
    version = length ?? version + 1
    if (accepted) had++
  }
}

test("one who is far away has its turn among those who are near", async () => {
  const server = await serve(many), relay = await relayTo(server.port, () => 80)
  const far = await join(relay.address, "apart", "far")
  const near = await Promise.all([1, 2, 3].map(i => join(server.address, "apart", `near${i}`)))
  let isDone = false
  const others = near.map(it => write(it, Infinity, () => isDone))
  await within(write(far, 5, () => false), "five letters of the far one")
  isDone = true
  await Promise.all(others)
  await Promise.all([far, ...near].map(it => it.close()))
  await relay.close()
  await server.stop()
})
