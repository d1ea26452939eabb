// Readers that read slowly, or never: they hold up nobody, and take no memory that grows.

import assert from "node:assert/strict"
import {test} from "node:test"
import {serve} from "./servers.js"
import {join} from "./talker.js"
import {until} from "./waiting.js"

const paused = server => Number(/^gezhufet_readers_paused_total (\d+)$/m.exec(server.counts.metrics.text())?.[1] ?? 0)

test("one who never reads is told no more, and let go", async () => {
  const server = await serve({slowBytes: 100_000, slowSeconds: 1, messageBurst: 10_000, bytesPerSecond: 1e9, commentText: 400_000})
  const [ann, bob, carl] = await Promise.all(["ann", "bob", "carl"].map(it => join(server.address, "slow", it)))
  carl.socket.pause()
  // (the system keeps some megabytes between the two)
  const text = "x".repeat(300_000), hasLeft = () => server.lines.some(it => it.event == "left")
  for (let count = 0; count < 100 && !hasLeft(); count++) await ann.ask({op: "comment", version: 0, from: 1, to: 1, text})
  await until(hasLeft, "the end of who never reads")
  assert.ok(paused(server) >= 1)
  assert.match(server.counts.metrics.text(), /^gezhufet_errors_total\{code="slow"\} 1$/m)
  assert.equal(server.users.connections, 2)
  // The others go on.
  assert.deepEqual(await ann.submit(0, "a"), {accepted: {count: 1, from: 0}})
  await bob.heard(it => it.op == "entries" && it.entries.version == 1)
  await Promise.all([ann, bob].map(it => it.close()))
  await server.stop()
})

test("one who has read is told the rest, in order", async () => {
  const server = await serve({slowBytes: 2_000, messageBytes: 3_000, entriesAtHand: 50, messageBurst: 10_000})
  const ann = await join(server.address, "slowly", "ann")
  for (let version = 0; version < 150; version++) await ann.submit(version, "x".repeat(100))
  const carl = await join(server.address, "slowly", "carl", {hello: {version: 0, epoch: ann.welcome.epoch}})
  await carl.heard(it => it.op == "entries" && it.entries.version == 150, "all entries")
  const parts = carl.told.filter(it => it.op == "entries").map(it => it.entries)
  parts.reduce((at, it) => (assert.equal(it.version - it.steps.length, at), it.version), 0)
  assert.ok(paused(server) >= 5)
  await Promise.all([ann, carl].map(it => it.close()))
  await server.stop()
})

test("one who says nothing more is let go", async () => {
  const server = await serve({pingSeconds: 0.2, deadSeconds: 6}), ann = await join(server.address, "silent", "ann")
  const bob = await join(server.address, "silent", "bob")
  // A socket that does not read answers no ping.
  bob.socket.pause()
  await until(() => server.users.connections == 1, "the end of the silent one")
  await ann.heard(it => it.op == "left")
  await ann.close()
  await server.stop()
})
