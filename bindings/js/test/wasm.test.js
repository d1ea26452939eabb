// What holds of the WebAssembly module alone: its memory, and that it is not called after a trap.

import assert from "node:assert/strict"
import fs from "node:fs"
import {describe, it} from "node:test"
import zlib from "node:zlib"
import {EndedError, MemoryError, openAuthority, openEngine} from "../src/index.js"
import {docJSON, engines, insertion, schemaJSON} from "./values.js"

const MB = 1 << 20
const text = "a".repeat(50000)

describe("the module", {skip: !engines.includes("wasm") && "gezhufet.wasm is not built"}, () => {
  it("imports nothing, and is small", () => {
    const bytes = fs.readFileSync(new URL("../gezhufet.wasm", import.meta.url))
    assert.deepEqual(WebAssembly.Module.imports(new WebAssembly.Module(bytes)), [])
    assert.ok(zlib.gzipSync(bytes, {level: 9}).length <= 300 * 1024)
  })

  it("answers that there is no memory, and goes on", async () => {
    const engine = await openEngine({kind: "wasm", memory: 16 * MB})
    const authority = engine.openAuthority(schemaJSON, docJSON)
    let version = 0, refusal = null
    // The text is put in and taken out again, so that the log grows and the document doesn't.
    for (let i = 0; i < 5000 && !refusal; i++) {
      const steps = [insertion(1, text), {stepType: "replace", from: 1, to: 1 + text.length}]
      try {
        version = authority.submit({version, steps, clientID: 1}).version
      } catch (error) {
        refusal = error
      }
    }
    assert.ok(refusal instanceof MemoryError && version > 100, `${refusal} at version ${version}`)
    assert.ok(engine.memory.size <= 16 * MB)
    assert.deepEqual(authority.ask({op: "submit", version, clientID: 1, steps: [insertion(1, text)]}), {fault: "memory"})
    assert.equal(authority.since(version).version, version)
    assert.deepEqual(authority.doc(), {doc: docJSON, version})
  })

  it("gives back the memory of what was closed", async () => {
    const engine = await openEngine({kind: "wasm"})
    const short = text.slice(0, 10000)
    const turn = () => {
      const authority = engine.openAuthority(schemaJSON, docJSON)
      for (let version = 0; version < 5; version++) authority.submit({version, steps: [insertion(1, short)], clientID: `${version}`})
      authority.doc()
      authority.close()
    }
    // The buffer that carries lines finds its place within some turns.
    for (let i = 0; i < 10; i++) turn()
    const {used, size} = engine.memory
    for (let i = 0; i < 1000; i++) turn()
    assert.deepEqual(engine.memory, {used, size})
  })

  it("is not changed by what is not opened", async () => {
    const engine = await openEngine({kind: "wasm"})
    engine.openAuthority(schemaJSON).close()
    const {used} = engine.memory
    for (const [schema, doc] of [[{}, null], ["no JSON", null], [schemaJSON, {}], [schemaJSON, "no JSON"]])
      assert.throws(() => engine.openAuthority(schema, doc))
    assert.equal(engine.memory.used, used)
  })

  it("is taken compiled, as bytes, and by its address", async () => {
    const url = new URL("../gezhufet.wasm", import.meta.url), bytes = fs.readFileSync(url)
    for (const module of [url, url.href, bytes, new WebAssembly.Module(bytes)])
      assert.equal((await openAuthority(schemaJSON, docJSON, {module})).version, 0)
  })
})

describe("an instance that trapped", () => {
  // (module (memory (export "memory") 1)
  //   (func (export "room") (result i32) i32.const 8)
  //   (func (export "open") (result i32) unreachable))
  const name = text => [text.length, ...Buffer.from(text)]
  const section = (id, bytes) => [id, bytes.length, ...bytes]
  const bytes = Uint8Array.from([
    0, 97, 115, 109, 1, 0, 0, 0,
    ...section(1, [1, 96, 0, 1, 127]),
    ...section(3, [2, 0, 0]),
    ...section(5, [1, 0, 1]),
    ...section(7, [3, ...name("memory"), 2, 0, ...name("room"), 0, 0, ...name("open"), 0, 1]),
    ...section(10, [2, 4, 0, 65, 8, 11, 3, 0, 0, 11]),
  ])

  it("is never called again", async () => {
    const engine = await openEngine({module: bytes})
    const fault = () => {
      try {
        return engine.openAuthority(schemaJSON)
      } catch (error) {
        assert.ok(error instanceof EndedError)
        return error.cause
      }
    }
    const first = fault()
    assert.ok(first instanceof WebAssembly.RuntimeError)
    // The fault of a second call would be another.
    assert.equal(fault(), first)
  })
})
