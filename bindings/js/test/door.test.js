// The package from outside: its two doors, and what it packs.

import assert from "node:assert/strict"
import fs from "node:fs"
import {createRequire} from "node:module"
import {describe, it} from "node:test"
import * as door from "../src/index.js"
import {docJSON, engines, schemaJSON} from "./values.js"

const commonDoor = createRequire(import.meta.url)("../index.cjs")
const here = new URL("../", import.meta.url)
const manifest = JSON.parse(fs.readFileSync(new URL("package.json", here), "utf8"))
const types = fs.readFileSync(new URL("index.d.ts", here), "utf8")

describe("the package", () => {
  it("has the version of the tree and no dependency", () => {
    assert.equal(manifest.version, fs.readFileSync(new URL("../../VERSION", here), "utf8").trim())
    for (const key of Object.keys(manifest)) assert.doesNotMatch(key, /dependencies/i)
  })

  it("declares what it exports", () => {
    const declared = [...types.matchAll(/^export (?:function|class) (\w+)/gm)].map(it => it[1])
    assert.deepEqual([...new Set(declared)].sort(), Object.keys(door).sort())
  })

  it("knows its errors by CommonJS too", async () => {
    const error = new door.RefusedError(9, 2, 0)
    assert.ok(error instanceof commonDoor.RefusedError && error instanceof commonDoor.GezhufetError)
    assert.ok(!(error instanceof commonDoor.FaultError) && !(new Error() instanceof commonDoor.GezhufetError))
    assert.equal(error.message, "step 2 does not apply: the document would not be valid (reason 9, at 0)")
    for (const options of [{kind: "nothing"}, {kind: "addon", memory: 1 << 24}])
      await assert.rejects(commonDoor.openEngine(options), TypeError)
  })

  it("opens by CommonJS", {skip: engines.length == 0 && "no engine is built"}, async () => {
    assert.equal((await commonDoor.openAuthority(schemaJSON, docJSON)).version, 0)
    assert.equal((await commonDoor.openEngine()).openAuthority(schemaJSON).version, 0)
    assert.equal((await commonDoor.openClient({schema: schemaJSON, doc: docJSON, clientID: 1})).state().version, 0)
    const house = commonDoor.openHouse()
    if (engines.includes("addon")) assert.deepEqual((await house).documents(), [])
    else await assert.rejects(house, {name: "EndedError", message: /addon\/build\.sh/})
  })
})
