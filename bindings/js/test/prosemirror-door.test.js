// The plugin from outside: as a program imports it, over the packages that it has.

import assert from "node:assert/strict"
import {spawnSync} from "node:child_process"
import fs from "node:fs"
import {createRequire} from "node:module"
import os from "node:os"
import path from "node:path"
import {describe, it} from "node:test"
import {fileURLToPath} from "node:url"

const require = createRequire(import.meta.url)
const here = fileURLToPath(new URL("../", import.meta.url))
const packages = ["model", "state", "transform", "view"].map(it => `prosemirror-${it}`)

function folderOf(name) {
  try {
    return path.dirname(require.resolve(`${name}/package.json`))
  } catch {
    return null
  }
}

// A program with this package and ProseMirror's among its own.
function installed() {
  const to = fs.mkdtempSync(path.join(os.tmpdir(), "gezhufet-door-")), modules = path.join(to, "node_modules")
  for (const part of ["package.json", "src", "prosemirror"])
    fs.cpSync(path.join(here, part), path.join(modules, "gezhufet", part), {recursive: true})
  for (const name of packages) fs.symlinkSync(folderOf(name), path.join(modules, name))
  return to
}

function printed(folder, program) {
  const {stdout, stderr} = spawnSync(process.execPath, ["--input-type=module", "-e", program], {cwd: folder, encoding: "utf8"})
  assert.equal(stderr, "")
  return stdout.trim()
}

describe("gezhufet/prosemirror", {skip: !packages.every(folderOf) && "ProseMirror's packages are missing"}, () => {
  it("has what it declares", () => {
    const folder = installed(), types = fs.readFileSync(path.join(here, "prosemirror", "index.d.ts"), "utf8")
    const declared = [...types.matchAll(/^export const (\w+)/gm)].map(it => it[1])
    try {
      assert.equal(
        printed(folder, 'import * as door from "gezhufet/prosemirror"; console.log(Object.keys(door).sort().join())'),
        [...declared, "pluginOf"].sort().join(),
      )
      const program = 'import * as door from "gezhufet/prosemirror/plugin"; console.log(Object.keys(door).join())'
      assert.equal(printed(folder, program), "pluginOf")
    } finally {
      fs.rmSync(folder, {recursive: true})
    }
  })
})
