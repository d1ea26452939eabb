// One script of a module and all that it requires, for a browser. Each module is a function as node makes it one; packages are
// found as node finds them. The ES modules of bindings/js are taken too.

"use strict"

const fs = require("fs")
const {createRequire} = require("module")
const {asCommon} = require("./modules")

// Gives the modules from `entry` on, each with its text and, for each name that it requires, the file that has it.
function collect(entry) {
  const modules = new Map(), open = [entry]
  while (open.length) {
    const file = open.pop()
    if (modules.has(file)) continue
    const text = asCommon(fs.readFileSync(file, "utf8")), from = createRequire(file), needs = {}
    for (const [, name] of text.matchAll(/\brequire\(["']([^"']+)["']\)/g)) needs[name] = from.resolve(name)
    modules.set(file, {text, needs})
    open.push(...Object.values(needs))
  }
  return modules
}

// What a module's function is called by in the browser.
const LOADER = `
const loaded = new Map()
function load(number) {
  if (!loaded.has(number)) {
    const module = {exports: {}}, [make, needs] = modules[number]
    loaded.set(number, module)
    make(name => load(needs[name]), module, module.exports)
  }
  return loaded.get(number).exports
}
load(0)
`

/// The text of the script.
function bundle(entry) {
  const modules = collect(entry), numbers = new Map([...modules.keys()].map((file, i) => [file, i]))
  const parts = [...modules.values()].map(({text, needs}) => {
    const numbered = Object.fromEntries(Object.entries(needs).map(([name, file]) => [name, numbers.get(file)]))
    return `[function (require, module, exports) {\n${text}\n}, ${JSON.stringify(numbered)}]`
  })
  return `(() => {\nconst modules = [\n${parts.join(",\n")}\n]\n${LOADER}})()\n`
}

module.exports = {bundle}
