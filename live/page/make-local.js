// Makes the page without a server: one file of local.html, its script, ProseMirror's style and the module.
// usage: node live/page/make-local.js [FILE]      out/local.html unless told; the variable WASM names another module

"use strict"

const fs = require("fs")
const path = require("path")
const {bundle} = require("./bundle")

const TOP = path.join(__dirname, "..", "..")
const MODULE = process.env.WASM || path.join(TOP, "out", "gezhufet.wasm")

/// The page's text.
function localPage() {
  const parts = {
    "prosemirror.css": fs.readFileSync(require.resolve("prosemirror-view/style/prosemirror.css"), "utf8"),
    "gezhufet.wasm": fs.readFileSync(MODULE).toString("base64"),
    // The text must not end the element that it stands in.
    "local.js": bundle(path.join(__dirname, "local.js")).replace(/<\/script/g, "<\\/script"),
  }
  const page = fs.readFileSync(path.join(__dirname, "local.html"), "utf8")
  return page.replace(/\/\* ([\w.]+) \*\//g, (all, name) => parts[name] ?? all)
}

module.exports = {localPage, MODULE}

if (require.main === module) {
  if (!fs.existsSync(MODULE)) {
    console.error(`make-local: ${MODULE} is not built; ./pm wasm builds it`)
    process.exit(1)
  }
  const file = process.argv[2] || path.join(TOP, "out", "local.html")
  fs.mkdirSync(path.dirname(file), {recursive: true})
  fs.writeFileSync(file, localPage())
  console.log(file)
}
