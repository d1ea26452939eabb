// Makes the first two lines of a session file: the schema line from a ProseMirror `Schema`, the document line from a `Node` of
// it. docs/use/FORMATS.md describes the lines. What the engine knows nothing of, such as `parseDOM` and `toDOM`, is left out.
// usage: node tools/schema-line.js MODULE
//   MODULE exports `schema`, and may export `doc`; its path, or the name of a package, such as prosemirror-schema-basic
// A program has both lines by `schemaLine(schema)` and `documentLine(node)` of bindings/js.

"use strict"

const fs = require("fs")
const path = require("path")

// a path that is there, else the name of a package
function loaded(name) {
  const file = path.resolve(name)
  return require(fs.existsSync(file) ? file : name)
}

async function main(name) {
  const {schemaLine, documentLine} = await import("../bindings/js/src/lines.js")
  const {schema, doc} = loaded(name)
  if (!schema) throw new Error(`${name} exports no schema`)
  console.log(schemaLine(schema))
  if (doc) console.log(documentLine(doc))
}

if (process.argv.length != 3) {
  console.error("usage: node tools/schema-line.js MODULE")
  process.exit(2)
}
main(process.argv[2]).catch(error => {
  console.error(`schema-line: ${error.message}`)
  process.exit(1)
})
