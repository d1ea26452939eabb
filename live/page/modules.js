// An ES module as a CommonJS one, for a script of one file. It knows the forms of import and export that the modules of bindings/js
// have: each begins a line.

"use strict"

const IMPORT = /^import \{([^}]*)\} from ("[^"]+")/gm
const EXPORT_FROM = /^export \{([^}]*)\} from ("[^"]+")/gm
const EXPORT = /^export ((?:async )?(?:function|class|const) (\w+))/gm

const names = list => list.split(",").map(it => it.trim()).filter(it => it).map(it => it.replace(" as ", ": ")).join(", ")

/// The text of a module, changed where it is an ES module.
function asCommon(text) {
  if (!/^(import|export) /m.test(text)) return text
  const made = [...text.matchAll(EXPORT)].map(it => it[2])
  const common = text
    .replace(IMPORT, (_, list, from) => `const {${names(list)}} = require(${from})`)
    .replace(EXPORT_FROM, (_, list, from) => `{ const {${names(list)}} = require(${from}); Object.assign(exports, {${names(list)}}) }`)
    .replace(EXPORT, "$1")
    .replace(/import\.meta\.url/g, "document.baseURI")
  return `"use strict"\n${common}\nObject.assign(exports, {${made.join(", ")}})\n`
}

module.exports = {asCommon}
