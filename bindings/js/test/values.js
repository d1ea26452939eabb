// What the tests share: a small schema and document as JSON, ProseMirror's packages where they are, and the engines that are there.

import fs from "node:fs"
import {createRequire} from "node:module"

const require = createRequire(import.meta.url)

export const schemaJSON = {
  nodes: [{name: "doc", content: "paragraph+"}, {name: "paragraph", content: "text*"}, {name: "text"}],
}
export const docJSON = {type: "doc", content: [{type: "paragraph", content: [{type: "text", text: "ab"}]}]}

/// The JSON of a step that puts a text in.
export const insertion = (at, text) => ({stepType: "replace", from: at, to: at, slice: {content: [{type: "text", text}]}})

/// ProseMirror's model and transform, or null where they are missing. Debian's packages are found by NODE_PATH.
export function proseMirror() {
  try {
    return {...require("prosemirror-model"), ...require("prosemirror-transform")}
  } catch {
    return null
  }
}

const isThere = path => fs.existsSync(new URL(path, import.meta.url))

/// The engines that were built.
export const engines = [
  ...(isThere("../gezhufet.wasm") ? ["wasm"] : []),
  ...(isThere("../addon/build/gezhufet.node") ? ["addon"] : []),
]
