// The files of the demo page, for the server: the page, its style and script, ProseMirror's style and the engine's module.

import fs from "node:fs"
import {createRequire} from "node:module"
import path from "node:path"
import {fileURLToPath} from "node:url"

const require = createRequire(import.meta.url)
const HERE = path.dirname(fileURLToPath(import.meta.url)), TOP = path.dirname(HERE)
const {bundle} = require("../live/page/bundle.js")

const file = (...names) => fs.readFileSync(path.join(...names))

/// Where the engine's module is; ./pm wasm makes it.
export const MODULE = process.env.WASM || path.join(TOP, "bindings", "js", "gezhufet.wasm")

/// What is served, by its path: `{type, body}`.
export async function pages() {
  return new Map([
    ["/", {type: "text/html; charset=utf-8", body: file(HERE, "page", "index.html")}],
    ["/page.css", {type: "text/css; charset=utf-8", body: file(HERE, "page", "page.css")}],
    ["/page.js", {type: "text/javascript; charset=utf-8", body: bundle(path.join(HERE, "page", "page.js"))}],
    ["/cursors.css", {type: "text/css; charset=utf-8", body: file(TOP, "bindings", "js", "prosemirror", "style.css")}],
    ["/prosemirror.css", {type: "text/css; charset=utf-8", body: file(require.resolve("prosemirror-view/style/prosemirror.css"))}],
    ["/gezhufet.wasm", {type: "application/wasm", body: file(MODULE)}],
  ])
}
