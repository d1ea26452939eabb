// A page of a headless Chromium for a benchmark: the script that stands here by its name, with all that it requires, and the WebAssembly
// module, in base64, in the element `module`.

"use strict"

const fs = require("fs")
const os = require("os")
const path = require("path")
const {pathToFileURL} = require("url")
const {bundle} = require("../live/page/bundle")
const {Browser, chromium} = require("../live/page/chromium")

/// Opens the page, and gives its tab, and `close`, which has to be called.
async function openPage(name, module) {
  const folder = fs.mkdtempSync(path.join(os.tmpdir(), "gezhufet-bench-page-")), file = path.join(folder, "page.html")
  const script = bundle(path.join(__dirname, name)).replace(/<\/script/g, "<\\/script")
  const text = `<script id="module" type="text/plain">${module.toString("base64")}</script>`
  fs.writeFileSync(file, `<!doctype html><meta charset="utf-8">${text}<script>${script}</script>`)
  const browser = new Browser(chromium())
  const close = async () => {
    await browser.close()
    fs.rmSync(folder, {recursive: true})
  }
  try {
    return {tab: await browser.open(pathToFileURL(file).href), close}
  } catch (error) {
    await close()
    throw error
  }
}

module.exports = {chromium, openPage}
