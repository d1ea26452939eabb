// What embed.js has a page run: `letters(of)` of its window gives a promise of what timeLetters gives, and `rebase()` the milliseconds of
// one run of both sides.

"use strict"

const {openEngine} = require("../bindings/js/src/index.js")
const {documentOf, schema, timeLetters} = require("./letter")
const {rebasing} = require("./talk-work")

const bytesOf = text => Uint8Array.from(atob(text), it => it.charCodeAt(0))
const opened = WebAssembly.compile(bytesOf(document.getElementById("module").textContent)).then(module => openEngine({module}))

window.letters = async of => {
  const authority = (await opened).openAuthority(schema, documentOf(of.tokens))
  const timed = await timeLetters(authority, of)
  authority.close()
  return timed
}

window.rebase = async of => {
  const {sides, check} = rebasing(await opened, of), took = sides.map(side => side())
  check()
  return took
}
