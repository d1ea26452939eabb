// What talk.js has a page run: `measure(runs)` of its window gives a promise of the figures.

"use strict"

const {openEngine} = require("../bindings/js/src/index.js")
const {measure} = require("./talk-work")

const bytesOf = text => Uint8Array.from(atob(text), it => it.charCodeAt(0))

window.measure = async runs => measure(await openEngine({module: bytesOf(document.getElementById("module").textContent)}), runs)
