// Tells the processor's time of the word `at` on a session whose log has some 100,000 steps, for versions at, before and after
// checkpoints (docs/change/GROWTH.md). Beside them stands the word `late` of the same session, which reads and plays it and writes its
// report: what `at` takes is reading and playing, and then at most 63 steps, whatever the version. One client puts a letter in and
// takes it out again, so that the document keeps its size, and pushes at the end.
// usage: node bench/versions.js [STEPS]      99998 unless told; at most 99,999, an op line for each and one for the push

"use strict"

const {PROGRAM, fileOf, inTurn, row, title, weighed} = require("./measure")

const steps = Number(process.argv[2] || 99998), half = Math.floor(steps / 128) * 64
const types = {nodes: [{name: "doc", content: "p+"}, {name: "p", content: "text*"}, {name: "text"}]}
const first = {type: "doc", content: [{type: "p", content: [{type: "text", text: "abcdefghij".repeat(40)}]}]}
const acts = [{c: "a", op: "text", from: 5, to: 5, text: "x"}, {c: "a", op: "delete", from: 5, to: 6}]
const session = fileOf([types, first, ["a"], ...Array.from({length: steps}, (_, i) => acts[i % 2]), {c: "a", op: "push"}])

const words = [...[0, 63, 64, half, half + 63, steps].map(version => ["at", String(version)]), ["late"]]
const figures = inTurn(words.map(it => () => weighed([PROGRAM, ...it], session).busy))
title("milliseconds of the processor", "versions.js", "")
words.forEach((it, i) => row(it.join(" "), figures[i]))
