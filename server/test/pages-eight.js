// Eight writers at one document, who press random keys at once; some lose their connection for a while.

import {createRequire} from "node:module"
import {Writer} from "./writer.js"

const {Draws} = createRequire(import.meta.url)("../../live/random.js")

const NAME = "eight", ROUNDS = 20
const KEYS = [
  ..."abcdefgh", " ", " ", "Enter", "Enter", "Backspace", "Backspace", "Delete", "ArrowLeft", "ArrowLeft", "ArrowRight", "ArrowUp",
  "ArrowDown", "Home", "End", "Shift-ArrowLeft", "Shift-ArrowRight", "Shift-ArrowUp", "Ctrl-b", "Ctrl-i", "Ctrl-z", "Ctrl-z", "Ctrl-y",
  "Ctrl-Shift-8",
  "Ctrl-Alt-1", "Ctrl-Alt-0", "Tab", "Shift-Tab",
]

async function press(writer, draws, count) {
  for (let i = 0; i < count; i++) await writer.press(draws.one(KEYS))
}

export async function eightPages(desk) {
  const {browser, judge, lines} = desk, draws = new Draws(8)
  const writers = await Promise.all(lines.map((line, i) => Writer.open(browser, line, NAME, `Writer ${i}`)))
  await writers[0].insert("All write here")
  await desk.agree(NAME, writers, "eight, at first")
  for (let round = 0; round < ROUNDS; round++) {
    const line = lines[round % lines.length]
    if (round % 4 == 1) line.cut()
    await Promise.all(writers.map(it => press(it, draws, 2)))
    if (round % 4 == 3) for (const it of lines) it.mend()
    line.delay = draws.below(60)
  }
  for (const line of lines) {
    line.delay = 0
    line.mend()
  }
  await desk.agree(NAME, writers, "eight, after random keys")
  const steps = (await desk.folded(NAME)).length - 1
  judge(steps > 2 * ROUNDS, `the eight made only ${steps} steps`)
  judge((await Promise.all(writers.map(it => it.told()))).every(it => it == ""), "a page of the eight says that something is wrong")
  for (const it of writers) await it.until("app.session.people.list.length == 7")
}
