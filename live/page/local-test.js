// Opens the page without a server in a headless Chromium, and drives it by keys while its messages are late: typing on both sides,
// splits, marks, undo amid the other's changes, and a change taken back by itself. After every transaction of an editor its document
// is compared with the engine's, and at each rest both with the authority's. The last line is `N passed, M failed`.
// usage: node live/page/local-test.js [PICTURE]      a picture of the page is written there, where it is told

"use strict"

const fs = require("fs")
const os = require("os")
const path = require("path")
const {pathToFileURL} = require("url")
const {Browser, chromium} = require("./chromium")
const {localPage, MODULE} = require("./make-local")
const {User, pause, sorted, textOf} = require("./user")

let [passed, failed] = [0, 0]
function judge(isWell, what) {
  if (isWell) passed++
  else {
    failed++
    console.log(`local: ${what}`)
  }
}

const LEFT = 0, RIGHT = 1

// Counts after which of the editors' transactions their documents are the engine's, and after which they are not.
const COMPARE = `
  window.compared = [0, 0]
  for (const pane of panes) {
    const show = pane.show
    pane.show = () => {
      show.call(pane)
      compared[pane.client.doc().doc.eq(pane.view.state.doc) ? 0 : 1]++
    }
  }`

const setDelay = (user, milliseconds) => user.tab.value(`document.getElementById("delay").value = ${milliseconds}`)

const quiet = "panes.every(({client, view}) => client.state().pending == 0 && client.state().version == network.authority.version)"

// Waits until both have the whole log and all that they made is in it, and gives what they show.
async function agree(user, when) {
  await user.tab.until(quiet)
  const [left, right] = [await user.doc(LEFT), await user.doc(RIGHT)]
  judge(left == right, `${when}: the two editors hold\n  ${left}\n  ${right}`)
  const {doc} = await user.tab.value("network.authority.ask({op: 'doc'})")
  judge(JSON.stringify(sorted(JSON.parse(left))) == JSON.stringify(sorted(doc)), `${when}: the authority holds another document`)
  return withoutCursors(await user.shown(LEFT))
}

const withoutCursors = html => html.replace(/<span class="caret[^"]*"[^>]*><span>[^<]*<\/span><\/span>/g, "")
  .replace(/<span class="selected[^"]*"[^>]*>([^<]*)<\/span>/g, "$1").replace(/<img[^>]*separator[^>]*>/g, "")

async function typing(user) {
  await user.place(LEFT, "one document")
  await user.place(RIGHT, "and there.")
  await user.typeBoth(", typed on the left", " The right types")
  const late = await user.tab.value("panes.map(({client}) => client.state().pending)")
  judge(late.some(count => count > 0), "nothing is on its way, so no message was late")
  judge(await user.doc(LEFT) != await user.doc(RIGHT), "the two hold one document before the messages came")
  const typed = textOf(await agree(user, "after typing"))
  judge(typed == "|Two editors, one document, typed on the left|Type here, and there. The right types|", `typed: ${typed}`)
}

async function splitting(user) {
  await user.focus(RIGHT)
  await user.tab.press("Enter")
  await user.focus(LEFT)
  await user.tab.press("Enter")
  await user.typeBoth("A new line.", "Another one")
  const split = textOf(await agree(user, "after splitting"))
  judge(split.includes("left|A new line.|Type here") && split.endsWith("types|Another one|"), `split: ${split}`)
}

// The one makes a word strong, into which the other types before it knows.
async function marking(user) {
  await user.focus(RIGHT)
  await user.select(RIGHT, 3)
  await user.tab.press("Ctrl-b")
  await user.place(LEFT, "Another o")
  await user.type("h ")
  const strong = await agree(user, "after making strong")
  judge(strong.includes("<strong>o</strong>h <strong>ne</strong>") || strong.includes("<strong>oh ne</strong>"), `strong: ${strong}`)
}

async function undoing(user) {
  await user.place(LEFT, "A new line.")
  await pause(700)
  await user.typeBoth(" Gone soon", "")
  await user.place(RIGHT, "A new")
  await user.type("er")
  const before = await agree(user, "before undoing")
  judge(textOf(before).includes("A newer line. Gone soon"), `before undoing: ${before}`)
  await user.place(RIGHT, "Gone")
  await user.type("!")
  await user.focus(LEFT)
  // Where the machine is slow each letter is an event, and the other's "!" may come before the last undo or after it.
  const times = await user.pressUntil("Ctrl-z", LEFT, html => /A newer line\.!?\|/.test(textOf(withoutCursors(html))))
  const undone = textOf(await agree(user, "after undoing"))
  judge(undone.includes("A newer line.!|"), `undone: ${undone}`)
  for (let i = 0; i < times; i++) await user.tab.press("Ctrl-y")
  const again = textOf(await agree(user, "after making it again"))
  judge(again.includes("Gone") && again.includes("!") && again.includes("A newer line."), `again: ${again}`)
}

// A change is taken back by the key on its button, and later ones stay.
async function takingBack(user) {
  await user.place(LEFT, "Type")
  await pause(700)
  await user.insert(" FIRST")
  await pause(700)
  await user.place(LEFT, "FIRST")
  await pause(700)
  await user.insert(" SECOND")
  await user.place(RIGHT, "right")
  await user.insert(" THIRD")
  await agree(user, "before taking one change back")
  const button = `[...document.querySelectorAll("#changes .what")].find(it => it.textContent == "wrote “ FIRST”")
    .closest("li").querySelector("button")`
  await user.tab.value(`${button}.focus()`)
  await user.tab.press("Enter")
  const back = textOf(await agree(user, "after taking one change back"))
  judge(back.includes("Type SECOND here") && back.includes("right THIRD"), `taken back: ${back}`)
  judge(await user.tab.value(`${button}.getAttribute("aria-disabled")`) == "true", "the change may be taken back twice")
  await user.tab.press("Enter")
  judge(textOf(await agree(user, "after the same key again")) == back, "a change was taken back twice")
}

// By keys alone: from the slider to the first editor, out of it, and on.
async function walking(user) {
  const {tab} = user
  await tab.value(`document.getElementById("delay").focus()`)
  const before = await tab.value(`document.getElementById("told-delay").textContent`)
  await tab.press("ArrowRight")
  judge(await tab.value(`document.getElementById("told-delay").textContent`) != before, "the slider does not tell its value")
  const seen = new Set()
  for (let i = 0; i < 30; i++) {
    await tab.press("Tab")
    seen.add(await tab.value("(it => it.dataset.command || it.getAttribute('aria-label') || it.textContent)(document.activeElement)"))
  }
  for (const what of ["strong", "undo", "the left document", "the right document"]) judge(seen.has(what), `Tab does not come to: ${what}`)
  judge([...seen].some(it => /^Take/.test(it)), "Tab does not come to the buttons of the log")
  await user.focus(LEFT)
  await tab.press("Escape")
  judge(!await tab.value("document.activeElement.classList.contains('ProseMirror')"), "Escape does not leave the document")
}

// The contrast of texts with what they stand on is 4.5 at least, in light and in dark.
const CONTRASTS = `(() => {
  const channel = c => (c / 255 <= .03928 ? c / 255 / 12.92 : ((c / 255 + .055) / 1.055) ** 2.4)
  const weigh = ([r, g, b]) => .2126 * channel(r) + .7152 * channel(g) + .0722 * channel(b)
  const light = color => weigh(color.match(/[\\d.]+/g).map(Number))
  const ground = it => {
    const {backgroundColor} = getComputedStyle(it)
    return /, 0\\)$/.test(backgroundColor) && it.parentElement ? ground(it.parentElement) : backgroundColor
  }
  return ["h1", "p.about", ".ProseMirror p", ".state", "#changes .by", "#changes .at", "#changes li:not(.gone) .what"].map(name => {
    const it = document.querySelector(name), [a, b] = [light(getComputedStyle(it).color), light(ground(it))]
    return [name, (Math.max(a, b) + .05) / (Math.min(a, b) + .05)]
  })
})()`

async function colours(user) {
  for (const value of ["light", "dark"]) {
    await user.tab.call("Emulation.setEmulatedMedia", {features: [{name: "prefers-color-scheme", value}]})
    for (const [name, contrast] of await user.tab.value(CONTRASTS))
      judge(contrast >= 4.5, `${value}: ${name} has the contrast ${contrast.toFixed(1)}`)
  }
  await user.tab.call("Emulation.setEmulatedMedia", {features: [{name: "prefers-color-scheme", value: "light"}]})
}

async function main(picture) {
  const program = chromium()
  if (!program) return console.log("local: left out, for chromium is missing")
  if (!fs.existsSync(MODULE)) return console.log(`local: left out, for ${MODULE} is not built`)
  const folder = fs.mkdtempSync(path.join(os.tmpdir(), "local-page-")), file = path.join(folder, "local.html")
  fs.writeFileSync(file, localPage())
  const browser = new Browser(program)
  try {
    const tab = await browser.open(pathToFileURL(file).href, {width: 1180, height: 560})
    await tab.until("window.panes !== undefined || Boolean(document.getElementById('fault')?.textContent)")
    judge(await tab.value("document.getElementById('fault').textContent") == "", "the page does not begin")
    await tab.value(COMPARE)
    const user = new User(tab)
    await setDelay(user, 700)
    for (const act of [typing, splitting, marking, undoing, takingBack]) await act(user)
    if (picture) fs.writeFileSync(picture, await tab.picture())
    await walking(user)
    await colours(user)
    const [same, apart] = await tab.value("compared")
    judge(apart == 0 && same > 100, `after ${same} transactions the editor and the engine had one document, after ${apart} not`)
    judge(await tab.value("[...document.querySelectorAll('.told')].every(it => it.textContent == '')"), "an editor tells of an error")
  } finally {
    await browser.close()
    fs.rmSync(folder, {recursive: true})
  }
}

main(process.argv[2]).catch(error => judge(false, error.stack)).finally(() => {
  console.log(`${passed} passed, ${failed} failed`)
  process.exit(failed > 0 ? 1 : 0)
})
