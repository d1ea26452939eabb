// Opens the page in a headless Chromium, types into both editors at once, splits, makes strong and undoes by keys, and compares
// what both editors hold and show with the house's document; asks who wrote what, comments, takes a change back and opens another
// document, by keys and clicks. Then another server has to find the documents again. The last line is `N passed, M failed`.
// usage: node live/page/test.js [PICTURE]      a picture of the page is written there, where it is told

"use strict"

const fs = require("fs")
const os = require("os")
const path = require("path")
const {Browser, chromium} = require("./chromium")
const {startServer} = require("./server")
const {User, pause, sorted, textOf} = require("./user")

let [passed, failed] = [0, 0]
function judge(isWell, what) {
  if (isWell) passed++
  else {
    failed++
    console.log(`page: ${what}`)
  }
}

const LEFT = 0, RIGHT = 1

/// Waits until both panes have the whole log, and all that they made is in it.
async function settle({tab}, document) {
  await tab.until("panes.every(pane => pane.isQuiet)")
  await tab.until(`panes.every(pane => pane.editor.version == ${document.version})`)
}

async function agree(user, server, when, name = "welcome") {
  const document = server.documents.find(name)
  await settle(user, document)
  const {doc} = await document.ask({op: "doc"})
  const [left, right] = [await user.doc(LEFT), await user.doc(RIGHT)]
  judge(left == right, `${when}: the two editors hold\n  ${left}\n  ${right}`)
  judge(JSON.stringify(sorted(JSON.parse(left))) == JSON.stringify(sorted(doc)), `${when}: the house holds another document`)
  const shown = [await user.shown(LEFT), await user.shown(RIGHT)]
  judge(shown[0] == shown[1], `${when}: the two editors show\n  ${shown[0]}\n  ${shown[1]}`)
  return shown[0]
}

async function edit(user, server) {
  await user.place(LEFT, "one document")
  await user.place(RIGHT, "and there.")
  await user.typeBoth(", typed on the left", " The right types")
  const typed = await agree(user, server, "after typing")
  judge(textOf(typed) == "|Two editors, one document, typed on the left|Type here, and there. The right types|", `typed: ${typed}`)

  await user.focus(RIGHT)
  await user.tab.press("Enter")
  await user.focus(LEFT)
  await user.tab.press("Enter")
  await user.typeBoth("A new line.", "Another one")
  const split = await agree(user, server, "after splitting")
  judge(textOf(split).includes("left|A new line.|Type here") && textOf(split).endsWith("types|Another one|"), `split: ${split}`)

  await user.focus(RIGHT)
  await user.select(RIGHT, 3)
  await user.tab.press("Ctrl-b")
  const strong = await agree(user, server, "after making strong")
  judge(strong.includes("Another <strong>one</strong>"), `strong: ${strong}`)

  // What is typed after a pause is an event of its own, or more than one where the machine is slow.
  await user.place(LEFT, "A new line.")
  await pause(700)
  await user.type(" Gone soon")
  const before = await agree(user, server, "before undoing")
  const times = await user.pressUntil("Ctrl-z", LEFT, html => !html.includes("Gone"))
  const undone = await agree(user, server, "after undoing")
  judge(before.includes("A new line. Gone soon"), `before undoing: ${before}`)
  judge(undone.includes("<p>A new line.</p>") && undone.includes("<strong>one"), `undone: ${undone}`)
  for (let i = 0; i < times; i++) await user.tab.press("Ctrl-y")
  judge(before == await agree(user, server, "after making it again"), "the text did not come again")
}

// Each author's text has a colour where that is asked for.
async function authors(user, server) {
  const box = `document.getElementById("authors")`
  await user.click(box)
  await agree(user, server, "with authors")
  const of = (pane, by) => user.tab.value(`[...panes[${pane}].view.dom.querySelectorAll("[data-by=${by}]")]
    .map(it => it.textContent).join("")`)
  for (const pane of [LEFT, RIGHT]) {
    const [left, right] = [await of(pane, "left"), await of(pane, "right")]
    judge(left.includes(", typed on the left") && left.includes("A new line."), `in editor ${pane} the left one wrote ${left}`)
    judge(right.includes(" The right types") && right.includes("Another one"), `in editor ${pane} the right one wrote ${right}`)
    judge(!(left + right).includes("Two editors"), `in editor ${pane} the first text has an author`)
  }
  judge(/left.*right|right.*left/.test(await user.tab.value(`document.getElementById("names").textContent`)), "the names are not shown")
  await user.click(box)
  judge(!(await agree(user, server, "without authors")).includes("data-by"), "authors are shown unasked")
}

// A comment goes with its text, in both editors, and is struck out where the text is gone.
async function comments(user, server) {
  await user.place(LEFT, "one document")
  await user.select(LEFT, 8)
  await user.click(`panes[${LEFT}].place.querySelector("[data-comment]")`)
  await user.insert("Which one?")
  await user.click(`document.querySelector("#comment button")`)
  await user.tab.until(`document.querySelectorAll("#comments li").length == 1`)
  await user.place(RIGHT, "Two")
  await user.type("!!")
  await user.place(RIGHT, "one docu")
  await user.type("xx")
  await agree(user, server, "after writing around a comment")
  const anchored = `panes.map(({view}) => [...view.dom.querySelectorAll(".comment")].map(it => it.textContent).join("")).join("|")`
  await user.tab.until(`${anchored} == "docuxxment|docuxxment"`)
  const said = await user.tab.value(`document.getElementById("comments").textContent`)
  judge(said.includes("Which one?") && said.includes("left"), `the comment is ${said}`)
  await user.place(RIGHT, "docuxxment")
  await user.select(RIGHT, 10)
  await user.tab.press("Backspace")
  await agree(user, server, "after deleting what a comment is on")
  await user.tab.until(`document.querySelectorAll("#comments .gone").length == 1`)
}

// A change is taken back by the key on its button, and later ones stay.
async function takingBack(user, server) {
  await user.place(LEFT, "Type here")
  await pause(600)
  await user.insert(" TAKEN")
  await agree(user, server, "before the other writes behind it")
  await user.place(RIGHT, "TAKEN")
  await user.insert(" later")
  await agree(user, server, "before taking a change back")
  const button = `[...document.querySelectorAll("#changes .what")].find(it => it.textContent == "wrote “ TAKEN”")
    .closest("li").querySelector("button")`
  await user.tab.value(`${button}.focus()`)
  await user.tab.press("Enter")
  await user.tab.until(`${button}.getAttribute("aria-disabled") == "true" && record.entries.some(it => /^review/.test(it.clientID))`)
  const back = textOf(await agree(user, server, "after taking a change back"))
  judge(back.includes("Type here later"), `taken back: ${back}`)
  await user.tab.press("Enter")
  judge(textOf(await agree(user, server, "after the same key again")) == back, "a change was taken back twice")
}

// While a page goes to another, there is nothing to ask.
async function arrive({tab}, name) {
  const isThere = `location.search.endsWith(${JSON.stringify(name)}) && window.panes !== undefined && panes.length == 2`
  for (let tries = 0; tries < 100 && !await tab.value(isThere).catch(() => false); tries++) await pause(100)
  await tab.until(isThere)
}

async function documents(user, server) {
  const before = await agree(user, server, "before another document")
  await user.click(`document.getElementById("new-name")`)
  await user.type("plan")
  await user.tab.press("Enter")
  await arrive(user, "plan")
  await user.place(LEFT, "and there.")
  await user.type(" Only here.")
  const plan = textOf(await agree(user, server, "in another document", "plan"))
  judge(plan == "|Two editors, one document|Type here, and there. Only here.|", `the other document is ${plan}`)
  const list = await user.tab.value(`document.getElementById("documents").textContent`)
  judge(list.includes("welcome") && list.includes("plan"), `the documents are ${list}`)
  await user.click(`document.querySelector("#documents a")`)
  await arrive(user, "welcome")
  judge(textOf(await agree(user, server, "back in the first document")) == textOf(before), "the first document is not as it was left")
}

// What another server finds in the file is what this one had.
async function found(file, had) {
  const {server} = await startServer(0, file)
  judge(await told(server) == had, "another server finds other documents")
  judge(await server.close() === 0, "the house did not end with status 0")
}

async function told({documents: {byName}}) {
  const all = [...byName.values()].map(async it => [it.name, await it.ask({op: "doc"}), it.comments.list])
  return JSON.stringify(await Promise.all(all))
}

async function work(user, server) {
  const {words} = server.documents
  await edit(user, server)
  await authors(user, server)
  for (const [word, act] of [["map", comments], ["revert", takingBack], ["open", documents]]) {
    if (words[word]) await act(user, server)
    else console.log(`page: ${act.name} left out, for the engine has no such word`)
  }
}

// The page with what each author wrote in a colour.
async function show(tab, picture) {
  await tab.value(`document.getElementById("authors").click()`)
  await pause(300)
  fs.writeFileSync(picture, await tab.picture())
}

async function main(picture) {
  const program = chromium()
  if (!program) return console.log("page: left out, for chromium is missing")
  const folder = fs.mkdtempSync(path.join(os.tmpdir(), "live-documents-")), file = path.join(folder, "documents")
  const {server, address} = await startServer(0, file)
  const browser = new Browser(program)
  let had = null
  try {
    const tab = await browser.open(address, {width: 1180, height: 640})
    await tab.until("window.panes !== undefined && panes.length == 2")
    await work(new User(tab), server)
    had = await told(server)
    if (picture) await show(tab, picture)
  } finally {
    await browser.close()
    judge(await server.close() === 0, "the house did not end with status 0")
    if (server.documents.words.open && had) await found(file, had)
    fs.rmSync(folder, {recursive: true})
  }
}

main(process.argv[2]).catch(error => judge(false, error.stack)).finally(() => {
  console.log(`${passed} passed, ${failed} failed`)
  process.exit(failed > 0 ? 1 : 0)
})
