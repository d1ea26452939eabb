// Two writers at one document: what the page's tools, comments, history and cursors do while both write, and what becomes of what is
// written without a connection.

import {pause, Writer} from "./writer.js"

const NAME = "plan"

// Counts after which of the editor's transactions its document is the engine's, and after which it is not.
const COMPARE = `(() => {
  const {view, session} = app, update = view.updateState
  window.compared = [0, 0]
  view.updateState = state => {
    update.call(view, state)
    compared[session.client.doc().doc.eq(view.state.doc) ? 0 : 1]++
  }
})()`

async function typing({agree, judge, ann, bob}) {
  await ann.insert("Minutes")
  await ann.press("Enter")
  await agree("at first")
  await bob.after("Minutes")
  for (const [i, letter] of [..." of May"].entries()) {
    await bob.type(letter)
    await ann.type("We meet"[i] ?? "")
  }
  judge(await agree("after typing") == "Minutes of May|We meet", `typed: ${await ann.text()}`)
}

async function formatting({agree, judge, ann, bob}) {
  await bob.press("Ctrl-Alt-1")
  await ann.press("Enter", "Ctrl-Shift-8")
  await ann.insert("milk")
  await ann.press("Enter")
  await ann.insert("bread")
  await ann.press("Enter", "Enter")
  await ann.insert("The end")
  await agree("after a heading and a list")
  await bob.select("meet")
  await bob.press("Ctrl-b")
  await ann.after("end")
  await ann.press("Ctrl-i")
  await ann.type(" so")
  await agree("after marks")
  const shown = await bob.shown()
  const list = "<ul><li><p>milk</p></li><li><p>bread</p></li></ul>"
  for (const part of ["<h1>Minutes of May</h1>", "We <strong>meet</strong>", list, "end<em> so</em>"])
    judge(shown.includes(part), `${part} is not in ${shown}`)
  judge(await bob.shown() == await ann.shown(), `the two pages show different things:\n  ${await ann.shown()}\n  ${await bob.shown()}`)
}

async function linking({agree, judge, ann, bob}) {
  await ann.select("bread")
  await ann.press("Ctrl-k")
  await ann.insert("javascript:alert(1)")
  await ann.press("Enter")
  judge(await ann.value("document.querySelector('#link-dialog .fault').textContent != ''"), "a link may run a script")
  await ann.value("document.getElementById('link-input').value = ''")
  await bob.after("We")
  await bob.insert(" all")
  await ann.insert("bread.example/rye")
  await ann.press("Enter")
  await agree("after a link")
  judge(/<a href="https:..bread.example.rye"[^>]*>bread</.test(await bob.shown()), `linked: ${await bob.shown()}`)
  await ann.after("The")
  await ann.press("Alt-F10", "Home", ...Array(9).fill("ArrowRight"), "Enter")
  await ann.insert("https://pictures.example/end.png")
  await ann.press("Tab")
  await ann.insert("The end")
  await ann.press("Enter")
  await agree("after an image")
  judge((await bob.shown()).includes('<img src="https://pictures.example/end.png" alt="The end"'), `an image: ${await bob.shown()}`)
}

async function seeing({judge, ann, bob}) {
  await ann.after("We all")
  await bob.until(`(() => {
    const [{name, head} = {}] = app.session.pm.cursorsOf(app.view.state).values()
    return name == "Ann" && app.view.state.doc.textBetween(head - 6, head) == "We all"
  })()`)
  const label = await bob.value("document.querySelector('#editor .gezhufet-cursor-name').textContent")
  judge(label == "Ann", `at Ann's cursor stands ${label}`)
  for (const [me, other] of [[ann, bob], [bob, ann]])
    judge((await me.value("document.getElementById('people').textContent")).includes(other.name), `${me.name} does not see ${other.name}`)
}

async function commenting({agree, judge, ann, bob}) {
  await ann.select("milk")
  await ann.press("Ctrl-Alt-m")
  await ann.insert("How much?")
  await ann.press("Ctrl-Enter")
  await bob.until("app.session.comments.list.length == 1")
  await bob.after("mi")
  await bob.insert("xxx")
  await bob.after("mixxxlk")
  await bob.insert(" and tea")
  await bob.after("Minutes")
  await bob.press("Enter")
  await agree("after writing around a comment")
  for (const it of [ann, bob]) {
    const {"How much?": on} = await it.anchors()
    judge(on == "mixxxlk", `${it.name} has the comment on ${on}`)
  }
  await bob.value("document.querySelector('#comments input').focus()")
  await bob.insert("Two litres")
  await bob.press("Enter")
  await ann.until("document.getElementById('comments').textContent.includes('Two litres')")
  await ann.value("document.querySelector('#comments [data-action=resolve]').focus()")
  await ann.press("Enter")
  await bob.until("document.querySelectorAll('#comments li').length == 0")
  judge(await bob.value("app.session.comments.list[0].resolved"), "the comment is not resolved")
  judge(await bob.value("document.querySelector('#editor .gezhufet-comment') === null"), "a resolved comment is still marked")
}

async function undoing({agree, judge, ann, bob}) {
  await ann.after("The")
  await pause(600)
  await ann.insert(" FIRST")
  await agree("before the other writes beside it")
  await bob.after("FIRST")
  await bob.insert("bob")
  await bob.after("Th")
  await bob.insert("h")
  await pause(600)
  await ann.after("bread")
  await ann.insert(" SECOND")
  await agree("before undoing")
  await ann.press("Ctrl-z", "Ctrl-z")
  const undone = await agree("after undoing")
  judge(undone.includes("Thhebob*") && !undone.includes("SECOND"), `undone: ${undone}`)
  await ann.press("Ctrl-y", "Ctrl-y")
  const again = await agree("after making it again")
  judge(again.includes("SECOND") && again.includes("Thhe FIRSTbob"), `again: ${again}`)
  await bob.press("Ctrl-z", "Ctrl-z")
  judge((await agree("after the other's undo")).includes("The FIRST*"), `the other's undo: ${await bob.text()}`)
}

// Bob takes back what Ann wrote, by the key on its button; and then what he wrote himself.
async function takingBack({agree, judge, ann, bob}) {
  await ann.after("We all")
  await ann.insert(" TAKEN")
  await agree("before taking back")
  await bob.after("We all TAKEN")
  await pause(600)
  await bob.insert(" later")
  await bob.press("Escape", "ArrowRight")
  await bob.until("document.querySelectorAll('#changes li').length > 3")
  await agree("before a change is taken back")
  const buttonOf = words => `[...document.querySelectorAll("#changes .what")].find(it => it.textContent == ${JSON.stringify(words)})
    .closest("li").querySelector("button")`
  await bob.value(`${buttonOf("wrote “ TAKEN”")}.focus()`)
  await bob.press("Enter")
  const back = await agree("after another's change was taken back")
  judge(back.includes("We all later meet"), `taken back: ${back}`)
  await bob.press("Enter")
  judge(await agree("after the same key again") == back, "a change was taken back twice")
  await bob.value(`${buttonOf("wrote “ later”")}.focus()`)
  await bob.press("Enter")
  const own = await agree("after an own change was taken back")
  judge(own.includes("We all meet"), `taken back: ${own}`)
  await bob.after("We all")
  await bob.press("Ctrl-z")
  judge((await agree("after undo of taking back")).includes("We all TAKEN meet"), "what took a change back is not undone")
}

async function sliding({desk, judge, bob}) {
  await bob.value("document.getElementById('version').focus()")
  await bob.press("Home", ...Array(9).fill("ArrowRight"))
  const shown = await bob.value("document.querySelector('#past .ProseMirror').pmViewDesc.node.toString()")
  judge(shown == String((await desk.folded(NAME))[9]), `the slider shows as version 9 ${shown}`)
  judge(await bob.value("document.getElementById('editor').hidden"), "the editor is beside what was")
  await bob.press("End")
  judge(!await bob.value("document.getElementById('editor').hidden"), "the editor is gone")
}

async function offline({agree, judge, ann, bob}) {
  bob.line.cut()
  await bob.until("document.getElementById('connection').className == 'offline'")
  await bob.after("The")
  await bob.type(" offline")
  await bob.after("milk".slice(-2))
  await bob.press("Enter")
  await bob.select("Minutes")
  await bob.press("Ctrl-Alt-m")
  await bob.insert("From afar")
  await bob.press("Ctrl-Enter")
  judge(/changes? waits?/.test(await bob.value("document.getElementById('connection').textContent")), "the page does not say what waits")
  await ann.after("The")
  await ann.type(" meanwhile")
  await ann.after("Minutes")
  await ann.insert(" and notes")
  bob.line.mend()
  const both = await agree("after a time without connection")
  await ann.until("[...app.session.pm.cursorsOf(app.view.state).values()].some(it => it.name == 'Bob')")
  judge(both.includes(" offline") && both.includes(" meanwhile") && both.includes("and notes"), `both: ${both}`)
  await ann.until("app.session.comments.list.some(it => it.text == 'From afar')")
  for (const it of [ann, bob]) {
    const {"From afar": on} = await it.anchors()
    judge(on == "Minutes", `${it.name} has the comment on ${on}`)
  }
}

// The server takes what is sent, and its answer is lost.
async function losing({agree, judge, bob, ann}) {
  for (const [i, wait] of [0, 80, 200].entries()) {
    bob.line.delay = 100
    await bob.after("We all")
    await bob.insert(` once${i}`)
    await pause(wait)
    bob.line.cut()
    bob.line.delay = 0
    await bob.until("app.session.connection == 'offline'")
    bob.line.mend()
    const text = await agree(`after an answer was lost, ${i}`)
    judge(text.split(`once${i}`).length == 2, `once${i} stands there other than once: ${text}`)
  }
  judge(await ann.text() == await bob.text(), "the two differ")
}

// Whose token lets her only read sees what the others write.
async function reading({desk, agree, judge, ann, bob}) {
  const eve = await Writer.open(desk.browser, desk.lines[2], NAME, "Eve", {token: desk.token})
  const connection = await eve.value("document.getElementById('connection').textContent")
  judge(connection == "Connected, you may only read", `Eve's page says: ${connection}`)
  const text = await eve.text()
  await eve.value("document.querySelector('#editor .ProseMirror').focus()")
  await eve.press("x", "Enter", "Ctrl-b")
  judge(await eve.text() == text, `Eve wrote: ${await eve.text()}`)
  await bob.after("We all")
  await bob.insert(" see")
  await agree("beside one who reads")
  await eve.until(`app.view.state.doc.textContent.includes("We all see")`)
  judge((await ann.value("document.getElementById('people').textContent")).includes("Eve"), "Ann does not see Eve")
}

// Each thing to press has a name, and texts are light or dark enough on what they stand on.
async function reaching({judge, ann}) {
  const nameless = await ann.value(`[...document.querySelectorAll("button, select, input, textarea, [role=textbox]")].filter(it =>
    !it.labels?.length && !it.getAttribute("aria-label") && !it.textContent.trim()).map(it => it.outerHTML)`)
  judge(nameless.length == 0, `without a name: ${nameless}`)
  await ann.value("app.view.focus()")
  await ann.press("Alt-F10")
  judge(await ann.value("document.getElementById('tools').contains(document.activeElement)"), "Alt-F10 does not go to the tools")
  await ann.press("Escape")
  judge(await ann.value("app.view.hasFocus()"), "Escape does not go back to the document")
  await ann.press("Escape")
  judge(await ann.value("document.activeElement.getAttribute('role')") == "tab", "Escape does not leave the document")
  for (const value of ["light", "dark"]) {
    await ann.tab.call("Emulation.setEmulatedMedia", {features: [{name: "prefers-color-scheme", value}]})
    for (const [name, contrast] of await ann.value(CONTRASTS))
      judge(contrast >= 4.5, `${value}: ${name} has the contrast ${contrast.toFixed(1)}`)
  }
  await ann.tab.call("Emulation.setEmulatedMedia", {features: [{name: "prefers-color-scheme", value: "light"}]})
}

const CONTRASTS = `(() => {
  const channel = c => (c / 255 <= .03928 ? c / 255 / 12.92 : ((c / 255 + .055) / 1.055) ** 2.4)
  const light = color => (([r, g, b]) => .2126 * channel(r) + .7152 * channel(g) + .0722 * channel(b))(color.match(/[\\d.]+/g).map(Number))
  const ground = it => {
    const {backgroundColor} = getComputedStyle(it)
    return /, 0\\)$/.test(backgroundColor) && it.parentElement ? ground(it.parentElement) : backgroundColor
  }
  const names = ["h1", "#connection", "#people li", "#tools button", "[role=tab]", "#keys", ".ProseMirror p", ".ProseMirror a", ".soft"]
  return names.map(name => [name, document.querySelector(name)]).filter(([, it]) => it).map(([name, it]) => {
    const [a, b] = [light(getComputedStyle(it).color), light(ground(it))]
    return [name, (Math.max(a, b) + .05) / (Math.min(a, b) + .05)]
  })
})()`

/// All of it. `keep(picture)` is given a picture of the page.
export async function twoPages(desk, keep) {
  const {browser, judge, lines} = desk
  const [ann, bob] = await Promise.all([
    Writer.open(browser, lines[0], NAME, "Ann"), Writer.open(browser, lines[1], NAME, "Bob", {color: "#a8420c"}),
  ])
  for (const it of [ann, bob]) await it.value(COMPARE)
  const at = {desk, judge, ann, bob, agree: when => desk.agree(NAME, [ann, bob], when)}
  for (const act of [typing, formatting, linking, seeing, commenting, undoing, takingBack, sliding, offline, losing, reading, reaching]) {
    try {
      await act(at)
    } catch (error) {
      judge(false, `${act.name}: ${error.stack}`)
    }
  }
  keep(await ann.tab.picture())
  for (const it of [ann, bob]) {
    const [same, apart] = await it.value("compared")
    judge(apart == 0 && same > 50, `${it.name}: after ${same} transactions the editor and the engine had one document, after ${apart} not`)
    judge(await it.told() == "", `${it.name}'s page says: ${await it.told()}`)
  }
}
