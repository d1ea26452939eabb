// What the browser runs: it joins the document that the address names, and puts the editor, the tools and the panels together.
//   /?document=NAME#token=TOKEN       without a token one is asked for, which a server gives where it is open to all

import {EditorState, Plugin, PluginKey, TextSelection} from "prosemirror-state"
import {ReplaceStep, Step} from "prosemirror-transform"
import {Decoration, DecorationSet, EditorView} from "prosemirror-view"
import {openEngine} from "../../bindings/js/src/index.js"
import {joinDocument} from "../client.js"
import {commandsOf, keysOf} from "./commands.js"
import {askName, editLink, insertImage, moveKept} from "./dialogs.js"
import {History} from "./history.js"
import {isFollowed, schema} from "./schema.js"
import {Tabs} from "./tabs.js"
import {Talk} from "./talk.js"
import {Toolbar} from "./toolbar.js"

const packages = {EditorState, Plugin, PluginKey, TextSelection, ReplaceStep, Step, Decoration, DecorationSet}

// Each is dark enough for white letters on it.
const COLORS = ["#1f5fbf", "#a8420c", "#22703a", "#8a2f8f", "#8a5a00", "#0b6b74", "#b02a4c", "#5346b3"]

const find = id => document.getElementById(id)
const tell = text => { find("told").textContent = text }

// ---- who, and where

const words = new URLSearchParams(location.search), secrets = new URLSearchParams(location.hash.slice(1))
const documentName = words.get("document") || "welcome"

// A page may be forbidden to keep anything.
const kept = {
  get(key) { try { return localStorage.getItem(key) } catch { return null } },
  set(key, value) { try { localStorage.setItem(key, value) } catch {} },
}

async function whoAmI() {
  const name = words.get("name") || kept.get("gezhufet-name") || (secrets.get("token") ? null : await askName())
  if (name) kept.set("gezhufet-name", name)
  return name
}

// A token is kept for the next connection, since another would be another user's.
let token = null

async function tokenFor(name, isRefused) {
  if (!token || isRefused) token = await newToken(name)
  return token
}

async function newToken(name) {
  const response = await fetch("token", {
    method: "POST", headers: {"Content-Type": "application/json"}, body: JSON.stringify({name}),
  })
  const {token: made, error} = await response.json()
  if (!response.ok) throw new Error(`${error.message}. This address needs a token: #token=..`)
  return made
}

// ---- what is shown of the session

const STATES = {connecting: "Connecting", online: "Connected", offline: "Offline, connecting again", closed: "Not connected"}

function showConnection(session) {
  const {connection, pending, mayWrite} = session, place = find("connection")
  const waiting = pending == 1 ? "1 change waits" : `${pending} changes wait`
  const told = [STATES[connection], !mayWrite && "you may only read", pending > 0 && connection != "online" && waiting]
  const text = told.filter(Boolean).join(", ")
  if (place.textContent != text) place.textContent = text
  place.className = connection
}

function showPeople({people: {list}, name, color}) {
  find("people").replaceChildren(...[{name: `${name} (you)`, color}, ...list].map(it => {
    const item = document.createElement("li"), dot = item.appendChild(document.createElement("i"))
    dot.style.backgroundColor = it.color
    item.append(it.name ?? "")
    return item
  }))
}

// Tab may be a list's. Escape leaves the document for the next control, and Alt-F10 goes to the tools.
function keydown(view, event, toolbar) {
  if (event.key == "Escape") {
    document.querySelector("[role=tab][aria-selected=true]").focus()
    return true
  }
  if (event.key != "F10" || !event.altKey) return false
  toolbar.focus()
  event.preventDefault()
  return true
}

function openLink(view, pos, event) {
  const link = schema.marks.link.isInSet(view.state.doc.resolve(pos).marks())
  if (!link || !(event.ctrlKey || event.metaKey) || !isFollowed(link.attrs.href)) return false
  window.open(link.attrs.href, "_blank", "noopener")
  return true
}

// ---- the page

function build(session, engine) {
  const ask = {link: editLink, image: insertImage, comment: (...args) => talk.begin(...args)}
  const commands = commandsOf(session.pm, ask)
  const view = new EditorView(find("editor"), {
    state: session.createState([keysOf(commands)]),
    attributes: {"aria-label": "The document", role: "textbox", "aria-multiline": "true", id: "document"},
    handleDOMEvents: {keydown: (_view, event) => keydown(view, event, toolbar)},
    handleClick: openLink,
    dispatchTransaction(tr) {
      view.updateState(view.state.apply(tr))
      moveKept(tr)
      later()
    },
  })
  const talk = new Talk(session, view, tell), history = new History(session, view, engine, tell), toolbar = new Toolbar(view, commands)
  const tabs = new Tabs(find("tab-comments"), find("tab-history"), name => name == "tab-history" && history.open())
  // The tools and lists show what has become of all transactions of a moment.
  let isDue = false
  const show = () => {
    isDue = false
    toolbar.show()
    showConnection(session)
    history.show()
  }
  const later = () => {
    if (isDue) return
    isDue = true
    setTimeout(show, 20)
  }
  show()
  return {view, talk, history, tabs, later}
}

const RESET = "The server no longer has what this page was at; the page shows the server's document."

function handlers(app) {
  return {
    onConnection(state, error) {
      showConnection(app.session)
      if (state == "closed" && error) tell(`The server lets this page in no longer: ${error.message}`)
      if (state == "online") tell("")
    },
    onPeople: () => showPeople(app.session),
    onComments: () => app.talk?.show(),
    onChoose: id => app.talk?.choose(id),
    onGrow: () => app.later?.(),
    onReset(lost, steps) {
      const changes = steps.length == 1 ? "1 change" : `${steps.length} changes`
      app.history.reset()
      tell(lost ? `${RESET} Lost: ${changes}, not sent yet. This was the text: ${lost.textBetween(0, lost.content.size, " ")}` : RESET)
    },
    onRefuse: (_step, error) => tell(`That change can't be made: ${error.message}`),
    onError: error => tell(error.message),
  }
}

async function main() {
  const engine = await openEngine({kind: "wasm", module: new URL("gezhufet.wasm", document.baseURI)})
  const name = await whoAmI(), given = secrets.get("token")
  const app = {}
  const url = new URL(`documents/${encodeURIComponent(documentName)}`, document.baseURI)
  if (words.get("schema")) url.searchParams.set("schema", words.get("schema"))
  url.protocol = url.protocol.replace("http", "ws")
  url.hash = ""
  const told = handlers(app), early = (_state, error) => { if (error) tell(error.message) }
  const session = await joinDocument({
    url: url.href, token: given || (isRefused => tokenFor(name, isRefused)), name,
    color: words.get("color") || COLORS[Math.floor(Math.random() * COLORS.length)],
    schema, engine, packages, ...told,
    onPeople: () => app.session && told.onPeople(),
    onConnection: (...it) => (app.session ? told.onConnection(...it) : early(...it)),
  })
  app.session = session
  find("title").textContent = document.title = documentName
  Object.assign(app, build(session, engine))
  showPeople(session)
  app.view.focus()
  window.addEventListener("beforeunload", event => { if (session.pending > 0) event.preventDefault() })
  window.app = app
}

main().catch(error => tell(`The document can't be opened: ${error.message}`))
