// What the browser runs: two editors of the document that the address names, and beside them the documents, the authors, the comments and
// the log.

"use strict"

const {colorsOf} = require("./authors")
const {History} = require("./history")
const {Pane} = require("./pane")
const {Record} = require("./record")
const {schema} = require("./schema")
const {Talk} = require("./talk")

const documentName = new URLSearchParams(location.search).get("document") || "welcome"
const find = id => document.getElementById(id)
const tell = text => { find("told").textContent = text }

/// What the server gives at a path, or answers to a value that is sent there.
async function call(path, value) {
  const body = value && {method: "POST", headers: {"Content-Type": "application/json"}, body: JSON.stringify(value)}
  const response = await fetch(path, body)
  if (!response.ok) throw new Error(await response.text())
  return response.json()
}

const place = version => `document=${encodeURIComponent(documentName)}&version=${version}`

const server = {
  ask: line => call("ask", {...line, in: documentName}),
  comments: version => call(`comments?${place(version)}`),
  comment: value => call("comments", {...value, document: documentName}),
}

// ---- documents

function showDocuments(documents) {
  find("documents").replaceChildren(...documents.map(({name, version}) => {
    const item = document.createElement("li"), link = item.appendChild(document.createElement("a"))
    link.href = `?document=${encodeURIComponent(name)}`
    link.textContent = name
    if (name == documentName) link.setAttribute("aria-current", "page")
    item.append(` (${version})`)
    return item
  }))
}

async function addDocument(event) {
  event.preventDefault()
  const name = find("new-name").value.trim(), answer = await call("documents", {name})
  if (answer.version === undefined) tell(`There is no document of that name to be made: ${JSON.stringify(answer)}`)
  else location.search = `?document=${encodeURIComponent(name)}`
}

// ---- authors

function showAuthors(record) {
  const isOn = find("authors").checked
  find("names").replaceChildren(...[...(isOn ? colorsOf(record) : [])].map(([name, color]) => {
    const item = document.createElement("li")
    item.textContent = name
    item.style.background = color
    return item
  }))
}

// ---- the page

const reviewer = `review.${crypto.getRandomValues(new Uint32Array(1))[0]}`

async function main() {
  const {documents, words} = await call("documents")
  showDocuments(documents)
  find("new-document").hidden = !words.open
  find("new-document").addEventListener("submit", event => addDocument(event).catch(error => tell(error.message)))

  const record = new Record(schema), opened = await server.ask({op: "doc"})
  const takeBack = words.revert ? run => server.ask({op: "revert", clientID: reviewer, ...run}) : null
  const history = new History(record, takeBack, tell)
  let talk = null
  const given = {record, server, onShow: () => talk?.later(), showsAuthors: () => find("authors").checked}
  const panes = [...document.querySelectorAll(".pane")].map(it => new Pane(it, opened, given))
  find("talk").hidden = !words.map
  for (const pane of panes) {
    const button = pane.place.querySelector("[data-comment]")
    button.hidden = !words.map
    button.addEventListener("mousedown", event => event.preventDefault())
    button.addEventListener("click", () => talk.begin(pane))
  }
  if (words.map) talk = new Talk(panes, server)

  find("authors").addEventListener("change", () => {
    showAuthors(record)
    for (const pane of panes) pane.view.updateState(pane.view.state)
  })
  // The browser opens the stream again where it breaks, and then tells the last version that it got.
  const log = new EventSource(`log?${place(0)}`)
  log.onmessage = ({data}) => {
    const entries = JSON.parse(data)
    record.add(entries)
    history.show()
    showAuthors(record)
    for (const pane of panes) pane.receive(entries)
  }
  log.addEventListener("comment", () => talk?.grow())
  talk?.later()
  Object.assign(window, {panes, record})
}

main().catch(error => tell(error.message))
