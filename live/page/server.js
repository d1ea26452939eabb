// The page's server: it starts a house of documents, serves the page, hands each message on, and tells all pages the logs as they grow.
// usage: node live/page/server.js [PORT [FILE]]      8080 unless told, 0 for a free one; on this machine's own address alone
// With a FILE the documents are kept there, and found again at the next start.
//
//   GET /                            the page of the document `welcome`; /?document=D is that of another
//   GET /documents                   the documents with their versions, and which words the program has
//   POST /documents                  {"name":D}: a new one
//   POST /ask                        a message as JSON, where `in` names the document; its answer is the house's
//   GET /log?document=D&version=V    a stream of events: the log's entries from the version on, each time that it has grown
//   GET /comments?document=D&version=V      the comments, with their places at the version
//   POST /comments                   one more: {"document":D,"version":V,"from":P,"to":P,"by":T,"text":T,"quote":T}

"use strict"

const fs = require("fs")
const http = require("http")
const path = require("path")
const {bundle} = require("./bundle")
const {startDocuments} = require("./documents")

// A line's limit, which the house has too.
const MOST = 1048576

// What a page may ask.
const OPS = ["submit", "since", "doc", "revert"]

class Refusal extends Error {
  constructor(status, text) {
    super(text)
    this.status = status
  }
}

async function bodyOf(request) {
  const parts = []
  let size = 0
  for await (const part of request) {
    size += part.length
    if (size > MOST) throw new Refusal(413, "the message is too long")
    parts.push(part)
  }
  return Buffer.concat(parts).toString()
}

// The message of a request, which written anew is one line. A page of another origin may not send this type unasked.
async function messageOf(request) {
  if (request.headers["content-type"] != "application/json") throw new Refusal(415, "the message is no application/json")
  const text = await bodyOf(request)
  try {
    return Object(JSON.parse(text))
  } catch (error) {
    throw new Refusal(400, "the message is no JSON")
  }
}

function versionOf(text) {
  const version = Number(text)
  if (!Number.isSafeInteger(version) || version < 0) throw new Refusal(400, "no version")
  return version
}

function sendJson(response, value) {
  response.writeHead(200, {"Content-Type": "application/json"})
  response.end(JSON.stringify(value))
}

class Server {
  constructor(documents) {
    this.documents = documents
    this.files = {
      "/": ["text/html", fs.readFileSync(path.join(__dirname, "index.html"))],
      "/page.js": ["text/javascript", bundle(path.join(__dirname, "page.js"))],
      "/prosemirror.css": ["text/css", fs.readFileSync(require.resolve("prosemirror-view/style/prosemirror.css"))],
    }
    this.routes = {
      "GET /documents": ({response}) => sendJson(response, {documents: documents.list, words: documents.words}),
      "POST /documents": it => this.addDocument(it),
      "POST /ask": it => this.ask(it),
      "GET /log": it => this.listen(it),
      "GET /comments": it => this.tellComments(it),
      "POST /comments": it => this.addComment(it),
    }
    this.http = http.createServer((request, response) => {
      this.serve(request, response).catch(error => {
        response.writeHead(error.status || 500, {"Content-Type": "text/plain"})
        response.end(error.message)
      })
    })
  }

  async serve(request, response) {
    const url = new URL(request.url, "http://localhost"), route = this.routes[`${request.method} ${url.pathname}`]
    if (route) return route({request, response, words: url.searchParams})
    if (request.method != "GET") throw new Refusal(405, "only GET, and POST of some paths")
    const file = this.files[url.pathname]
    if (!file) throw new Refusal(404, "there is no such page")
    response.writeHead(200, {"Content-Type": `${file[0]}; charset=utf-8`})
    response.end(file[1])
  }

  find(name) {
    const found = this.documents.find(name)
    if (!found) throw new Refusal(404, "there is no such document")
    return found
  }

  async addDocument({request, response}) {
    if (!this.documents.words.open) throw new Refusal(409, "this engine has one document")
    sendJson(response, await this.documents.add((await messageOf(request)).name))
  }

  async ask({request, response}) {
    const {in: name, ...message} = await messageOf(request)
    if (!OPS.includes(message.op)) throw new Refusal(403, "a page may not ask this")
    sendJson(response, await this.find(name).ask(message))
  }

  // A browser that opens the stream again says how far it came.
  listen({request, response, words}) {
    const version = versionOf(request.headers["last-event-id"] || words.get("version")), document = this.find(words.get("document"))
    response.writeHead(200, {"Content-Type": "text/event-stream", "Cache-Control": "no-store"})
    response.write("\n")
    document.listen(request, response, version)
  }

  async tellComments({response, words}) {
    const {comments} = this.find(words.get("document"))
    sendJson(response, await comments.at(versionOf(words.get("version"))))
  }

  async addComment({request, response}) {
    const {document, ...value} = await messageOf(request)
    try {
      this.find(document).comment(value)
    } catch (error) {
      throw new Refusal(400, error.message)
    }
    sendJson(response, {})
  }

  close() {
    this.http.close()
    this.http.closeAllConnections()
    return this.documents.close()
  }
}

/// Starts the house and the server, with a file or without. Gives the server and its address.
async function startServer(port, file) {
  const server = new Server(await startDocuments(file))
  await new Promise((resolve, reject) => server.http.on("error", reject).listen(port, "127.0.0.1", resolve))
  return {server, address: `http://127.0.0.1:${server.http.address().port}/`}
}

module.exports = {startServer}

if (require.main === module) {
  const [port, file] = process.argv.slice(2)
  startServer(Number(port || 8080), file).then(({server, address}) => {
    if (file) console.log(`The documents are kept in ${file}`)
    console.log(`The page is at ${address} (Ctrl-C ends it)`)
    server.documents.house.ended.then(status => {
      console.error(`live: the engine ended with status ${status}`)
      process.exit(1)
    })
  }).catch(error => {
    console.error(`live: ${error.message}`)
    process.exit(1)
  })
}
