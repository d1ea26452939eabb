// What the server gives by HTTP: its health and metrics, documents and their logs to read, and the demo page.

import {randomBytes} from "node:crypto"
import {Refusal, refusalOf} from "./errors.js"
import {said} from "./log.js"
import {isFromOwn} from "./origins.js"
import {nameOf} from "./presence.js"
import {rightOf} from "./rights.js"
import {signToken} from "./tokens.js"

const MOST_BODY = 10_000
const DEMO_HOURS = 12

const PAGE_HEADERS = {
  "Content-Security-Policy": "default-src 'self'; connect-src 'self' ws: wss:; img-src * data:; style-src 'self' 'unsafe-inline'; "
    + "script-src 'self' 'wasm-unsafe-eval'; frame-ancestors 'self'",
  "Referrer-Policy": "no-referrer",
  "Cache-Control": "no-cache",
}

const JSON_HEADERS = {"Content-Type": "application/json", "Cache-Control": "no-store", "X-Content-Type-Options": "nosniff"}

/** The token of a request: a header, or for a WebSocket a subprotocol, since a browser's has no headers. */
export function tokenOf({headers}) {
  const [, bearer] = /^Bearer ([\w.-]+)$/.exec(headers.authorization ?? "") ?? []
  if (bearer) return bearer
  const told = (headers["sec-websocket-protocol"] ?? "").split(/\s*,\s*/).find(it => it.startsWith("token."))
  return told ? told.slice("token.".length) : null
}

/** Where a request goes. */
export function addressOf({url}) {
  if (!URL.canParse(url, "http://server")) throw new Refusal("document", "this is no address")
  return new URL(url, "http://server")
}

async function bodyOf(request) {
  if (request.headers["content-type"]?.split(";")[0] != "application/json") throw new Refusal("json", "the body is no application/json")
  const parts = []
  let size = 0
  for await (const part of request) {
    if ((size += part.length) > MOST_BODY) throw new Refusal("too-long", "the body is too long")
    parts.push(part)
  }
  try {
    return JSON.parse(Buffer.concat(parts)) ?? {}
  } catch {
    throw new Refusal("json", "the body is no JSON")
  }
}

const countOf = (text, standing) => {
  if (text === null) return standing
  if (!/^\d{1,15}$/.test(text)) throw new Refusal("op", "a version is a number")
  return Number(text)
}

export class Door {
  #server
  #pages

  /**
   * @param {import("./server.js").Parts} server
   * @param {Map<string, {type: string, body: Buffer | string}>} pages
   */
  constructor(server, pages) {
    this.#server = server
    this.#pages = pages
  }

  /** Answers a request. */
  async serve(request, response) {
    try {
      if (!isFromOwn(request, this.#server.settings)) throw new Refusal("origin", "pages of this origin may not use the server")
      await this.#route(request, response)
    } catch (error) {
      const refusal = refusalOf(error, this.#server.log)
      this.#json(response, refusal.status, {error: refusal}, refusal.retry ? {"Retry-After": Math.ceil(refusal.retry / 1000)} : {})
    }
  }

  #json(response, status, value, headers = {}) {
    if (response.headersSent) return response.end()
    response.writeHead(status, {...JSON_HEADERS, ...headers})
    response.end(JSON.stringify(value))
  }

  async #route(request, response) {
    const {pathname, searchParams} = addressOf(request), {method} = request
    this.#allow(request, response)
    if (method == "OPTIONS") return response.writeHead(204).end()
    if (method == "POST" && pathname == "/token") return this.#json(response, 200, await this.#demoToken(request))
    if (method != "GET" && method != "HEAD") throw new Refusal("op", "only GET, and POST of /token")
    if (pathname == "/health") return this.#health(response)
    if (pathname == "/metrics") return this.#metrics(response)
    const [, name, part = ""] = /^\/documents\/([^/]+)(?:\/(entries|first|comments))?$/.exec(pathname) ?? []
    if (name) return this.#document(request, response, {name, part, searchParams})
    return this.#page(pathname, response)
  }

  // A page of another origin that may use the server may read its answers.
  #allow({headers: {origin}}, response) {
    if (origin === undefined) return
    response.setHeader("Access-Control-Allow-Origin", origin)
    response.setHeader("Access-Control-Allow-Headers", "Authorization, Content-Type")
    response.setHeader("Vary", "Origin")
  }

  #metrics(response) {
    response.writeHead(200, {"Content-Type": "text/plain; version=0.0.4"})
    response.end(this.#server.counts.metrics.text())
  }

  async #health(response) {
    if (this.#server.isStopping) return this.#json(response, 503, {status: "stopping"})
    try {
      await this.#server.store.check()
    } catch (error) {
      this.#server.log.warn("unhealthy", said(error.cause ?? error))
      return this.#json(response, 503, {status: error instanceof Refusal ? error.message : "the store fails"})
    }
    this.#json(response, 200, {status: "ok"})
  }

  async #demoToken(request) {
    if (!this.#server.settings.open) throw new Refusal("access", "the server gives no tokens; it is not open to all")
    const {name} = await bodyOf(request), expires = Date.now() + DEMO_HOURS * 3_600_000
    const shown = nameOf(name) || "Somebody"
    const user = `${shown.replace(/[^A-Za-z0-9]/g, "").slice(0, 16) || "user"}.${randomBytes(4).toString("hex")}`
    return {token: signToken(this.#server.settings.secret[0], {user, name: shown, documents: {"*": "write"}, expires}), user, expires}
  }

  async #document(request, response, {name, part, searchParams}) {
    const {documents, users} = this.#server, {user} = await rightOf(this.#server, {request, token: tokenOf(request), document: name})
    users.send(user, 0)
    const document = await documents.take(name)
    if (!document) throw new Refusal("document", "there is no such document")
    try {
      this.#json(response, 200, await PARTS[part](document, searchParams))
    } finally {
      documents.leave(document)
    }
  }

  #page(pathname, response) {
    const page = this.#pages.get(pathname)
    if (!page) throw new Refusal("document", "there is no such page")
    response.writeHead(200, {"Content-Type": page.type, "X-Content-Type-Options": "nosniff", ...PAGE_HEADERS})
    response.end(page.body)
  }
}

const about = ({name, held: {schemaName, schema, epoch}}) => ({document: name, schemaName, schema, epoch})

/** What there is of a document. */
const PARTS = {
  async ""(document) {
    const {text, version} = await document.doc()
    return {...about(document), doc: JSON.parse(text), version}
  },
  async first(document) { return {...about(document), ...await document.held.doc(true)} },
  async entries(document, searchParams) {
    await document.catchUp()
    const from = countOf(searchParams.get("from"), 0), most = countOf(searchParams.get("to"), document.version)
    const {text} = await document.entries(from, Math.max(from, Math.min(most, document.version)))
    return {from, ...JSON.parse(text), length: document.version, epoch: document.held.epoch}
  },
  async comments(document) {
    if (!document.comments.isBegun) await document.doc()
    return {comments: await document.comments.list()}
  },
}
