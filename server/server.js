// The server: documents over WebSockets and HTTP. docs/use/SERVER.md describes it.

import http from "node:http"
import {pathToFileURL} from "node:url"
import {Connection} from "./connection.js"
import {Documents} from "./documents.js"
import {Engines} from "./engine.js"
import {Refusal, refusalOf} from "./errors.js"
import {addressOf, Door, tokenOf} from "./http.js"
import {makeLog, said} from "./log.js"
import {serverMetrics} from "./metrics.js"
import {isFromOwn} from "./origins.js"
import {packageOf} from "./packages.js"
import {pages} from "./pages.js"
import {settingsOf} from "./settings.js"
import {storeOf} from "./store/store.js"
import {Users} from "./users.js"

/**
 * What the parts of a server share.
 * @typedef {object} Parts
 * @property {import("./settings.js").Settings} settings
 * @property {import("./log.js").Log} log
 * @property {ReturnType<typeof serverMetrics>} counts
 * @property {import("./store/store.js").Store} store
 * @property {Documents} documents
 * @property {Users} users
 * @property {typeof import("./access.js").access} access
 * @property {boolean} isStopping
 * @property {(connection: Connection) => void} forget
 */

/** In milliseconds. A proxy, which closes what is idle for a minute, does so before the server, and sends nothing to where nobody hears. */
const TIMES = {headersTimeout: 20_000, requestTimeout: 30_000, keepAliveTimeout: 65_000}

/** How much longer than it may be a message is read, to be told so. */
const SPARE = 65_536

class Server {
  #connections = new Set()
  #http
  #port
  #sockets
  #beat
  #stopped = null

  /** @param {import("./settings.js").Settings} settings */
  constructor(settings, log) {
    this.settings = settings
    this.log = log
    this.isStopping = false
    this.counts = serverMetrics()
    this.users = new Users(settings)
  }

  async start() {
    const {settings, log} = this, engines = new Engines({kind: settings.engine, count: settings.engines})
    const hasEngine = await engines.isThere()
    if (!hasEngine && ["postgres", "memory"].includes(settings.store))
      throw new Error("this store needs the engine in this process: ./pm wasm builds it")
    if (!hasEngine) log.warn("no-engine-here", {message: "comments' places are not carried along; ./pm wasm builds the engine for it"})
    this.access = (await import(pathToFileURL(settings.access))).access
    this.store = storeOf(settings, {engines, log})
    await this.store.start()
    if (settings.restored) await this.store.renew()
    this.documents = new Documents({settings, store: this.store, engines: hasEngine ? engines : null, log})
    this.#gauges()
    await this.#listen(await this.#pages())
    this.#beat = setInterval(() => this.#ping(), settings.pingSeconds * 1000)
    log.info("listening", {host: settings.host, port: this.port, store: settings.store, pid: process.pid})
    return this
  }

  // A server without its page serves all the same.
  async #pages() {
    try {
      return await pages()
    } catch (error) {
      this.log.warn("no-page", said(error))
      return new Map()
    }
  }

  get port() { return this.#port }

  get address() { return `http://${this.settings.host.includes(":") ? `[${this.settings.host}]` : this.settings.host}:${this.port}` }

  #gauges() {
    const {metrics} = this.counts
    metrics.gauge("connections", "Connections that are open.", () => this.#connections.size)
    metrics.gauge("documents", "Documents that are open.", () => this.documents.size)
    metrics.gauge("users", "Users that are known at present.", () => this.users.size)
    const slow = () => [...this.#connections].filter(it => it.isSlow).length
    metrics.gauge("slow_readers", "Connections that are told no more until they read.", slow)
    metrics.gauge("memory_bytes", "The resident memory of this process.", () => process.memoryUsage.rss())
    metrics.gauge("processor_seconds", "The processor time of this process.", () => {
      const {user, system} = process.cpuUsage()
      return (user + system) / 1e6
    })
  }

  // ---- connections

  async #listen(pages) {
    const {settings} = this, door = new Door(this, pages)
    const {WebSocketServer} = packageOf("ws")
    this.#sockets = new WebSocketServer({
      noServer: true, maxPayload: settings.messageBytes + SPARE, perMessageDeflate: false, clientTracking: false,
      handleProtocols: offered => (offered.has("gezhufet") ? "gezhufet" : false),
    })
    this.#http = http.createServer(TIMES, (request, response) => door.serve(request, response))
    this.#http.on("upgrade", (request, socket, head) => this.#upgrade(request, socket, head))
    await new Promise((resolve, reject) => this.#http.once("error", reject).listen(settings.port, settings.host, resolve))
    this.#port = this.#http.address().port
  }

  #upgrade(request, socket, head) {
    socket.on("error", () => {})
    try {
      const asked = this.#asked(request)
      this.#sockets.handleUpgrade(request, socket, head, webSocket => {
        this.counts.opened.add()
        this.#connections.add(new Connection(webSocket, asked, this))
      })
    } catch (error) {
      refuse(socket, refusalOf(error, this.log))
    }
  }

  // What a request for a WebSocket asks for, where it may have one.
  #asked(request) {
    const {pathname, searchParams} = addressOf(request), [, name] = /^\/documents\/([^/]*)$/.exec(pathname) ?? []
    if (name === undefined) throw new Refusal("document", "a WebSocket is at /documents/NAME")
    if (!isFromOwn(request, this.settings)) throw new Refusal("origin", "pages of this origin may not use the server")
    if (this.isStopping) throw new Refusal("stopping", "the server stops")
    // (those whose tokens are not read yet count too)
    if (this.#connections.size >= 2 * this.settings.connections) throw new Refusal("limit", "the server has too many connections")
    return {name, schema: searchParams.get("schema"), token: tokenOf(request), request}
  }

  forget(connection) { this.#connections.delete(connection) }

  #ping() {
    const late = Date.now() - this.settings.deadSeconds * 1000
    for (const {socket, heard} of this.#connections) {
      if (heard < late) socket.terminate()
      else if (socket.readyState == socket.constructor.OPEN) socket.ping()
    }
  }

  // ---- the end

  /** Takes nothing more, answers what was taken, says goodbye and ends. */
  stop() {
    this.#stopped ??= this.#stop()
    return this.#stopped
  }

  async #stop() {
    const {log, settings} = this, limit = new Promise(resolve => setTimeout(resolve, settings.stopSeconds * 1000).unref())
    log.info("stopping", {connections: this.#connections.size})
    this.isStopping = true
    clearInterval(this.#beat)
    const closed = new Promise(resolve => this.#http.close(resolve))
    this.#http.closeIdleConnections()
    await Promise.race([Promise.all([...this.#connections].map(it => it.settled)), limit])
    for (const connection of [...this.#connections]) {
      connection.say({op: "bye", retry: 1000})
      connection.close(1012, "stopping")
    }
    await Promise.race([this.#gone(), limit])
    for (const {socket} of this.#connections) socket.terminate()
    await this.documents.end()
    await this.store.end()
    this.users.end()
    this.#http.closeAllConnections()
    await closed
    log.info("stopped")
  }

  async #gone() { while (this.#connections.size) await new Promise(resolve => setTimeout(resolve, 10)) }
}

// Before a WebSocket is one, HTTP says why it is none.
function refuse(socket, refusal) {
  const body = JSON.stringify({error: refusal})
  const head = `HTTP/1.1 ${refusal.status} ${http.STATUS_CODES[refusal.status]}\r\nContent-Type: application/json\r\nConnection: close\r\n`
  socket.end(`${head}Content-Length: ${Buffer.byteLength(body)}\r\n\r\n${body}`)
}

/**
 * Starts a server: with these settings, and for the others those of the environment. Gives it once it listens.
 * @param {Partial<import("./settings.js").Settings>} given
 * @param {import("./log.js").Log} [log]
 */
export async function startServer(given = {}, log = undefined) {
  const settings = settingsOf(given)
  return new Server(settings, log ?? makeLog(settings.logLevel)).start()
}
