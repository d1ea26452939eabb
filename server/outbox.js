// What goes out by one socket. A reader that is slow has only so much on its way: it is told no more, and not heard, until it has read.

/** What comes all the same, as comments, is so much at most. */
const MOST = 10

export class Outbox {
  #socket
  #wire
  #settings
  #counts
  #onReady
  #onSlow
  #bytes = 0
  #lengths = []
  #timer = null
  #isLate = false

  /**
   * @param {{socket: import("ws").WebSocket, wire: import("node:net").Socket}} ways the WebSocket, and what it writes to
   * @param {{settings: import("./settings.js").Settings, counts: ReturnType<import("./metrics.js").serverMetrics>}} server
   * @param {{onReady: () => void, onSlow: () => void}} calls when it has read, and when it has not for too long
   */
  constructor({socket, wire}, {settings, counts}, {onReady, onSlow}) {
    this.#socket = socket
    this.#wire = wire
    this.#settings = settings
    this.#counts = counts
    this.#onReady = onReady
    this.#onSlow = onSlow
  }

  get isSlow() { return this.#timer !== null }

  /** @param {Buffer} frame what `frameOf` made */
  send(frame) {
    if (this.#socket.readyState != this.#socket.constructor.OPEN) return
    this.#bytes += frame.length
    this.#lengths.push(frame.length)
    this.#counts.sent.add(frame.length)
    this.#wire.write(frame, this.#gone)
    if (this.#bytes > this.#settings.slowBytes && !this.isSlow) this.#pause()
    if (this.#bytes > MOST * this.#settings.slowBytes) this.#late()
  }

  #pause() {
    this.#counts.paused.add()
    this.#socket.pause()
    this.#timer = setTimeout(() => this.#late(), this.#settings.slowSeconds * 1000)
  }

  // Once: what is told of it comes by here as well.
  #late() {
    if (this.#isLate) return
    this.#isLate = true
    this.#onSlow()
  }

  // They go in the order in which they came.
  #gone = () => {
    this.#bytes -= this.#lengths.shift()
    if (!this.isSlow || this.#bytes > this.#settings.slowBytes / 2) return
    this.end()
    this.#onReady()
  }

  end() {
    clearTimeout(this.#timer)
    this.#timer = null
  }
}
