// A line between a page and the server: a TCP port that hands all on, late where it is told to, and that can be cut.

import net from "node:net"

export class Line {
  #server
  #pairs = new Set()
  #isCut = false
  /// How many milliseconds later all comes, and the port to which it goes.
  delay = 0
  target = 0

  async open() {
    this.#server = net.createServer(socket => this.#join(socket))
    await new Promise(resolve => this.#server.listen(0, "127.0.0.1", resolve))
    return this
  }

  get address() { return `http://127.0.0.1:${this.#server.address().port}` }

  #join(near) {
    if (this.#isCut) return near.destroy()
    const far = net.connect(this.target, "127.0.0.1"), pair = [near, far]
    const end = () => {
      this.#pairs.delete(pair)
      pair.forEach(it => it.destroy())
    }
    this.#pairs.add(pair)
    this.#hand(near, far)
    this.#hand(far, near)
    for (const socket of pair) socket.on("close", end).on("error", end)
  }

  // What came first is handed on first.
  #hand(from, to) {
    let before = Promise.resolve()
    from.on("data", data => {
      const late = new Promise(resolve => setTimeout(resolve, this.delay))
      before = before.then(() => late).then(() => { if (!to.destroyed) to.write(data) })
    })
  }

  /// Ends all that is open, and lets nothing new through.
  cut() {
    this.#isCut = true
    for (const pair of this.#pairs) pair.forEach(it => it.destroy())
  }

  mend() { this.#isCut = false }

  close() {
    this.cut()
    return new Promise(resolve => this.#server.close(resolve))
  }
}
