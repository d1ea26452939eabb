// A network between editors and a server that is slow and breaks off: a relay whose connections pass bytes late, and are cut.

import net from "node:net"

/** Relays to a port. `delay()` gives milliseconds for each piece. */
export async function relayTo(port, delay = () => 0) {
  const pairs = new Set()
  const pass = (from, to) => {
    let last = Promise.resolve()
    from.on("data", data => {
      const due = Date.now() + delay()
      last = last.then(async () => {
        const left = due - Date.now()
        if (left > 0) await new Promise(resolve => setTimeout(resolve, left))
        if (!to.destroyed) to.write(data)
      })
    })
    from.on("close", () => last.then(() => to.destroy())).on("error", () => {})
  }
  const server = net.createServer(socket => {
    const other = net.connect(port, "127.0.0.1"), pair = [socket, other]
    pairs.add(pair)
    pass(socket, other)
    pass(other, socket)
    socket.on("close", () => pairs.delete(pair))
  })
  await new Promise(resolve => server.listen(0, "127.0.0.1", resolve))
  return {
    address: `http://127.0.0.1:${server.address().port}`,
    /** Cuts all connections, or a part of them. */
    cut(isOne = () => true) { for (const pair of pairs) if (isOne()) for (const socket of pair) socket.destroy() },
    close() {
      this.cut()
      return new Promise(resolve => server.close(resolve))
    },
  }
}
