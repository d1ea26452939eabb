// The relays beside which the server is loaded, with the updates of Yjs: what one sends is handed on to all others at the document. There
// is no schema, and nothing is checked. `yjs` keeps each document too, as Yjs' own relay does, and gives it to who comes. It says its port,
// and how many letters a document has.
// usage: node bench/load-relay.js relay|yjs

"use strict"

const http = require("http")
const {WebSocketServer} = require("ws")
const Y = require("yjs")

const isKept = process.argv[2] == "yjs"
const rooms = new Map()

function roomOf(name) {
  if (!rooms.has(name)) rooms.set(name, {doc: new Y.Doc(), sockets: new Set(), updates: 0})
  return rooms.get(name)
}

const lengthOf = ({doc, updates}) => (isKept ? doc.getText("text").length : updates)

const server = http.createServer(({url}, response) => response.end(JSON.stringify({length: lengthOf(roomOf(url))})))

new WebSocketServer({server}).on("connection", (socket, {url}) => {
  const room = roomOf(url), {doc, sockets} = room
  sockets.add(socket)
  socket.send(Y.encodeStateAsUpdate(doc))
  socket.on("message", update => {
    room.updates++
    if (isKept) Y.applyUpdate(doc, update)
    for (const other of sockets) if (other !== socket) other.send(update, {binary: true})
  })
  socket.on("close", () => sockets.delete(socket))
})
server.listen(0, "127.0.0.1", () => console.log(server.address().port))
