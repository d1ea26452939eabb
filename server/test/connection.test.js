// The client's connection by itself, over sockets that do what the test says.

import assert from "node:assert/strict"
import {test} from "node:test"
import {setImmediate as later} from "node:timers/promises"
import {Connection} from "../client/connection.js"
import {Clock} from "./clock.js"

async function connected(work) {
  const clock = new Clock(), sockets = []
  class Socket {
    said = []
    constructor() { sockets.push(this) }
    send(text) { this.said.push(JSON.parse(text)) }
    hears(message) { this.onmessage({data: JSON.stringify(message)}) }
    close() {}
  }
  const connection = new Connection({
    url: "ws://server/documents/a", token: "token", WebSocket: Socket, greeting: () => ({version: null}), onWelcome() {}, onMessage() {},
  })
  const welcome = async () => {
    await later()
    sockets.at(-1).onopen()
    sockets.at(-1).hears({op: "welcome", ticket: "ticket", expires: null})
  }
  try {
    await welcome()
    await work({clock, sockets, connection, welcome})
  } finally {
    connection.close()
    clock.end()
  }
}

test("a page that comes to look once a minute keeps its connection", () => connected(({clock, sockets: [socket], connection}) => {
  for (let minute = 0; minute < 5; minute++) {
    clock.pass(60_000)
    assert.deepEqual(socket.said.at(-1), {op: "ping"})
    socket.hears({op: "pong"})
  }
  assert.equal(connection.state, "online")
}))

test("a server that says nothing more is left, and sought again", () => connected(async ({clock, sockets, connection, welcome}) => {
  for (let seconds = 0; seconds < 40; seconds += 5) clock.pass(5_000)
  assert.equal(connection.state, "offline")
  clock.pass(1_000)
  await welcome()
  assert.equal(sockets.length, 2)
  assert.equal(sockets[1].said[0].ticket, "ticket")
  assert.equal(connection.state, "online")
}))
