// The server by its command: it starts with no settings but a folder, gives tokens on this machine, and stops by a signal.

import assert from "node:assert/strict"
import {spawn} from "node:child_process"
import fs from "node:fs"
import http from "node:http"
import path from "node:path"
import {test} from "node:test"
import {fileURLToPath} from "node:url"
import {settingsOf} from "../settings.js"
import {LOGS, newFolder, PROGRAM, serve, skipsFiles} from "./servers.js"
import {SECRET, Talker} from "./talker.js"
import {within} from "./waiting.js"

const RUN = fileURLToPath(new URL("../run.sh", import.meta.url))

// Starts the command, and gives the line that its log has of an event.
function start(settings) {
  const env = {...process.env, GEZHUFET_PROGRAM: PROGRAM, GEZHUFET_SECRET: "", ...settings}
  const child = spawn(RUN, ["0"], {env, stdio: ["ignore", "ignore", "pipe"]})
  let text = ""
  child.stderr.setEncoding("utf8").on("data", part => { text += part })
  const ended = new Promise(resolve => child.on("exit", resolve))
  const line = async event => {
    for (;;) {
      const found = text.split("\n").find(it => it.includes(`"event":"${event}"`))
      if (found) return JSON.parse(found)
      await new Promise(resolve => setTimeout(resolve, 50))
    }
  }
  return {child, ended, line: event => within(line(event), event)}
}

for (const [store, logOf] of Object.entries(LOGS))
  test(`starts by one command, and keeps what was written, ${store}`, {skip: skipsFiles}, async () => {
    const folder = newFolder(), settings = {GEZHUFET_FOLDER: folder, GEZHUFET_STORE: store == "folder" ? "" : store}
    for (const version of [0, 1]) {
      const run = start(settings), {port} = await run.line("listening"), address = `http://127.0.0.1:${port}`
      const headers = {"Content-Type": "application/json"}
      const {token} = await (await fetch(`${address}/token`, {method: "POST", headers, body: '{"name":"Ann A."}'})).json()
      const ann = new Talker(address, "shared", {token})
      assert.equal((await ann.hello()).name, "Ann A.")
      assert.equal(ann.welcome.version, version)
      await ann.submit(version, "a")
      run.child.kill("SIGTERM")
      await ann.heard(it => it.op == "bye")
      assert.equal((await ann.closed).code, 1012)
      assert.equal(await within(run.ended, "the end"), 0)
    }
    assert.equal(fs.statSync(path.join(folder, "secret")).mode & 0o077, 0)
    assert.ok(fs.existsSync(path.join(folder, logOf("shared"))))
  })

test("settings are checked", () => {
  const of = (given, environment = {}) => settingsOf({secret: [SECRET], ...given}, environment)
  assert.throws(() => settingsOf({}, {}), /no secret/)
  assert.throws(() => of({secret: ["short"]}), /16 characters/)
  assert.throws(() => of({store: "tape"}), /no store/)
  assert.throws(() => of({store: "postgres"}), /GEZHUFET_DATABASE/)
  assert.throws(() => of({open: true, host: "0.0.0.0"}), /this machine alone/)
  assert.throws(() => of({}, {GEZHUFET_PORT: "many"}), /no number/)
  assert.throws(() => of({colour: "red"}), /no setting/)
  const settings = of({}, {GEZHUFET_MESSAGE_BYTES: "5000", GEZHUFET_ORIGINS: "https://a.example, https://b.example"})
  assert.deepEqual([settings.messageBytes, settings.origins], [5000, ["https://a.example", "https://b.example"]])
})

test("who is open to all gives tokens to pages of its own alone", async () => {
  const server = await serve({open: true}), post = headers =>
    fetch(`${server.address}/token`, {method: "POST", headers, body: "{}"})
  assert.equal((await post({"Content-Type": "application/json"})).status, 200)
  assert.equal((await post({"Content-Type": "text/plain"})).status, 400)
  assert.equal((await post({"Content-Type": "application/json", Origin: "https://elsewhere.example"})).status, 403)
  // A name that another's page has had lead here.
  const request = http.request({port: server.port, path: "/token", method: "POST", headers: {Host: "elsewhere.example"}})
  const answered = new Promise(resolve => request.on("response", resolve))
  request.end("{}")
  assert.equal((await answered).statusCode, 403)
  await server.stop()
})
