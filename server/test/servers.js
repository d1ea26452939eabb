// Servers for the tests: in this process, and as processes of their own.

import {spawn} from "node:child_process"
import fs from "node:fs"
import os from "node:os"
import path from "node:path"
import {after} from "node:test"
import {fileURLToPath} from "node:url"
import {makeLog} from "../log.js"
import {startServer} from "../server.js"
import {SECRET} from "./talker.js"

// What a test that has failed leaves open holds nobody up.
after(() => { setTimeout(() => process.exit(), 10_000).unref() })

const MAIN = fileURLToPath(new URL("../main.js", import.meta.url))

/** The program with the words `new` and `open`, where it was built. */
export const PROGRAM = process.env.PM_LIVE || fileURLToPath(new URL("../../crates/pm_live/out/pm_live", import.meta.url))

/** The stores over files, each with the file in which it has a document's log, and why their tests are skipped. */
export const LOGS = {folder: name => `${name}.log`, house: () => "house.log"}
export const skipsFiles = fs.existsSync(PROGRAM) ? false : `${PROGRAM} is not built`

export const newFolder = () => fs.mkdtempSync(path.join(os.tmpdir(), "gezhufet-server-"))

/** A server in this process over documents in memory, unless told. Its log's lines are kept. */
export async function serve(settings = {}) {
  const lines = []
  const log = makeLog("debug", line => lines.push(JSON.parse(line)))
  const given = {
    port: 0, secret: [SECRET], store: "memory", engines: 1, helloSeconds: 60, idleSeconds: 0.2, program: [PROGRAM], ...settings,
  }
  const server = await startServer(given, log)
  return Object.assign(server, {lines})
}

const variable = name => `GEZHUFET_${name.replace(/[A-Z]/g, letter => `_${letter}`).toUpperCase()}`

/** A server as a process. Gives it once it listens: its address, `kill` and `stop`, and the lines of its log. */
export async function spawnServer(settings) {
  const given = {port: 0, secret: SECRET, program: PROGRAM, engines: 1, logLevel: "info", ...settings}
  const env = {...process.env, ...Object.fromEntries(Object.entries(given).map(([name, value]) => [variable(name), String(value)]))}
  const child = spawn(process.execPath, [MAIN], {env, stdio: ["ignore", "inherit", "pipe"]})
  const lines = [], ended = new Promise(resolve => child.on("exit", (status, signal) => resolve(signal ?? status)))
  const listening = new Promise((resolve, reject) => {
    let text = ""
    child.stderr.setEncoding("utf8").on("data", part => {
      const rows = (text + part).split("\n")
      text = rows.pop()
      for (const row of rows) {
        const line = asLine(row)
        lines.push(line)
        if (line.event == "listening") resolve(line.port)
      }
    })
    ended.then(status => reject(new Error(`the server ended with ${status}: ${JSON.stringify(lines.slice(-3))}`)))
  })
  const end = signal => {
    child.kill(signal)
    return ended
  }
  const port = await listening
  return {port, address: `http://127.0.0.1:${port}`, lines, ended, pid: child.pid, kill: () => end("SIGKILL"), stop: () => end("SIGTERM")}
}

function asLine(row) {
  try {
    return JSON.parse(row)
  } catch {
    return {event: "text", text: row}
  }
}
