// The server's settings: what a caller says, else what the environment says, else what stands here. docs/use/SERVER.md describes them.

import path from "node:path"
import {fileURLToPath} from "node:url"

const HERE = path.dirname(fileURLToPath(import.meta.url))

/** The engine's lines have 1,048,576 bytes. */
const MOST_BYTES = 1_000_000

/** A list in the environment is written with commas. */
const DEFAULTS = {
  host: "127.0.0.1",
  port: 8080,
  store: "folder",
  folder: path.join(HERE, "..", "out", "server"),
  database: "",
  databaseConnections: 10,
  program: [path.join(HERE, "..", "crates", "pm_live", "out", "pm_live")],
  engine: "",
  engines: 4,
  secret: [],
  open: false,
  origins: [],
  access: path.join(HERE, "access.js"),
  schemas: path.join(HERE, "schemas"),
  schema: "basic",
  logLevel: "info",
  // Whether what keeps the documents was put back from an older state: each has another epoch then.
  restored: false,
  // What one may send.
  messageBytes: 1_000_000,
  messagesPerSecond: 50,
  messageBurst: 200,
  bytesPerSecond: 2_000_000,
  // How many there may be.
  connections: 10_000,
  connectionsPerUser: 50,
  documents: 5_000,
  documentsPerUser: 50,
  newDocumentsPerHour: 100,
  comments: 1_000,
  commentText: 10_000,
  // A reader that has so many bytes coming is told no more until it reads, and is let go after so many seconds.
  slowBytes: 1_000_000,
  slowSeconds: 30,
  helloSeconds: 10,
  pingSeconds: 15,
  deadSeconds: 45,
  idleSeconds: 30,
  stopSeconds: 10,
  ticketDays: 7,
  // How many entries of a document are kept at hand, and after how many a snapshot is made.
  entriesAtHand: 2_000,
  snapshotEvery: 500,
}

/** @typedef {typeof DEFAULTS} Settings */

const variableOf = name => `GEZHUFET_${name.replace(/[A-Z]/g, letter => `_${letter}`).toUpperCase()}`

function read(name, kind, text) {
  if (Array.isArray(kind)) return text.split(/[\s,]+/).filter(word => word)
  if (typeof kind == "boolean") return ["1", "true", "yes"].includes(text)
  if (typeof kind == "string") return text
  const number = Number(text)
  if (!Number.isFinite(number) || number < 0 || text.trim() == "") throw new Error(`${name} is ${text}, which is no number`)
  return number
}

const isLocal = host => host == "localhost" || host == "::1" || /^127\.\d+\.\d+\.\d+$/.test(host)

function checked(settings) {
  const {store, secret, open, host, database, messageBytes} = settings
  if (!["folder", "house", "postgres", "memory"].includes(store)) throw new Error(`there is no store ${store}`)
  if (store == "postgres" && !database) throw new Error("the store postgres needs GEZHUFET_DATABASE")
  if (secret.length == 0) throw new Error("there is no secret to sign tokens with: GEZHUFET_SECRET")
  if (secret.some(it => it.length < 16)) throw new Error("a secret has 16 characters at least")
  if (messageBytes > MOST_BYTES) throw new Error(`GEZHUFET_MESSAGE_BYTES is ${messageBytes}, and may be ${MOST_BYTES}`)
  if (open && !isLocal(host)) throw new Error(`who is open to all listens on this machine alone, not on ${host}`)
  return settings
}

/**
 * The settings that hold.
 * @param {Partial<Settings>} given
 * @param {Record<string, string | undefined>} environment
 * @returns {Settings}
 */
export function settingsOf(given = {}, environment = process.env) {
  const unknown = Object.keys(given).filter(name => !(name in DEFAULTS))
  if (unknown.length) throw new Error(`there is no setting ${unknown[0]}`)
  const settings = {}
  for (const [name, standing] of Object.entries(DEFAULTS)) {
    const variable = variableOf(name), text = environment[variable]
    settings[name] = given[name] ?? (text === undefined || text === "" ? standing : read(variable, standing, text))
  }
  settings.secret = [settings.secret].flat()
  return checked(settings)
}
