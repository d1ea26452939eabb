// A PostgreSQL of the tests' own, in a folder that goes away with it, by a socket and a port of its own.

import {execFileSync, spawn} from "node:child_process"
import fs from "node:fs"
import net from "node:net"
import os from "node:os"
import path from "node:path"
import {packageOf} from "../packages.js"

const VERSIONS = "/usr/lib/postgresql"

const programs = () => {
  const found = fs.existsSync(VERSIONS) ? fs.readdirSync(VERSIONS).map(it => path.join(VERSIONS, it, "bin")) : []
  return found.find(it => fs.existsSync(path.join(it, "initdb")))
}

// PostgreSQL does not run as root.
const isRoot = process.getuid() == 0
const asOwner = words => (isRoot ? ["runuser", "-u", "postgres", "--", ...words] : words)

function run(words, options) {
  const [program, ...rest] = asOwner(words)
  return execFileSync(program, rest, {stdio: ["ignore", "pipe", "pipe"], ...options})
}

const freePort = () => new Promise(resolve => {
  const server = net.createServer().listen(0, "127.0.0.1", () => {
    const {port} = server.address()
    server.close(() => resolve(port))
  })
})

function missing() {
  try {
    packageOf("pg")
  } catch {
    return "the package pg is missing (Debian: node-pg)"
  }
  return programs() ? null : "PostgreSQL is missing (Debian: postgresql)"
}

/** Starts it, or says what is missing. `database` gives the address of a new one. */
export async function startPostgres() {
  const why = missing()
  if (why) return {missing: why, database: () => "", stop() {}}
  const bin = programs(), folder = fs.mkdtempSync(path.join(os.tmpdir(), "gezhufet-postgres-")), port = await freePort()
  if (isRoot) execFileSync("chown", ["postgres", folder])
  const data = path.join(folder, "data")
  run([path.join(bin, "initdb"), "-D", data, "-A", "trust", "-U", "postgres", "--no-sync", "-E", "UTF8", "--locale", "C"], {cwd: folder})
  const [program, ...words] = asOwner([path.join(bin, "postgres"), "-D", data, "-p", String(port), "-k", folder, "-h", "127.0.0.1", "-F"])
  const child = spawn(program, words, {cwd: folder, stdio: "ignore"})
  const ended = new Promise(resolve => child.on("exit", resolve))
  const client = [path.join(bin, "psql"), "-h", folder, "-p", String(port), "-U", "postgres", "-Atq"]
  const psql = (statement, name = "postgres") => run([...client, "-d", name, "-c", statement], {cwd: folder})
  const address = name => `postgres://postgres@127.0.0.1:${port}/${name}`
  for (let tries = 0; ; tries++) {
    try {
      psql("SELECT 1")
      break
    } catch (error) {
      if (tries > 100) throw error
      await new Promise(resolve => setTimeout(resolve, 100))
    }
  }
  return {
    missing: null,
    address,
    /** An empty database, in another folder where one is told. */
    database(name, place = null) {
      if (place) psql(`CREATE TABLESPACE ${name} LOCATION '${place}'`)
      psql(`CREATE DATABASE ${name} ${place ? `TABLESPACE ${name}` : ""}`)
      return address(name)
    },
    run(name, statement) { psql(statement, name) },
    /** What pg_dump says of a database, and a database that is made of that anew. */
    dump: name => run([path.join(bin, "pg_dump"), "-h", folder, "-p", String(port), "-U", "postgres", name], {cwd: folder}),
    restore(name, dumped) {
      psql(`DROP DATABASE ${name}`)
      psql(`CREATE DATABASE ${name}`)
      run([...client, "-d", name], {cwd: folder, input: dumped, stdio: ["pipe", "pipe", "pipe"]})
    },
    /** The rows of a statement. */
    async rows(name, text, values) {
      const {Client} = packageOf("pg"), client = new Client({connectionString: address(name)})
      await client.connect()
      try {
        return (await client.query(text, values)).rows
      } finally {
        await client.end()
      }
    },
    /** Ends all connections to a database, as a restart does. */
    cut(name) { psql(`SELECT pg_terminate_backend(pid) FROM pg_stat_activity WHERE datname = '${name}'`) },
    async stop() {
      run([path.join(bin, "pg_ctl"), "-D", data, "-m", "immediate", "-W", "stop"], {cwd: folder})
      await ended
      fs.rmSync(folder, {recursive: true, force: true})
    },
  }
}
