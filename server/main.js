// The server as a process: its settings are the environment's. SIGTERM and SIGINT stop it. With the word `--restored` each document gets
// another epoch.

import {makeLog, said} from "./log.js"
import {startServer} from "./server.js"

const server = await startServer({restored: process.argv.includes("--restored")}).catch(error => fail("not-started", error))

let isStopping = false
for (const signal of ["SIGTERM", "SIGINT"])
  process.on(signal, () => {
    // Who says it twice does not want to wait.
    if (isStopping) process.exit(130)
    isStopping = true
    server.stop().then(() => process.exit(0), error => fail("not-stopped", error))
  })

// What nobody has seen to may have left anything half done.
process.on("uncaughtException", error => fail("uncaught", error))
process.on("unhandledRejection", error => fail("uncaught", error))

function fail(event, error) {
  makeLog().error(event, {...said(error), stack: error?.stack})
  process.exit(1)
}
