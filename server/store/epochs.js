// The epochs of documents in a folder. The epoch of a log is a random value, the same as long as the log only grows: an editor that comes
// back with it goes on, and one with another value would go on from a log that is gone.
//
// It stands in NAME.epoch, with how long the log was and which file this was, as it was written. What is put back from a copy is another
// file, also where it is written over the one that was there; and a log that is put back without it may be shorter. In both cases the log
// gets another epoch. Where nothing shows it, as after a whole disk was put back, these files are taken away.

import {randomBytes} from "node:crypto"
import fs from "node:fs/promises"
import path from "node:path"
import {syncFolder} from "./notes.js"

export const newEpoch = () => randomBytes(9).toString("base64url")

// Which file an open one is. Where the disk does not know when a file was made, that is 0.
const markOf = async handle => {
  const {ino, birthtimeNs} = await handle.stat({bigint: true})
  return `${ino}.${birthtimeNs}`
}

async function using(file, flag, work) {
  const handle = await fs.open(file, flag, 0o600)
  try {
    return await work(handle)
  } finally {
    await handle.close()
  }
}

/**
 * The epoch of a log that is so long by now: what the file says, else a new one.
 * @param {string} file
 * @param {number} version
 */
export async function epochIn(file, version) {
  try {
    const [text, mark] = await using(file, "r", async handle => [await handle.readFile("utf8"), await markOf(handle)])
    const noted = JSON.parse(text)
    return noted.mark === mark && noted.version <= version ? noted.epoch : newEpoch()
  } catch {
    return newEpoch()
  }
}

/** Notes the epoch of a log that is so long, in a file that is new. */
export async function noteEpoch(file, epoch, version) {
  const made = `${file}.new`
  await fs.rm(made, {force: true})
  await using(made, "wx", async handle => {
    await handle.writeFile(JSON.stringify({epoch, version, mark: await markOf(handle)}))
    await handle.sync()
  })
  await fs.rename(made, file)
  await syncFolder(path.dirname(file))
}

/** Has each log of a folder get another epoch. */
export async function forgetEpochs(folder) {
  for (const name of await fs.readdir(folder)) if (name.endsWith(".epoch")) await fs.rm(path.join(folder, name))
  await syncFolder(folder)
}
