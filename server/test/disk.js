// A small disk of its own, where one may be mounted.

import {execFileSync} from "node:child_process"
import fs from "node:fs"
import path from "node:path"
import {newFolder} from "./servers.js"

/** One of a size as `400k`, or null. */
export function smallDisk(size) {
  const folder = newFolder(), filler = path.join(folder, "filler")
  try {
    execFileSync("mount", ["-t", "tmpfs", "-o", `size=${size}`, "tmpfs", folder], {stdio: "ignore"})
  } catch {
    return null
  }
  return {
    folder,
    /** Takes all the room that is left. */
    fill() {
      const file = fs.openSync(filler, "w")
      try {
        for (;;) fs.writeSync(file, Buffer.alloc(4_096))
      } catch (error) {
        if (error.code != "ENOSPC") throw error
      } finally {
        fs.closeSync(file)
      }
    },
    free() { fs.rmSync(filler) },
    end() { execFileSync("umount", [folder]) },
  }
}
