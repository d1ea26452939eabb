// Debian's packages, which are CommonJS and are found by NODE_PATH (server/packages.sh).

import {createRequire} from "node:module"

const require = createRequire(import.meta.url)

/** A package by its name, from where Debian puts it too. */
export function packageOf(name) {
  try {
    return require(name)
  } catch (error) {
    if (error.code != "MODULE_NOT_FOUND") throw error
    throw new Error(`the package ${name} is not found (Debian: node-${name}; NODE_PATH=/usr/share/nodejs)`, {cause: error})
  }
}
