// The package for CommonJS: the same calls over the same module, which is loaded by the first of them.

"use strict"

const load = () => import("./src/index.js")

/// As the calls of src/index.js.
exports.openEngine = async (...words) => (await load()).openEngine(...words)
exports.openAuthority = async (...words) => (await load()).openAuthority(...words)
exports.openClient = async (...words) => (await load()).openClient(...words)
exports.openHouse = async (...words) => (await load()).openHouse(...words)

// An error of the package is known by its name, since its class is loaded later than this file.
function errorClass(...names) {
  const known = class extends Error {
    static [Symbol.hasInstance](value) { return value instanceof Error && names.includes(value.name) }
  }
  Object.defineProperty(known, "name", {value: names[0]})
  return known
}

exports.GezhufetError = errorClass(
  "GezhufetError", "FaultError", "RefusedError", "LackError", "ForgottenError", "VersionError", "MemoryError", "EndedError",
)
exports.FaultError = errorClass("FaultError")
exports.RefusedError = errorClass("RefusedError")
exports.LackError = errorClass("LackError")
exports.ForgottenError = errorClass("ForgottenError")
exports.VersionError = errorClass("VersionError")
exports.MemoryError = errorClass("MemoryError")
exports.EndedError = errorClass("EndedError")
