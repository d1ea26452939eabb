// A verified authority for a ProseMirror document, or by the addon for many, and a verified client of one, in this process.
//
//   import {openAuthority} from "gezhufet"
//   const authority = await openAuthority(schema, doc)
//   const {accepted, version} = authority.submit(sendableSteps(state))

import {openAddon} from "./addon.js"
import {Authority} from "./authority.js"
import {Client} from "./client.js"
import {EndedError} from "./errors.js"
import {House} from "./house.js"
import {openWasm} from "./wasm.js"

export {
  EndedError, FaultError, ForgottenError, GezhufetError, LackError, MemoryError, RefusedError, VersionError,
} from "./errors.js"
export {documentLine, schemaLine} from "./lines.js"

// An engine in which authorities and clients are opened, and by the addon houses.
class Engine {
  #engine

  constructor(engine) { this.#engine = engine }

  /// What the engine is: `wasm` or `addon`.
  get kind() { return this.#engine.kind }

  /// Of `wasm` the bytes in use and those of the whole memory; else undefined.
  get memory() { return this.#engine.memory }

  /// An authority in this engine; see `openAuthority`.
  openAuthority(schema, doc, options) { return new Authority(this.#engine, schema, doc, options) }

  /// A client in this engine; see `openClient`.
  openClient(of, options) { return new Client(this.#engine, of, options) }

  /// A house in this engine, which is the addon; see `openHouse`.
  openHouse(options) { return new House(this.#engine, options) }
}

/// Opens an engine. `kind` is `wasm`, `addon`, or undefined: the addon where it was built, and else wasm. `memory` is the most bytes
/// that wasm takes, and `module` another place of gezhufet.wasm, its bytes, or the compiled module.
export async function openEngine({kind, memory, module} = {}) {
  if (kind !== undefined && kind != "wasm" && kind != "addon") throw new TypeError(`there is no engine ${kind}`)
  const isOfWasm = memory !== undefined || module !== undefined
  if (kind == "addon" && isOfWasm) throw new TypeError("`memory` and `module` are of wasm alone")
  const addon = kind == "addon" || (kind === undefined && !isOfWasm) ? await openAddon() : null
  if (kind == "addon" && !addon) throw new EndedError("the addon was not built; addon/build.sh in this package builds it")
  return new Engine(addon ?? await openWasm({memory, module}))
}

/// Opens an authority over a document, in an engine of its own unless one is given. `schema` and `doc` are ProseMirror's `Schema` and
/// `Node`, or their JSON; without `doc` the schema's top type is filled. A FaultError where one of them is none.
export async function openAuthority(schema, doc = null, {engine, Step, ...options} = {}) {
  return (engine ?? await openEngine(options)).openAuthority(schema, doc, {Step})
}

/// Opens a client of an authority that is elsewhere, in an engine of its own unless one is given. `doc` is the authority's document at
/// `version`, 0 unless told; `clientID` a text or a whole number that no other client of the document has. A FaultError where one of
/// them is none.
export async function openClient(of, {engine, Step, ...options} = {}) {
  return (engine ?? await openEngine(options)).openClient(of, {Step})
}

/// Opens a house of many documents over the addon, in an engine of its own unless one is given: an authority for a server. It has no
/// schemas and no documents yet. Where `Step` is given, ProseMirror's class, documents whose schema was given as a `Schema` give steps
/// of it. An EndedError where the addon was not built.
export async function openHouse({engine, Step, kind = "addon", ...options} = {}) {
  return (engine ?? await openEngine({kind, ...options})).openHouse({Step})
}
