// The engine as a node addon, where it was built (addon/build.sh): the same calls as the module's, on the memory of the process.

import {MemoryError} from "./errors.js"
import {requireFile} from "./platform.js"

const ADDON = new URL("../addon/build/gezhufet.node", import.meta.url)

// The addon gives null where there is no memory.
function given(value) {
  if (value === null) throw new MemoryError()
  return value
}

class AddonEngine {
  #addon

  constructor(addon) { this.#addon = addon }

  get kind() { return "addon" }

  open(...lines) { return this.#opened(this.#addon.open(...lines)) }

  openClient(...lines) { return this.#opened(this.#addon.openClient(...lines)) }

  /// A house, which has no answer yet.
  openHouse() { return {talk: given(this.#addon.openHouse())} }

  tell(talk, line) { return given(this.#addon.tell(talk, line)) }

  close(talk) { this.#addon.close(talk) }

  #opened(value) {
    const [talk, answer] = given(value)
    return {talk, answer: given(answer)}
  }
}

/// The addon, or null where it was not built.
export async function openAddon() {
  const addon = await requireFile(ADDON)
  return addon && new AddonEngine(addon)
}
