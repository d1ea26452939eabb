// The house of many documents, as a process, `./pm live many`, or in this one by the node addon (bindings/js).
// docs/use/HOUSE.md describes the lines.
//
//   const house = new House()
//   await house.name("basic", schema)
//   const {version} = await house.open("plan", "basic", doc)
//   const ann = await join(house.document("plan"), {schema, clientID: "ann"})      // of client.js
//   await house.close()

"use strict"

const {Authority, ENGINES, Inside, command} = require("./authority")

// The code of a line whose `op` there is not.
const UNKNOWN = 7

/// A document of the house, with an authority's call.
class HouseDocument {
  constructor(house, name) {
    this.house = house
    this.name = name
  }

  /// The answer to a message, which need not say in which document it is.
  ask(message) { return this.house.ask({...message, in: this.name}) }
}

async function openInside(kind) {
  const {openHouse} = await import("../bindings/js/src/index.js")
  return openHouse({kind})
}

class House {
  /// `words` are the program and its words, or `addon`, since the module has no house; those of `authority.js` unless told. `file` are
  /// the words of a file, which a process alone has: `new` or `open`, and the file.
  constructor(words = command(), file = []) {
    const [kind] = words
    this.process = ENGINES.includes(kind) ? new Inside(openInside(kind)) : new Authority([...words, "many", ...file])
    this.ended = this.process.ended
  }

  /// The answer to a line, which is a text without its LF.
  askLine(line) { return this.process.askLine(line) }

  /// The answer to a message, both as JSON values.
  ask(message) { return this.process.ask(message) }

  // The answer to a message that is not to be refused.
  async have(message) {
    const answer = await this.ask(message)
    if (answer.none !== undefined || answer.fault !== undefined) throw new Error(`the house answers ${JSON.stringify(answer)}`)
    return answer
  }

  /// Gives a schema a name.
  async name(name, schema) {
    const {schemaLine} = await import("../bindings/js/src/lines.js")
    return this.have({op: "schema", name, schema: JSON.parse(schemaLine(schema))})
  }

  /// Opens a document of the schema of this name, whose log begins at the version. Without `doc` it is the top type filled. Gives its
  /// size and the version.
  async open(name, schema, doc = null, version = 0) {
    const {documentLine} = await import("../bindings/js/src/lines.js")
    return this.have({op: "open", in: name, schema, doc: doc && JSON.parse(documentLine(doc)), version})
  }

  document(name) { return new HouseDocument(this, name) }

  /// Whether the program has this `op` of a document.
  async knows(op) { return (await this.ask({op, in: "-"})).fault !== UNKNOWN }

  /// How many documents, entries, schemas and tokens there are, and the bytes of memory that the process takes.
  async statistics() { return {...await this.have({op: "statistics"}), bytes: this.process.bytes} }

  /// Tells the process that no line comes any more. Gives the status with which it ends.
  close() { return this.process.close() }
}

module.exports = {House}
