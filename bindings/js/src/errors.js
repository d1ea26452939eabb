// What can go wrong. Each error is a GezhufetError, and has in numbers what the engine said.

// The codes of a faulty line and the reasons of a refused step, as docs/use/FORMATS.md numbers them.
const CODES = {
  2: "the line is missing",
  3: "the line passes 1,048,576 bytes",
  5: "the line is no JSON, or nests too deep",
  6: "a field is absent, or of another kind",
  7: "an unknown op, kind of step or type, or an ill-formed name",
  8: "a content expression that is none, or nests too deep",
  9: "a content expression that mixes inline and block types, or is too large",
  10: "no top type, no fit type `text`, two types of one name, or an unknown mark",
  11: "a type with a dead end",
  12: "an attribute that is missing, unknown, or of another kind",
  13: "an empty text",
  14: "marks that are no set",
  15: "a side of a slice that is deeper than its content, or too many tokens",
  16: "the document is not valid or not of the top type, or the top type can't be filled",
  18: "no room for one more cursor",
  19: "a client's ID that is too long, or no room for one more client",
  23: "a name of another form, or of another schema",
}
const REASONS = {
  1: "its positions are not in order within the document",
  2: "it has `structure`, and overwrites more than closes followed by opens",
  3: "its gap is no whole number of nodes",
  4: "its slice's open sides do not fit the places where it goes",
  5: "a position parts the two units of one character",
  6: "it joins nodes of types that are not compatible",
  7: "the document would have too many tokens",
  8: "the document would nest too deep",
  9: "the document would not be valid",
  10: "no node begins at its position",
  11: "the node has no such attribute",
  12: "the attribute takes no value of this kind",
  13: "the schema does not know it",
}

/// Each error of the package.
export class GezhufetError extends Error {
  get name() { return this.constructor.name }
}

const LACKS = {
  document: "no document of the name is open",
  closed: "a document of the name is open already",
  schema: "no schema has the name",
  room: "there are as many documents, or schemas, as a house has",
  range: "a position is past the document's end, or the version that it goes to below the one that it is from",
}

const LINES = {1: "the schema", 2: "the document", 3: "the line of the client"}

/// A line that can't be read. `code` is its number; `line` is 1 for the schema, 2 for the document, 3 for the line of a client's ID and
/// version, and else undefined.
export class FaultError extends GezhufetError {
  constructor(code, line) {
    super(`${LINES[line] || "the message"} has a fault: ${CODES[code] || "of an unknown kind"} (code ${code})`)
    this.code = code
    this.line = line
  }
}

/// A step that does not apply: `index` is its place among those submitted or taken, counted from 0, and `reason` the number of why.
/// Where it is 9, `at` is the place of the fault: 0 for the top node, and p + 1 for the token at position p.
export class RefusedError extends GezhufetError {
  constructor(reason, index, at) {
    const where = at === undefined ? "" : `, at ${at}`
    super(`step ${index} does not apply: ${REASONS[reason] || "for an unknown reason"} (reason ${reason}${where})`)
    this.reason = reason
    this.index = index
    this.at = at
  }
}

/// What a call of a house needs is not there. `what` says what: `document`, `closed`, `schema`, `room` or `range`.
export class LackError extends GezhufetError {
  constructor(what) {
    super(LACKS[what] || `there is no ${what}`)
    this.what = what
  }
}

/// The version that is asked for lies before the first one that a house has kept of the document, which `from` is.
export class ForgottenError extends GezhufetError {
  constructor(from) {
    super(`the first kept version is ${from}`)
    this.from = from
  }
}

/// The document of a house has not come to the version that is asked for; `version` is its own. Or its log takes no more.
export class VersionError extends GezhufetError {
  constructor(version) {
    super(`the version is ${version}`)
    this.version = version
  }
}

/// There was no memory. Nothing has changed, and the call may be made again.
export class MemoryError extends GezhufetError {
  constructor() { super("there is no memory for it; nothing has changed") }
}

/// The authority, client or house was closed, or its engine has stopped by a fault of its own and is not called again; `cause` is that
/// fault.
export class EndedError extends GezhufetError {}
