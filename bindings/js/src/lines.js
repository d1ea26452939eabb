// What a talk begins with: the schema line of a ProseMirror `Schema`, and the document line of a `Node` of it. docs/use/FORMATS.md
// describes the lines. What the engine knows nothing of, such as `parseDOM` and `toDOM`, is left out.

// ---- names and values

// A name of a type or a group. ProseMirror takes any; a session file takes these.
function checkedName(name, what) {
  if (!/^[A-Za-z0-9_]{1,64}$/.test(name) || name == "_")
    throw new Error(`${what} ${JSON.stringify(name)} is not 1 to 64 ASCII letters, digits and _`)
  return name
}

const wordsOf = text => text.split(/[ \t\r\n]+/).filter(word => word != "")

// names with blanks between
function checkedNames(text, what) {
  wordsOf(text).forEach(name => checkedName(name, what))
  return text
}

// Names of marks and of their groups. To ProseMirror `_` among others means all marks too.
function checkedMarks(text, what) {
  return wordsOf(text).includes("_") ? "_" : checkedNames(text, what)
}

// A value of an attribute: null, a truth value, a whole number, a text, or a list or object of such, four levels deep at most.
// `undefined` is written as null: to ProseMirror it is a default too.
function checkedValue(value, what, levels = 4) {
  if (value === undefined || value === null) return null
  if (typeof value == "boolean" || typeof value == "string") return value
  if (typeof value == "number") {
    if (!Number.isSafeInteger(value)) throw new Error(`${what} is ${value}, which is no whole number below 2^53`)
    return value
  }
  if (typeof value != "object") throw new Error(`${what} is a ${typeof value}, which JSON can't write`)
  if (levels == 0) throw new Error(`${what} is more than four lists and objects deep`)
  if (Array.isArray(value)) return value.map(item => checkedValue(item, what, levels - 1))
  const kind = Object.getPrototypeOf(value)
  if (kind !== null && kind !== Object.prototype) throw new Error(`${what} is a ${value.constructor.name}, which JSON can't write`)
  const copy = Object.create(null)
  for (const key of Object.keys(value)) copy[key] = checkedValue(value[key], what, levels - 1)
  return copy
}

// ---- the schema

// `attrs` of a type: the names, and the defaults where they have one
function attrsOf(attrs, type) {
  const written = Object.create(null)
  for (const name of Object.keys(attrs)) {
    const hasDefault = Object.prototype.hasOwnProperty.call(attrs[name], "default")
    written[name] = hasDefault ? {default: checkedValue(attrs[name].default, `the default of ${type}.${name}`)} : {}
  }
  return written
}

function nodeType(name, spec) {
  const type = {name: checkedName(name, "the node type")}
  if (spec.content) type.content = spec.content
  if (spec.group) type.group = checkedNames(spec.group, `a group of ${name}`)
  if (spec.marks !== undefined && spec.marks !== null) type.marks = checkedMarks(spec.marks, `a mark in ${name}`)
  if (spec.inline) type.inline = true
  if (spec.atom) type.atom = true
  if (spec.attrs && Object.keys(spec.attrs).length) type.attrs = attrsOf(spec.attrs, name)
  return type
}

function markType(name, spec) {
  const type = {name: checkedName(name, "the mark type")}
  if (spec.attrs && Object.keys(spec.attrs).length) type.attrs = attrsOf(spec.attrs, name)
  if (spec.inclusive === false) type.inclusive = false
  if (spec.excludes !== undefined && spec.excludes !== null)
    type.excludes = checkedMarks(spec.excludes, `an excluded mark of ${name}`)
  if (spec.group) type.group = checkedNames(spec.group, `a group of ${name}`)
  return type
}

/// The first line, without its LF. Types stand in the schema's order, which decides what fills a place and how a node's marks are
/// ordered. An Error names what a schema line can't have.
export function schemaLine(schema) {
  const line = {nodes: [], marks: []}
  schema.spec.nodes.forEach((name, spec) => line.nodes.push(nodeType(name, spec)))
  if (schema.spec.marks) schema.spec.marks.forEach((name, spec) => line.marks.push(markType(name, spec)))
  if (schema.spec.topNode) line.topNode = checkedName(schema.spec.topNode, "the top node")
  return JSON.stringify(line)
}

// ---- the document

// Values of attributes are copied, since those of a node's JSON are the document's own.
function attrsJson(attrs, type) {
  const written = Object.create(null)
  for (const name of Object.keys(attrs)) written[name] = checkedValue(attrs[name], `the attribute ${name} of ${type}`)
  return written
}

// the JSON of a node or a mark
function nodeJson(json) {
  const written = {...json}
  if (json.attrs) written.attrs = attrsJson(json.attrs, json.type)
  if (json.marks) written.marks = json.marks.map(nodeJson)
  if (json.content) written.content = json.content.map(nodeJson)
  return written
}

/// The second line, without its LF. The node has to be of the schema's top type, and valid: `check` throws where it is not.
export function documentLine(node) {
  node.check()
  if (node.type != node.type.schema.topNodeType) throw new Error(`a ${node.type.name} is not of the schema's top type`)
  return JSON.stringify(nodeJson(node.toJSON()))
}
