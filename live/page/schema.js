// The schema of the page's documents, ProseMirror's basic schema with lists, and the document that they begin with.

"use strict"

const {Schema} = require("prosemirror-model")
const basic = require("prosemirror-schema-basic").schema
const {addListNodes} = require("prosemirror-schema-list")

const schema = new Schema({
  nodes: addListNodes(basic.spec.nodes, "paragraph block*", "block"),
  marks: basic.spec.marks,
})

const {doc, heading, paragraph} = schema.nodes

const first = doc.create(null, [
  heading.create({level: 2}, schema.text("Two editors, one document")),
  paragraph.create(null, schema.text("Type here, and there.")),
])

module.exports = {schema, first}
