// ProseMirror's basic schema with lists, and a document of it.

"use strict"

const {Schema} = require("prosemirror-model")
const basic = require("prosemirror-schema-basic").schema
const {addListNodes} = require("prosemirror-schema-list")

const schema = new Schema({
  nodes: addListNodes(basic.spec.nodes, "paragraph block*", "block"),
  marks: basic.spec.marks,
})

const {heading, paragraph, bullet_list: list, list_item: item, image, hard_break: hardBreak} = schema.nodes
const {strong, em, link} = schema.marks
const text = (words, ...marks) => schema.text(words, marks.map(mark => mark.create ? mark.create() : mark))

const doc = schema.topNodeType.create(null, [
  heading.create({level: 2}, text("Plan")),
  paragraph.create(null, [
    text("Buy "), text("milk", strong, em), hardBreak.create(),
    text("there", link.create({href: "https://example.org/"})), image.create({src: "map.png"}),
  ]),
  list.create(null, [item.create(null, paragraph.create(null, text("Ann \u{1F600}"))), item.create(null, paragraph.create())]),
])

module.exports = {schema, doc}
