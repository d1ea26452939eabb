// A schema with a group that ProseMirror takes and a session file can't have.

"use strict"

const {Schema} = require("prosemirror-model")

const schema = new Schema({
  nodes: {doc: {content: "paragraph+"}, paragraph: {content: "text*", group: "text-block"}, text: {}},
})

module.exports = {schema}
