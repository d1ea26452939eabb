// The schema of the page's documents, server/schemas/basic: here with how its nodes and marks look. An address that others wrote is only
// followed where its kind is harmless.

import {Schema} from "prosemirror-model"
import {schema as basic} from "prosemirror-schema-basic"
import {addListNodes} from "prosemirror-schema-list"

const FOLLOWED = /^(https?:|mailto:|#|\/)/i
const SHOWN = /^(https?:|data:image\/(png|jpeg|gif|webp);|\/)/i

/// Whether a link may lead to an address, and whether an image may be shown from it.
export const isFollowed = href => FOLLOWED.test(String(href).trim())
export const isShown = src => SHOWN.test(String(src).trim())

const link = basic.spec.marks.get("link"), image = basic.spec.nodes.get("image")

const safeLink = {
  ...link,
  toDOM: ({attrs: {href, title}}) => ["a", {...(isFollowed(href) && {href}), title, rel: "noopener noreferrer", target: "_blank"}, 0],
}
const safeImage = {
  ...image,
  toDOM: ({attrs: {src, alt, title}}) => ["img", {...(isShown(src) && {src}), alt, title}],
}

const nodes = addListNodes(basic.spec.nodes.update("image", safeImage), "paragraph block*", "block")

export const schema = new Schema({nodes, marks: basic.spec.marks.update("link", safeLink)})
