// The places of comments in an editor. The server tells them for a version of the log; past it they go along with the editor's steps.

"use strict"

const {Plugin, PluginKey} = require("prosemirror-state")
const {Decoration, DecorationSet} = require("prosemirror-view")

const key = new PluginKey("anchors")

const placed = (doc, comments) => DecorationSet.create(doc, comments.filter(it => it.from < it.to).map(({from, to, text}) =>
  Decoration.inline(from, to, {class: "comment", title: text})))

/// The plugin.
const anchorsPlugin = () => new Plugin({
  key,
  state: {
    init: () => DecorationSet.empty,
    apply: (tr, set) => (tr.getMeta(key) ? placed(tr.doc, tr.getMeta(key)) : set.map(tr.mapping, tr.doc)),
  },
  props: {decorations: state => key.getState(state)},
})

/// A transaction that shows comments where they are in the state's document.
const showComments = (state, comments) => state.tr.setMeta(key, comments)

module.exports = {anchorsPlugin, showComments}
