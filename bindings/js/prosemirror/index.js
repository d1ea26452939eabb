// The plugin over the packages that a bundler or node finds.
//
//   import {collab, redo, undo} from "gezhufet/prosemirror"

import {Plugin, PluginKey, TextSelection} from "prosemirror-state"
import {ReplaceStep, Step} from "prosemirror-transform"
import {Decoration, DecorationSet} from "prosemirror-view"
import {pluginOf} from "./plugin.js"

export {pluginOf}
export const {
  collab, undo, redo, undoChange, undoDepth, redoDepth, lastEvent, closeHistory, getVersion, getPending, receive, pull, cursorsOf,
  showCursor,
} = pluginOf({Plugin, PluginKey, TextSelection, Step, ReplaceStep, Decoration, DecorationSet})
