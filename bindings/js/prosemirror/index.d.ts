// Types of the plugin over the packages that a bundler or node finds.

import type {EditorState, Plugin, Transaction} from "prosemirror-state"
import type {EditorView} from "prosemirror-view"
import type {Collab} from "./plugin.js"

export {pluginOf} from "./plugin.js"
export type {Collab, CollabOptions, Command, Cursor, Message, Packages} from "./plugin.js"

type Ours = Collab<EditorState, EditorView, Transaction, Plugin>

export const collab: Ours["collab"]
export const undo: Ours["undo"]
export const redo: Ours["redo"]
export const undoChange: Ours["undoChange"]
export const undoDepth: Ours["undoDepth"]
export const redoDepth: Ours["redoDepth"]
export const lastEvent: Ours["lastEvent"]
export const closeHistory: Ours["closeHistory"]
export const getVersion: Ours["getVersion"]
export const getPending: Ours["getPending"]
export const receive: Ours["receive"]
export const pull: Ours["pull"]
export const cursorsOf: Ours["cursorsOf"]
export const showCursor: Ours["showCursor"]
