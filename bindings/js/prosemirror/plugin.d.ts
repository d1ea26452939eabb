// Types of the plugin over packages that are handed in. Nothing of ProseMirror's is imported: a program that has its types gives them.

import type {Client, ClientID, JSONObject} from "../index.js"

export type Message = ReturnType<Client["compose"]> | ReturnType<Client["ask"]>

/** Where a cursor is: in the document of the log's first `version` steps. */
export interface Cursor {
  clientID: ClientID
  version: number
  anchor: number
  head: number
  name?: string
  color?: string
  [key: string]: any
}

export interface CollabOptions {
  /** A client whose document is the state's. */
  client: Client<any, any>
  /** Sends a message to the authority, and gives its answer as JSON. Where it fails, the message is sent again. */
  send(message: Message): Promise<JSONObject>
  /** The milliseconds within which edits at one place are one event; 500 unless told. */
  newGroupDelay?: number
  /** The milliseconds after which a message is sent again; 1,000 unless told. */
  pause?: number
  /** A step that the engine did not take, and why: it was taken back in the view. */
  onRefuse?(step: any, error: Error): void
  /** What went wrong with the authority or on the way to it. */
  onError?(error: Error): void
  /** Tells others where this editor's cursor is, with the fields of `cursor`, as a name and a color. */
  sendCursor?(cursor: Cursor): void
  cursor?: {name?: string; color?: string; [key: string]: any}
  /** What stands at another's cursor, and the attributes of what it has selected. */
  caret?(cursor: Cursor): HTMLElement
  shade?(cursor: Cursor): {[name: string]: string}
}

export type Command = (state: any, dispatch?: (tr: any) => void) => boolean

/** The plugin and what belongs to it. `State`, `View`, `Transaction` and `Plugin` are ProseMirror's types. */
export interface Collab<State = any, View = any, Transaction = any, Plugin = any> {
  collab(options: CollabOptions): Plugin
  undo: Command
  redo: Command
  /** A command that undoes one event, and leaves what came later. */
  undoChange(event: number): Command
  undoDepth(state: State): number
  redoDepth(state: State): number
  /** The number of the editor's last event, 0 before the first. */
  lastEvent(state: State): number
  /** Has the next edit begin an event of its own. */
  closeHistory(tr: Transaction): Transaction
  getVersion(state: State): number
  /** The pending steps in order; `event` is 0 of a step that undo or redo made. */
  getPending(state: State): {serial: number; event: number}[]
  /** Takes what the authority tells unasked. */
  receive(view: View, answer: JSONObject): Promise<void>
  /** Asks the authority what is new. */
  pull(view: View): Promise<void>
  /** Others' cursors, at places in the state's document. */
  cursorsOf(state: State): Map<ClientID, Cursor>
  /** Shows another's cursor, as `sendCursor` told it there; without `head` there is none any more. */
  showCursor(view: View, cursor: Cursor | {clientID: ClientID}): void
}

export interface Packages {
  Plugin: any
  PluginKey: any
  TextSelection: any
  Step: any
  ReplaceStep: any
  Decoration: any
  DecorationSet: any
}

/** The plugin over the packages of a program that is no ES module, or has more than one of each. */
export function pluginOf(packages: Packages): Collab
