// Types of the package. Nothing of ProseMirror's is imported: its values are known by what is used of them.

/** What is used of ProseMirror's `Schema`. */
export interface SchemaValue<N = unknown> {
  readonly spec: unknown
  nodeFromJSON(json: any): N
}

/** What is used of ProseMirror's `Node`. */
export interface NodeValue {
  toJSON(): any
  check(): void
}

/** What is used of ProseMirror's class `Step`. */
export interface StepClass<S = unknown> {
  fromJSON(schema: any, json: any): S
}

/** A client's ID: a text or a whole number that fits 64 bits. 1 and "1" are two. */
export type ClientID = string | number

export type SchemaJSON = {nodes: object[]; marks?: object[]; topNode?: string}
export type JSONObject = {[key: string]: any}

/** What `sendableSteps` of prosemirror-collab gives, or the same with steps as JSON. */
export interface Submission {
  version: number
  steps: readonly (JSONObject | {toJSON(): any})[]
  clientID: ClientID
}

/** Whether the steps were appended to the log, and the log's version. */
export interface Submitted {
  accepted: boolean
  version: number
}

export interface Entries<S = JSONObject> {
  steps: S[]
  clientIDs: ClientID[]
  version: number
}

export interface Document<N = JSONObject> {
  doc: N
  version: number
}

/** A verified authority over one document. */
export interface Authority<N = JSONObject, S = JSONObject> {
  /** The number of steps in the log. */
  readonly version: number
  readonly engine: unknown
  /**
   * Submits steps that were made at `version`. Where that is the log's, they are appended; else nothing changes, and the client
   * takes what it lacks (`since`) and submits again.
   * @throws RefusedError where a step does not apply: none of them is appended
   * @throws FaultError where the message can't be read
   * @throws MemoryError where there is no memory for it; it may be sent again
   */
  submit(submission: Submission): Submitted
  /**
   * The log's entries from `version` on, none where it is the log's length or more. With `most` at most so many, and the version
   * after the last of them.
   */
  since(version?: number, most?: number): Entries<S>
  /** The document and its version. */
  doc(): Document<N>
  /** The answer to a message of the live authority, both as JSON values. A fault is an answer too. */
  ask(message: JSONObject): any
  /** The answer to a line of the live authority, both without LF. A fault is an answer too. */
  tell(line: string): string
  /** Lets the document and its log go. Later calls throw an EndedError. */
  close(): void
}

/** What an edit gave: the step under its serial, or why there is none. */
export type Made<S = JSONObject> = {made: 1; serial: number; steps: [S]} | {none: "range" | "place" | "fit"}
/** What an edit would give. `at` is there where the reason is 9. */
export type Possible<S = JSONObject> = {made: 1; steps: [S]} | {none: "range" | "place" | "fit"} | {refused: {reason: number; at?: number}}
/** What undo, redo and the undo of one event gave: the steps, maybe none, or that there is no such event. */
export type Turned<S = JSONObject> = {made: number; serials: number[]; steps: S[]} | {none: "event"}

/** What an answer of the authority told the client, where it told something new. */
export interface Rebased<S = JSONObject> {
  /** How many pending steps were confirmed, and how many steps of others were taken. */
  confirmed: number
  foreign: number
  version: number
  cursors: number[]
  /** The serials of pending steps that are lost by this. */
  dropped: number[]
  /** How many of `steps` take pending ones back. */
  back: number
  /**
   * They lead from the document before to the one after: first those that take the pending steps back, the last one first, then
   * the others' steps, then the pending ones as they are now. Null where they can't be had: then `doc()` has the new document.
   */
  steps: S[] | null
  /** The place in `steps` of a step that takes one back, and that of what the one became: the two are mirrors. */
  pairs: [number, number][] | null
}
export type Taken<S = JSONObject> =
  | Rebased<S>
  | {confirmed: number; version: number}
  /** The answer says nothing new; the client's version. */
  | {stale: number}
  /** The answer is of later than what the client lacks, which is to be asked for; the client's version. */
  | {gap: number}
  /** The authority took nothing; how many steps are pending. */
  | {kept: number}

/** An editor's client: the document with steps that the log need not have yet. */
export interface Client<N = JSONObject, S = JSONObject> {
  readonly engine: unknown
  /**
   * Makes an edit as docs/use/FORMATS.md describes them: `{op: "text", from: 1, to: 1, text: "a", event: 1}`. ProseMirror's slices,
   * nodes, marks and types may stand in it. Edits with one event number, one after another, are undone together.
   * @throws RefusedError where its step does not apply
   */
  edit(edit: JSONObject): Made<S>
  /** Makes this step: `edit({op: "step", step, event})`. */
  step(step: JSONObject | {toJSON(): any}, event?: number): Made<S>
  /** What an edit would give. Nothing changes. */
  can(edit: JSONObject): Possible<S>
  undo(): Turned<S>
  redo(): Turned<S>
  /** Undoes the last event of this number, and leaves what came later. */
  undoEvent(event: number): Turned<S>
  /** Sets a cursor, which goes past what is put in at its place by side 1. There are 64 at most. */
  cursor(pos: number, side?: 1 | -1): {cursor: number; pos: number} | {none: "range"}
  /** The message with the pending steps, as many as a line holds. */
  compose(): {op: "submit"; version: number; clientID: ClientID; steps: JSONObject[]}
  /** The message that asks for what the log has past the client's version. */
  ask(): {op: "since"; version: number}
  /**
   * Takes the authority's answer, as JSON or as its text, late or twice too.
   * @throws RefusedError where a step of the log does not apply; nothing has changed
   */
  take(answer: JSONObject | string): Taken<S>
  /** An answer as several, none longer than a line, which are to be taken in turn. */
  parts(answer: JSONObject): JSONObject[]
  /** The document, pending steps included, and how many steps of the log it has. */
  doc(): Document<N>
  /** `pending` counts steps, `undo` and `redo` events, and `size` the document's tokens. */
  state(): {clientID: ClientID; cursors: number[]; pending: number; redo: number; size: number; undo: number; version: number}
  /** The answer to a line of the client's talk, both without LF. A fault is an answer too. */
  tell(line: string): string
  /** Lets the client go. Later calls throw an EndedError. */
  close(): void
}

/** What `map` gives of a position: where it stands, and whether the token on its side was taken out. */
export interface MapResult {
  pos: number
  deleted: boolean
}

/** So many tokens that the client's step to `version` put in; without both, such as were there before. */
export interface Authored {
  size: number
  clientID?: ClientID
  version?: number
}

/** An open document: its first kept version, its name, its schema's name, how many tokens it has, and its version. */
export interface Listed {
  from: number
  in: string
  schema: string
  size: number
  version: number
}

/**
 * A document of a house, which need not be open. Each call throws a LackError where none of its name is, and one with a version before
 * the first kept one a ForgottenError.
 */
export interface HouseDocument<N = JSONObject, S = JSONObject> {
  readonly name: string
  /** The version to which the log has come. */
  readonly version: number
  /** As of an authority, but for the version, which is the document's. */
  submit(submission: Submission): Submitted
  since(version?: number, most?: number): Entries<S>
  /**
   * The document and its version, as it is or as it was at a version.
   * @throws VersionError where the document has not come so far
   */
  doc(version?: number): Document<N>
  /**
   * Where positions of the document at the version `from` stand at the version `to`. Each keeps to what comes after it by side 1, and to
   * what comes before it by -1.
   * @throws LackError where a position is past the document's end, or `to` below `from`
   * @throws VersionError where the document has not come to `to`
   */
  map(from: number, to: number, positions: readonly (readonly [pos: number, side: 1 | -1])[]): MapResult[]
  /**
   * Who put each token in since the version, in runs as long as can be.
   * @throws VersionError where the document has not come so far
   */
  authors(from: number): Authored[]
  /**
   * Takes `count` steps of the log from the version `from` on back, whatever came since, in the client's name. The steps, maybe none,
   * stand in the log from `version` on. `apart` says that the later steps lie apart from those that were taken back.
   * @throws VersionError where the log has not so many
   * @throws RefusedError where a step does not apply; its `index` is of the `count`
   */
  revert(what: {clientID: ClientID; from: number; count: number}): {version: number; steps: S[]; apart: boolean}
  /**
   * Makes an edit that a client's `edit` takes on the document as it is, in the client's name. Gives the step and its place in the log,
   * or why there is none.
   * @throws RefusedError where its step does not apply
   */
  edit(clientID: ClientID, edit: JSONObject): {version: number; step: S} | {none: "range" | "place" | "fit"}
  /**
   * Lets what lies before a version go, with its memory. Gives the first version that is kept then.
   * @throws VersionError where the document has not come so far
   */
  forget(version: number): number
  /** Lets the document and its log go. */
  close(): void
  /** The answer to a message, which need not name the document, both as JSON values. A fault is an answer too. */
  ask(message: JSONObject): any
}

/** A verified authority of many documents, under schemas that have names: 1 to 64 ASCII letters, digits, `_` and `-`. */
export interface House {
  readonly engine: unknown
  /**
   * Gives a schema a name, which it may be given again.
   * @throws FaultError where it has a fault; code 23 for a name of another form or of another schema
   * @throws LackError for a 1,025th schema
   */
  nameSchema(name: string, schema: SchemaValue | SchemaJSON | string): void
  /**
   * Opens a document of the schema of this name; its log begins at `version`, 0 unless told. Without `doc` the top type is filled.
   * @throws LackError where one of the name is open, where no schema has that name, and for a 65,537th document
   * @throws FaultError where the document has a fault; code 23 for a name of another form
   */
  open<N = JSONObject, S = JSONObject>(
    name: string,
    schema: string,
    doc?: NodeValue | JSONObject | string | null,
    version?: number
  ): HouseDocument<N, S>
  /** The document of this name, for its calls. It may be opened later. */
  document<N = JSONObject, S = JSONObject>(name: string): HouseDocument<N, S>
  /** The open documents, in the order in which they were opened. */
  documents(): Listed[]
  /** How many documents, entries in their logs, schemas and tokens there are. */
  statistics(): {documents: number; entries: number; schemas: number; tokens: number}
  /** The answer to a message, both as JSON values. A fault is an answer too. */
  ask(message: JSONObject): any
  /** The answer to a line, both without LF. A fault is an answer too. */
  tell(line: string): string
  /** Lets all documents and their logs go. Later calls throw an EndedError. */
  close(): void
}

/** What a client begins with: the authority's document at a version, 0 unless told, and an ID that no other client of it has. */
export interface ClientOf<D> {
  schema: D
  doc?: NodeValue | JSONObject | null
  version?: number
  clientID: ClientID
}

export interface AuthorityOptions<S = JSONObject> {
  /** ProseMirror's class `Step`: `since` then gives steps of it, where the schema is a `Schema`. */
  Step?: StepClass<S>
}

export interface EngineOptions {
  /** Which engine; where it is left out, the addon if it was built, and else wasm. */
  kind?: "wasm" | "addon"
  /** The most bytes that wasm takes; 4 GB where it is left out. */
  memory?: number
  /** Another place of gezhufet.wasm, its bytes, or the compiled module. */
  module?: WebAssembly.Module | ArrayBuffer | ArrayBufferView | URL | string
}

/** An engine in which authorities and clients are opened. */
export interface Engine {
  readonly kind: "wasm" | "addon"
  /** Of wasm: the bytes in use, and those of the whole memory, which never shrinks. */
  readonly memory?: {used: number; size: number}
  openAuthority<N, S = JSONObject>(
    schema: SchemaValue<N>,
    doc?: NodeValue | JSONObject | null,
    options?: AuthorityOptions<S>
  ): Authority<N, S>
  openAuthority(schema: SchemaJSON | string, doc?: NodeValue | JSONObject | string | null): Authority
  openClient<N, S = JSONObject>(of: ClientOf<SchemaValue<N>>, options?: AuthorityOptions<S>): Client<N, S>
  openClient(of: ClientOf<SchemaJSON | string>): Client
  /**
   * Opens a house; see `openHouse` below.
   * @throws GezhufetError over wasm, which has no house
   */
  openHouse(options?: AuthorityOptions<any>): House
}

/**
 * Opens an engine.
 * @throws EndedError where `kind` is `addon` and it was not built
 */
export function openEngine(options?: EngineOptions): Promise<Engine>

/**
 * Opens an authority over a document, in an engine of its own unless one is given. Without `doc` the schema's top type is filled.
 * @throws FaultError where the schema or the document is none
 * @throws MemoryError where there is no memory for them
 */
export function openAuthority<N, S = JSONObject>(
  schema: SchemaValue<N>,
  doc?: NodeValue | JSONObject | null,
  options?: AuthorityOptions<S> & EngineOptions & {engine?: Engine},
): Promise<Authority<N, S>>
export function openAuthority(
  schema: SchemaJSON | string,
  doc?: NodeValue | JSONObject | string | null,
  options?: EngineOptions & {engine?: Engine},
): Promise<Authority>

/**
 * Opens a client, in an engine of its own unless one is given.
 * @throws FaultError where the schema, the document, the ID or the version is none
 * @throws MemoryError where there is no memory for them
 */
export function openClient<N, S = JSONObject>(
  of: ClientOf<SchemaValue<N>>,
  options?: AuthorityOptions<S> & EngineOptions & {engine?: Engine},
): Promise<Client<N, S>>
export function openClient(of: ClientOf<SchemaJSON | string>, options?: EngineOptions & {engine?: Engine}): Promise<Client>

/**
 * Opens a house over the addon, in an engine of its own unless one is given. It has no schemas and no documents yet. With the class
 * `Step` documents whose schema was given as a `Schema` give steps of it, and `doc` gives a `Node` of that schema in each case.
 * @throws EndedError where the addon was not built
 * @throws GezhufetError where the engine is wasm, which has no house
 * @throws MemoryError where there is no memory for it
 */
export function openHouse(options?: AuthorityOptions<any> & {kind?: "addon"; engine?: Engine}): Promise<House>

/** Each error of the package. */
export class GezhufetError extends Error {}

/** A line that can't be read. */
export class FaultError extends GezhufetError {
  /** The fault's number. */
  readonly code: number
  /** 1 for the schema, 2 for the document, 3 for a client's ID and version, and else undefined. */
  readonly line?: 1 | 2 | 3
}

/** A step that does not apply. */
export class RefusedError extends GezhufetError {
  /** The number of why. */
  readonly reason: number
  /** The step's place among those submitted or taken, counted from 0. */
  readonly index: number
  /** Where the reason is 9, the place of the fault: 0 for the top node, and p + 1 for the token at position p. */
  readonly at?: number
}

/** What a call of a house needs is not there. */
export class LackError extends GezhufetError {
  /** No such open document, one that is open already, no such schema, no room for one more, or a position or version out of range. */
  readonly what: "document" | "closed" | "schema" | "room" | "range"
}

/** The version that is asked for lies before the first one that a house has kept of the document. */
export class ForgottenError extends GezhufetError {
  /** The first kept version. */
  readonly from: number
}

/** The document of a house has not come to the version that is asked for, or its log takes no more. */
export class VersionError extends GezhufetError {
  /** The document's version. */
  readonly version: number
}

/** There was no memory. Nothing has changed, and the call may be made again. */
export class MemoryError extends GezhufetError {}

/** The authority, the client or the house was closed, or its engine has stopped by a fault of its own, which `cause` is. */
export class EndedError extends GezhufetError {}

/** The line that a talk begins with, of a `Schema`. An Error names what it can't have. */
export function schemaLine(schema: SchemaValue): string

/** The second line, of a `Node`, which has to be valid and of the schema's top type. */
export function documentLine(node: NodeValue): string
