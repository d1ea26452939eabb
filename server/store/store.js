// What keeps documents: one interface of five calls, whatever is behind it.

import {FolderStore} from "./folder.js"
import {HouseStore} from "./house.js"
import {MemoryStore} from "./memory.js"
import {PostgresStore} from "./postgres.js"

/**
 * What is told of a document as long as it is held.
 * @typedef {object} Events
 * @property {(version: number) => void} grown its log is so long now
 * @property {(id: string, value?: any) => void} noted another server has made a note, which is among the notes now, or taken one away; or
 *   it tells a fleeting one, whose value comes with it
 * @property {(error: Error) => void} ended it is held no more, by a fault
 *
 * A document that is held.
 * @typedef {object} Held
 * @property {string} schemaName
 * @property {object} schema
 * @property {number} version the number of steps in the log
 * @property {string} epoch a random value, the same as long as the log only grows
 * @property {Map<string, any>} notes what is kept beside the document
 * @property {(message: {version: number, clientID: string, steps: object[]}) => Promise<object>} submit
 *   the engine's answer. `accepted` comes once the steps are kept for good. Where it fails, it is not known whether they are
 * @property {(version: number, bytes: number) => Promise<import("./entries.js").Entries>} since
 *   the log's entries from a version on, at most as many as so many bytes hold, one at least where there is one; `version` is that of
 *   their end
 * @property {(isFirst?: boolean) => Promise<{doc: object, version: number}>} doc the document as it is, or the first one
 * @property {(id: string, value: any, isFleeting?: boolean) => Promise<any>} note
 *   keeps a value beside the document, or takes it away where it is undefined. A function is given the value that is there, whichever
 *   server made it last, and gives the new one; it is not called where there is none. Gives the value. A fleeting one is told to other
 *   servers alone
 * @property {() => Promise<void>} close
 *
 * What a document is made of.
 * @typedef {object} First
 * @property {string} schemaName
 * @property {object} schema
 * @property {object | null} doc
 *
 * @typedef {object} Store
 * @property {() => Promise<void>} start
 * @property {(name: string, first: First | null, events: Events) => Promise<Held | null>} open
 *   holds a document. Where it is not there it is made of `first`; null where there is no `first` either
 * @property {() => Promise<void>} check throws where documents can't be kept at present
 * @property {() => Promise<void>} renew has each document have another epoch, when it is opened next
 * @property {() => Promise<void>} end
 */

const STORES = {folder: FolderStore, house: HouseStore, memory: MemoryStore, postgres: PostgresStore}

/**
 * The store that the settings name.
 * @param {import("../settings.js").Settings} settings
 * @param {{engines: import("../engine.js").Engines, log: import("../log.js").Log}} parts
 * @returns {Store}
 */
export const storeOf = (settings, parts) => new STORES[settings.store](settings, parts)
