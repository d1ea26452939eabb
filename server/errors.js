// What the server tells a client that it does not do. server/README.md has the table.

import {said} from "./log.js"

/** The code with which a socket is closed, where the error is of the whole connection. */
const CLOSES = {
  "too-long": 1009,
  internal: 1011,
  stopping: 1012,
  hello: 4400,
  token: 4401,
  ticket: 4401,
  access: 4403,
  document: 4404,
  schema: 4404,
  replaced: 4409,
  version: 4410,
  epoch: 4410,
  slow: 4413,
  limit: 4429,
  abuse: 4429,
  store: 4503,
  engine: 4503,
}

const STATUSES = {
  token: 401,
  access: 403,
  origin: 403,
  document: 404,
  schema: 404,
  "too-long": 413,
  limit: 429,
  rate: 429,
  abuse: 429,
  internal: 500,
  store: 503,
  engine: 503,
  stopping: 503,
}

/** A refusal that is told: a code, and a sentence for people. */
export class Refusal extends Error {
  /**
   * @param {string} code
   * @param {string} message
   * @param {{retry?: number, cause?: unknown}} more `retry`: the milliseconds after which it may be tried again
   */
  constructor(code, message, {retry, cause} = {}) {
    super(message, {cause})
    this.code = code
    this.retry = retry
  }

  get closes() { return CLOSES[this.code] ?? 1011 }

  get status() { return STATUSES[this.code] ?? 400 }

  toJSON() { return {code: this.code, message: this.message, ...(this.retry !== undefined && {retry: this.retry})} }
}

/** An error as it is told. One that is no Refusal is a fault of the server, and is logged with what it is about. */
export function refusalOf(error, log, about = {}) {
  if (error instanceof Refusal) return error
  log.error("internal", {...about, ...said(error), stack: error?.stack})
  return new Refusal("internal", "the server has a fault")
}

/** The store or the engine does not do what it should: nothing is known of what was on its way, and it may be tried again. */
export const storeFails = cause => new Refusal("store", "what keeps the documents fails at present", {retry: 1000, cause})
