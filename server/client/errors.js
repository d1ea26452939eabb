// What can go wrong between a client and its server.

/// An answer of the server that is an error. `code` is one of server/README.md, and `retry` the milliseconds after which the message
/// may be sent again, where it may.
export class ServerError extends Error {
  constructor({code, message, retry}) {
    super(message || code)
    this.code = code
    this.retry = retry
  }
}

/// The connection ended before the answer came. Whether the server took the message is not known.
export class LostError extends Error {
  constructor() { super("the connection was lost") }
}
