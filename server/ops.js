// What a client may say, and what is done for it.

import {hasEnded} from "./documents.js"
import {Refusal} from "./errors.js"
import {colorOf, nameOf} from "./presence.js"
import {isCount, isVersion} from "./reading.js"
import {clientOf, newClientID, signTicket} from "./tokens.js"

export const PROTOCOL = 1

// ---- the first message

function idOf({server: {settings}, name, given: {user}}, ticket) {
  if (ticket === null) return newClientID(user)
  const clientID = clientOf(settings.secret, ticket, {document: name, user, days: settings.ticketDays})
  if (!clientID) throw new Refusal("ticket", "the ticket is none, too old, or of another document or user")
  return clientID
}

async function taken({server: {documents, users}, name, schema, given: {right, user}}) {
  const document = await documents.take(name, {schema, make: right == "write" ? () => users.make(user) : undefined})
  if (!document) throw new Refusal("document", "there is no such document")
  return document
}

// What one begins with who has nothing of the document, or whose version this very log reaches.
async function begun(document, {version, epoch}) {
  if (version === null) return document.doc()
  if (!await document.reaches(version)) throw new Refusal("version", "the log is not so long")
  if (epoch !== document.held.epoch) throw new Refusal("epoch", "the log is another one by now")
  if (!document.comments.isBegun) await document.doc()
  return null
}

const limitsOf = ({messageBytes, messagesPerSecond, messageBurst, comments, commentText}) =>
  ({bytes: messageBytes, messagesPerSecond, burst: messageBurst, comments, text: commentText})

/** Takes the first message, which has to be a hello, and answers it with a welcome. */
export async function greet(connection, {op, version = null, epoch = null, ticket = null, name, color}) {
  if (op != "hello" || !(version === null || isVersion(version))) throw new Refusal("hello", "the first message is no hello")
  const clientID = idOf(connection, ticket), document = await taken(connection)
  try {
    const fresh = await begun(document, {version, epoch}), comments = await document.comments.list()
    if (connection.isOver) throw new Refusal("hello", "the connection has ended")
    if (document.isDead) throw hasEnded()
    const who = {clientID, name: nameOf(connection.given.name ?? name) || connection.given.user, color: colorOf(color, clientID)}
    connection.who = who
    connection.join(document, clientID, fresh?.version ?? version)
    replaceOthers(connection)
    connection.sayText(welcome(connection, {fresh, comments}))
  } catch (error) {
    connection.server.documents.leave(document)
    throw error
  }
  document.presences.set(connection.who)
  connection.pump()
}

// One client has one connection: the older one, which may be dead, goes.
function replaceOthers(connection) {
  const {document, clientID} = connection
  for (const other of document.watchers)
    if (other !== connection && other.clientID == clientID) other.end(new Refusal("replaced", "this client has connected again"))
}

function welcome({server: {settings}, given, who, document, sent}, {fresh, comments}) {
  const {schemaName, schema, epoch} = document.held
  const text = JSON.stringify({
    op: "welcome", protocol: PROTOCOL, document: document.name, schemaName, schema, epoch, ...who,
    ticket: signTicket(settings.secret[0], {document: document.name, user: given.user, clientID: who.clientID}),
    right: given.right, version: fresh ? sent : document.version, comments, present: document.presences.list(who.clientID),
    expires: given.expires ?? null, limits: limitsOf(settings),
  })
  return fresh ? `${text.slice(0, -1)},"doc":${fresh.text}}` : text
}

// ---- steps

async function submit(connection, {id, version, steps}) {
  if (!isCount(version) || !Array.isArray(steps)) throw new Refusal("op", "a submission has a version and steps")
  const {server: {counts}} = connection, begin = process.hrtime.bigint()
  const answer = await answered(connection, {version, steps})
  if (!answer) return
  const {accepted} = answer
  counts.answered.add(Number(process.hrtime.bigint() - begin) / 1e9)
  counts.submissions.add(1, {answer: Object.keys(answer)[0]})
  if (accepted) counts.steps.add(accepted.count)
  // Who submitted knows of its own steps by the answer, where it knew of all before them.
  if (accepted && connection.sent >= accepted.from) connection.sent = Math.max(connection.sent, accepted.from + accepted.count)
  if (!accepted) connection.pump()
  connection.say({op: "answer", id, answer})
  connection.pump()
}

// The engine's answer, in the connection's turn; null where that has ended before. While its steps are on the way to the log it is not
// told of those behind them.
async function answered(connection, {version, steps}) {
  const {document, clientID, server} = connection
  let answer = null
  await document.turns.take(connection)
  connection.isSubmitting = true
  try {
    if (!connection.isOver) answer = await document.submit({version, clientID, steps})
    return answer
  } finally {
    connection.isSubmitting = false
    document.turns.end(connection, answer && !connection.isOver && !server.isStopping ? answer : {})
    if (!answer) connection.pump()
  }
}

async function since(connection, {id, version}) {
  if (!isCount(version)) throw new Refusal("op", "what came since has a version")
  const {text, to} = await connection.document.entries(version)
  connection.sayText(`{"op":"answer","id":${id},"answer":${text}}`)
  if (version <= connection.sent) connection.sent = Math.max(connection.sent, to)
}

// ---- who is there

function presence(connection, {version, anchor, head}) {
  const hasCursor = head !== undefined && head !== null
  if (hasCursor && ![version, anchor, head].every(isCount)) throw new Refusal("op", "a cursor has a version, an anchor and a head")
  connection.document.presences.set(hasCursor ? {...connection.who, version, anchor, head} : connection.who)
}

async function token(connection, message) {
  const given = await connection.access(message.token)
  if (given.user != connection.given.user) throw new Refusal("token", "the token is of another user")
  connection.renew(given)
  connection.say({op: "token", expires: given.expires ?? null})
}

// ---- comments

const authorOf = ({given: {user}, who: {name}}) => ({user, name})

// Answers with a comment that was made or changed, and tells the others.
function told(connection, id, comment) {
  connection.say({op: "answer", id, answer: {comment}})
  connection.document.tell({op: "comment", comment}, connection.clientID)
}

const commenting = change => async (connection, message) =>
  told(connection, message.id, await change(connection.document.comments, message, authorOf(connection)))

async function uncomment(connection, message) {
  const {document, clientID} = connection
  await document.comments.remove(authorOf(connection), message)
  connection.say({op: "answer", id: message.id, answer: {uncommented: message.comment}})
  document.tell({op: "uncomment", comment: message.comment}, clientID)
}

async function comments(connection, {id}) {
  connection.say({op: "answer", id, answer: {comments: await connection.document.comments.list()}})
}

/** What there is: `isAnswered` has an id, and `writes` needs the right to write. */
export const OPS = {
  hello: {does() { throw new Refusal("hello", "a hello is the first message alone") }},
  submit: {does: submit, isAnswered: true, writes: true},
  since: {does: since, isAnswered: true},
  pass: {does: connection => connection.document.turns.leave(connection)},
  presence: {does: presence},
  token: {does: token},
  ping: {does: connection => connection.say({op: "pong"})},
  comment: {does: commenting((all, message, author) => all.add(author, message)), isAnswered: true, writes: true},
  reply: {does: commenting((all, message, author) => all.reply(author, message)), isAnswered: true, writes: true},
  resolve: {does: commenting((all, message) => all.resolve(message)), isAnswered: true, writes: true},
  uncomment: {does: uncomment, isAnswered: true, writes: true},
  comments: {does: comments, isAnswered: true},
}
