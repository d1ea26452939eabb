// Two clients of one document, and its authority, in one process.
import {openEngine} from "gezhufet"

const schema = {nodes: [{name: "doc", content: "paragraph+"}, {name: "paragraph", content: "text*"}, {name: "text"}]}
const doc = {type: "doc", content: [{type: "paragraph", content: [{type: "text", text: "one two"}]}]}

const engine = await openEngine()
const authority = engine.openAuthority(schema, doc)
const [ann, bob] = ["ann", "bob"].map(clientID => engine.openClient({schema, doc, clientID}))

// Submits what is pending. Where the log has more than the client knows, it takes that first, and then submits.
function exchange(client) {
  const answer = authority.ask(client.compose())
  client.take(answer)
  if (answer.version === undefined) return
  client.take(authority.ask(client.ask()))
  client.take(authority.ask(client.compose()))
}

ann.edit({op: "text", from: 4, to: 4, text: " big", event: 1})
bob.edit({op: "text", from: 8, to: 8, text: " three", event: 1})
exchange(ann)
exchange(bob)

// Ann takes her edit back, and what Bob wrote since stays.
ann.take(authority.ask(ann.ask()))
const {made, steps} = ann.undoEvent(1)
exchange(ann)
console.log(made, JSON.stringify(steps[0]))
console.log(JSON.stringify(authority.doc()))
