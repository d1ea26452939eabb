// What embed.js times in node, in a page and over a pipe: an editor types ten letters in the middle of a document of paragraphs of 200
// tokens and takes them back, one at a time, and has the answer to each, as a JSON value, before the next; so the document stays as
// large as it was. library.c and library.py do the same.

"use strict"

const IN_A_ROW = 10

const schema = {
  nodes: [{name: "doc", content: "paragraph+"}, {name: "paragraph", content: "text*"}, {name: "text"}],
  version: 2,
}
const paragraph = {type: "paragraph", content: [{type: "text", text: "abcdefghi ".repeat(20).slice(0, 198)}]}

/// A document of so many tokens.
const documentOf = tokens => ({type: "doc", content: Array(tokens / 200).fill(paragraph)})

// The n-th letter, or the deletion of one.
function submission(n, tokens) {
  const at = tokens / 2 + 101, turn = n % (2 * IN_A_ROW)
  const [from, to] = turn < IN_A_ROW ? [at + turn, at + turn] : [at + 2 * IN_A_ROW - 1 - turn, at + 2 * IN_A_ROW - turn]
  const step = {stepType: "replace", from, to}
  if (from == to) step.slice = {content: [{type: "text", text: "x"}]}
  return {op: "submit", version: n, clientID: 0, steps: [step]}
}

function judge(answer) {
  if (!answer.accepted) throw new Error(`a letter is answered ${JSON.stringify(answer)}`)
}

/// The microseconds of one of so many letters, after others that warm all up; those of the processor, as far as `spent` tells its
/// nanoseconds; and the document at the end, as a text. An authority `isLate` whose answers are promises.
async function timeLetters(authority, {tokens, warm, letters, isLate = false, spent = () => 0}) {
  let n = 0
  const turn = async count => {
    // No promise is waited for where there is none.
    for (const end = n + count; n < end; n++) {
      const answer = authority.ask(submission(n, tokens))
      judge(isLate ? await answer : answer)
    }
  }
  await turn(warm)
  const start = performance.now(), before = spent()
  await turn(letters)
  const micros = 1000 * (performance.now() - start) / letters, busyMicros = (spent() - before) / 1000 / letters
  return {micros, busyMicros, doc: JSON.stringify(await authority.ask({op: "doc"}))}
}

module.exports = {schema, documentOf, timeLetters}
