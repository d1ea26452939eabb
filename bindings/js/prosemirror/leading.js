// Leads a transaction's document to another one, by a step over what differs. It is needed where steps are not to be had: what the
// engine refuses is taken back so, and so is a document that has gone astray.

const isThere = (tr, target) => tr.doc.eq(target)

// A replacement of the range in which the two differ, or null where its ends do not fit each other.
function differing(ReplaceStep, doc, target) {
  const from = doc.content.findDiffStart(target.content)
  if (from === null) return null
  let {a, b} = doc.content.findDiffEnd(target.content)
  // The ends that are equal may overlap the fronts that are equal.
  const overlap = from - Math.min(a, b)
  if (overlap > 0) [a, b] = [a + overlap, b + overlap]
  return new ReplaceStep(from, a, target.slice(from, b))
}

const whole = (ReplaceStep, doc, target) => new ReplaceStep(0, doc.content.size, target.slice(0, target.content.size))

function tryStep(tr, target, step) {
  if (!step) return false
  try {
    const {doc} = step.apply(tr.doc)
    return Boolean(doc && doc.content.eq(target.content)) && !tr.maybeStep(step).failed
  } catch {
    return false
  }
}

/// Leads `tr` to the document `target`, and gives whether it could.
export function lead(tr, target, ReplaceStep) {
  if (isThere(tr, target)) return true
  if (!tr.doc.content.eq(target.content))
    if (!tryStep(tr, target, differing(ReplaceStep, tr.doc, target))) tryStep(tr, target, whole(ReplaceStep, tr.doc, target))
  if (!isThere(tr, target) && tr.setDocAttribute)
    for (const name of Object.keys(target.attrs)) tr.setDocAttribute(name, target.attrs[name])
  return isThere(tr, target)
}
