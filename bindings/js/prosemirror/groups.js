// Which event a transaction of the editor belongs to: edits that come soon after one another, at one place, are one event. The rules
// are those of prosemirror-history.

// `event` is the number of the last event, 0 before the first. `ranges` are the places that it changed last, as pairs, and `time` and
// `composition` those of its last transaction; at time 0 no edit joins it.
class Group {
  constructor(event, ranges, time, composition) { Object.assign(this, {event, ranges, time, composition}) }
}

/// What a state begins with.
export const noGroup = new Group(0, null, 0, -1)

/// The last event with no edit to join it.
export const closed = ({event}) => new Group(event, null, 0, -1)

// The places that the last map with a range changed.
function rangesOf(maps) {
  const ranges = []
  for (let i = maps.length - 1; i >= 0 && ranges.length == 0; i--) maps[i].forEach((_from, _to, from, to) => ranges.push(from, to))
  return ranges
}

function mapRanges(ranges, mapping) {
  if (!ranges) return null
  const mapped = []
  for (let i = 0; i < ranges.length; i += 2) {
    const from = mapping.map(ranges[i], 1), to = mapping.map(ranges[i + 1], -1)
    if (from <= to) mapped.push(from, to)
  }
  return mapped
}

function touches(tr, ranges) {
  if (!ranges) return false
  let found = false
  tr.mapping.maps[0].forEach((from, to) => {
    for (let i = 0; i < ranges.length; i += 2) found = found || (from <= ranges[i + 1] && to >= ranges[i])
  })
  return found
}

/// The event of a transaction that changes the document: the last one, or the next number.
export function grouped(group, tr, delay) {
  const appended = tr.getMeta("appendedTransaction"), composition = tr.getMeta("composition")
  const isOther = !appended && group.composition != composition
  const isNew = group.time == 0 || (isOther && (group.time < (tr.time || 0) - delay || !touches(tr, group.ranges)))
  return new Group(
    group.event + (isNew ? 1 : 0),
    appended ? mapRanges(group.ranges, tr.mapping) : rangesOf(tr.mapping.maps),
    tr.time,
    composition == null ? group.composition : composition,
  )
}

/// The last event after others' steps, which may have moved its places.
export const moved = (group, mapping) => new Group(group.event, mapRanges(group.ranges, mapping), group.time, group.composition)

/// Whether a transaction is not to be undone: `addToHistory` is false of it, or of the one that it was appended to.
export function isQuiet(tr) {
  const appended = tr.getMeta("appendedTransaction")
  return tr.getMeta("addToHistory") === false || Boolean(appended && appended.getMeta("addToHistory") === false)
}
