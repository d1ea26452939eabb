// Where others' cursors are. A cursor is told with the version of the log in whose document its places are; here it is carried past the
// steps that the log has had since, and past the own pending ones.

// So many of the log's last maps are kept, by which a cursor of an earlier version is carried.
const MOST_KEPT = 1000

const through = (maps, pos, side) => maps.reduce((at, map) => map.map(at, side), pos)

const places = (cursor, move) => ({...cursor, anchor: move(cursor.anchor), head: move(cursor.head)})

/// A cursor of the view's document as it is told to others: in the document without the pending steps.
export const toLog = (cursor, pending) => places(cursor, pos => pending.reduceRight((at, map) => map.invert().map(at, -1), pos))

/// Others' cursors after a transaction: past what others put in, who may be their owners, and not past what was typed here. `foreign`
/// tells which of its steps are others', from the first to that after the last.
export function moved(cursors, tr, [start, end] = [0, 0]) {
  if (!tr.docChanged || cursors.size == 0) return cursors
  const move = pos => tr.mapping.maps.reduce((at, map, i) => map.map(at, i >= start && i < end ? 1 : -1), pos)
  return new Map([...cursors].map(([id, it]) => [id, places(it, move)]))
}

/// The log's last maps, and cursors that are told for a version that is not here yet.
export class Carried {
  #maps = []
  #early = new Map()

  /// The log has grown by these steps' maps.
  grow(maps) {
    this.#maps.push(...maps)
    if (this.#maps.length > 2 * MOST_KEPT) this.#maps.splice(0, this.#maps.length - MOST_KEPT)
  }

  /// Forgets the maps, where those of some steps are not known.
  forget() { this.#maps = [] }

  /// A cursor of another one, at its places in the view's document; null where it is kept for later, or is too old.
  place(cursor, version, pending) {
    this.#early.delete(cursor.clientID)
    if (cursor.version > version) {
      this.#early.set(cursor.clientID, cursor)
      return null
    }
    const late = version - cursor.version
    if (late > this.#maps.length) return null
    const maps = late ? this.#maps.slice(-late) : []
    return places(cursor, pos => through(pending, through(maps, pos, 1), -1))
  }

  /// Those that were kept for later and can be placed now.
  due(version) { return [...this.#early.values()].filter(it => it.version <= version) }
}

// ---- as decorations

function caretOf({name, color}) {
  const caret = document.createElement("span")
  caret.className = "gezhufet-cursor"
  if (color) caret.style.borderColor = color
  if (name) {
    const label = caret.appendChild(document.createElement("span"))
    label.className = "gezhufet-cursor-name"
    label.textContent = name
    if (color) label.style.backgroundColor = color
  }
  return caret
}

const shadeOf = ({color}) => ({class: "gezhufet-selection", ...(color && {style: `background-color: ${color}33`})})

/// The cursors as decorations of a document. `caret` makes what stands at a head, and `shade` the attributes of what is selected.
export function decorated(doc, cursors, {Decoration, DecorationSet}, {caret = caretOf, shade = shadeOf}) {
  const made = []
  for (const [id, it] of cursors) {
    const [head, anchor] = [it.head, it.anchor].map(pos => Math.max(0, Math.min(pos, doc.content.size)))
    const key = `${typeof id} ${id} ${it.name} ${it.color}`
    made.push(Decoration.widget(head, () => caret(it), {side: -1, key, ignoreSelection: true}))
    if (head != anchor) made.push(Decoration.inline(Math.min(head, anchor), Math.max(head, anchor), shade(it)))
  }
  return DecorationSet.create(doc, made)
}
