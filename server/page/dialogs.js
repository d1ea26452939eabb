// The dialogs that ask for a name, for the address of a link and for an image.

import {isFollowed, isShown, schema} from "./schema.js"

const find = id => document.getElementById(id)
const {link} = schema.marks, {image} = schema.nodes

// Opens a dialog. Gives a promise of what `read(form)` gives where it is sent, and of null where it is left. `read` throws what is wrong.
function opened(dialog, read) {
  const form = dialog.querySelector("form"), fault = dialog.querySelector(".fault")
  if (fault) fault.textContent = ""
  return new Promise(resolve => {
    const end = value => {
      form.onsubmit = dialog.onclose = null
      if (dialog.open) dialog.close()
      resolve(value)
    }
    form.onsubmit = event => {
      event.preventDefault()
      try {
        end(read(form))
      } catch (error) {
        fault.textContent = error.message
      }
    }
    dialog.onclose = () => end(null)
    for (const button of dialog.querySelectorAll("[data-action]")) button.onclick = () => end(button.dataset.action == "remove" ? "" : null)
    dialog.showModal()
  })
}

/// The user's name.
export async function askName() {
  const input = find("name-input")
  for (;;) {
    const name = await opened(find("name-dialog"), () => input.value.trim())
    if (name) return name
  }
}

const addressed = text => (/^[a-z][a-z0-9+.-]*:|^[/#]/i.test(text) ? text : `https://${text}`)

function addressIn(input, isWell) {
  const address = addressed(input.value.trim())
  if (!isWell(address)) throw new Error("An address begins with https://, http:// or, of a link, mailto:.")
  return address
}

// The whole of a link at a place, or null where there is none.
function wholeLink($pos) {
  const {parent} = $pos, at = $pos.index()
  const markAt = i => (i >= 0 && i < parent.childCount ? link.isInSet(parent.child(i).marks) : null)
  let start = markAt(at) ? at : at - 1
  const mark = markAt(start)
  if (!mark) return null
  let end = start + 1
  while (markAt(start - 1)?.eq(mark)) start--
  while (markAt(end)?.eq(mark)) end++
  const placeOf = i => $pos.start() + parent.content.content.slice(0, i).reduce((sum, it) => sum + it.nodeSize, 0)
  return {from: placeOf(start), to: placeOf(end), mark}
}

// The range that is linked, and the link that is there.
function linkAt({doc, selection: {from, to, empty, $from}}) {
  if (empty) return wholeLink($from)
  let mark = null
  doc.nodesBetween(from, to, node => { mark = mark || link.isInSet(node.marks) })
  return {from, to, mark}
}

/// A command: asks for the address of a link on what is selected, or for another of the link in which the cursor is.
export function editLink(state, dispatch, view) {
  const range = linkAt(state)
  if (!range || !state.selection.$from.parent.type.allowsMarkType(link)) return false
  if (dispatch) askLink(view, range)
  return true
}

async function askLink(view, {from, to, mark}) {
  const input = find("link-input")
  input.value = mark ? mark.attrs.href : ""
  find("link-dialog").querySelector("[data-action=remove]").hidden = !mark
  const kept = keep(view, {from, to})
  const href = await opened(find("link-dialog"), () => addressIn(input, isFollowed))
  const place = kept.end()
  if (href !== null && place.from < place.to) {
    const tr = view.state.tr.removeMark(place.from, place.to, link)
    view.dispatch(href ? tr.addMark(place.from, place.to, link.create({href})) : tr)
  }
  view.focus()
}

/// A command: asks for an image's address, and inserts it.
export function insertImage(state, dispatch, view) {
  if (!state.selection.$from.parent.inlineContent) return false
  if (dispatch) askImage(view)
  return true
}

async function askImage(view) {
  const [src, alt] = [find("image-input"), find("image-alt")]
  src.value = alt.value = ""
  const kept = keep(view, view.state.selection)
  const attrs = await opened(find("image-dialog"), () => ({src: addressIn(src, isShown), alt: alt.value.trim() || null}))
  const {from, to} = kept.end()
  if (attrs) view.dispatch(view.state.tr.replaceRangeWith(from, to, image.create(attrs)).scrollIntoView())
  view.focus()
}

// ---- a place that goes along while a dialog is open and others write

const kept = new Set()

function keep(view, {from, to}) {
  const place = {from, to}
  kept.add(place)
  return {end() {
    kept.delete(place)
    return place
  }}
}

/// Others' transactions move the places for which a dialog is open.
export function moveKept({mapping, docChanged}) {
  if (!docChanged) return
  for (const place of kept) {
    place.from = mapping.map(place.from, 1)
    place.to = Math.max(place.from, mapping.map(place.to, -1))
  }
}
