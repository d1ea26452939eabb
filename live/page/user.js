// A user in front of a page with two panes, `panes` of its window, by the keys of a headless Chromium.

"use strict"

class User {
  constructor(tab) { this.tab = tab }

  // Puts the cursor after a text in a pane. What the cursor is in has the focus, as after a click. A view that gets the focus puts its
  // selection back 20 milliseconds later, and would lose a key that has moved it by then.
  async place(pane, text) {
    await this.tab.value(`(() => {
      const {view} = panes[${pane}]
      let at = null
      view.state.doc.descendants((node, pos) => {
        const found = node.isText ? node.text.indexOf(${JSON.stringify(text)}) : -1
        if (found >= 0 && at === null) at = pos + found + ${text.length}
      })
      view.focus()
      const cursor = view.state.selection.constructor.near(view.state.doc.resolve(at), -1)
      view.dispatch(view.state.tr.setSelection(cursor))
    })()`)
    await pause(50)
  }

  focus(pane) { return this.tab.value(`panes[${pane}].view.focus()`) }

  async type(text) { for (const letter of text) await this.tab.press(letter) }

  /// Puts a text in at once, as an input method does, so that it is one change also where the machine is slow.
  insert(text) { return this.tab.call("Input.insertText", {text}) }

  /// Clicks on the element that an expression of the page gives.
  async click(expression) {
    const {x, y} = await this.tab.value(`(it => {
      it.scrollIntoView({block: "nearest"})
      const {left, top, width, height} = it.getBoundingClientRect()
      return {x: left + width / 2, y: top + height / 2}
    })(${expression})`)
    for (const type of ["mousePressed", "mouseReleased"])
      await this.tab.call("Input.dispatchMouseEvent", {type, x, y, button: "left", clickCount: 1})
  }

  /// One letter in each pane in turn, so that each is still sending as the other changes.
  async typeBoth(left, right) {
    for (let i = 0; i < Math.max(left.length, right.length); i++) {
      await this.focus(0)
      await this.type(left[i] || "")
      await this.focus(1)
      await this.type(right[i] || "")
    }
  }

  /// Selects so many letters before the cursor of a pane that has the focus. The view learns of a selection a moment later.
  async select(pane, count) {
    for (let i = 0; i < count; i++) await this.tab.press("Shift-ArrowLeft")
    await this.tab.until(`(({from, to}) => to - from == ${count})(panes[${pane}].view.state.selection)`)
  }

  /// Presses a key until a pane shows what is wanted. Gives how often.
  async pressUntil(key, pane, isWanted) {
    let times = 0
    for (; times < 20 && !isWanted(await this.shown(pane)); times++) await this.tab.press(key)
    return times
  }

  doc(pane) { return this.tab.value(`JSON.stringify(panes[${pane}].view.state.doc)`) }

  shown(pane) { return this.tab.value(`panes[${pane}].view.dom.innerHTML`) }
}

/// The texts of a page's HTML, with a bar for what stands between.
const textOf = html => html.replace(/<br[^>]*>/g, "").replace(/<[^>]*>/g, "|").replace(/\|+/g, "|")

/// A JSON value whose keys stand in order: those of a page's documents and the authority's do not stand in one.
function sorted(value) {
  if (Array.isArray(value)) return value.map(sorted)
  if (value === null || typeof value != "object") return value
  return Object.fromEntries(Object.keys(value).sort().map(key => [key, sorted(value[key])]))
}

const pause = milliseconds => new Promise(resolve => setTimeout(resolve, milliseconds))

module.exports = {User, pause, sorted, textOf}
