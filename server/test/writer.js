// A writer in front of the demo page, by the keys of a headless Chromium.

const quoted = JSON.stringify

export class Writer {
  constructor(tab, name, line) {
    this.tab = tab
    this.name = name
    this.line = line
  }

  /// Opens the page of a document in a browser, by a line to the server, and waits until it has joined.
  static async open(browser, line, document, name, {color = "#1f5fbf", width = 1100, height = 640, token} = {}) {
    const words = new URLSearchParams({document, name, color}), address = `${line.address}/?${words}${token ? `#token=${token}` : ""}`
    const writer = new Writer(await browser.open(address, {width, height}), name, line)
    // Many pages that begin at once take their time.
    await writer.tab.until("window.app !== undefined || Boolean(document.getElementById('told')?.textContent)", 120_000)
    const told = await writer.told()
    if (told) throw new Error(`${name}'s page says: ${told}`)
    return writer
  }

  value(expression) { return this.tab.value(expression) }
  until(expression, patience) { return this.tab.until(expression, patience) }
  async press(...keys) { for (const key of keys) await this.tab.press(key) }
  async type(text) { for (const letter of text) await this.tab.press(letter) }

  /// Puts a text in at once, as an input method does, so that it is one change also where the machine is slow.
  insert(text) { return this.tab.call("Input.insertText", {text}) }

  told() { return this.value("document.getElementById('told').textContent") }
  doc() { return this.value("JSON.stringify(app.view.state.doc)") }

  /// The document's text, with a bar where a block ends.
  text() { return this.value("app.view.state.doc.textBetween(0, app.view.state.doc.content.size, '|', '*')") }

  /// What is shown, without cursors and comments.
  async shown() {
    const html = await this.value("app.view.dom.innerHTML")
    return html.replace(/<span class="gezhufet-cursor .*?<\/span><\/span>/g, "")
      .replace(/<(img|br) class="ProseMirror-[^>]*>/g, "")
      .replace(/<span class="gezhufet-[^>]*>([^<]*)<\/span>/g, "$1")
  }

  /// Selects a text, or puts the cursor behind it.
  async select(text, {isCursor = false} = {}) {
    const isThere = await this.value(`(() => {
      const {view} = app, {state} = view
      let at = null
      state.doc.descendants((node, pos) => {
        if (!node.isTextblock || at !== null) return
        const found = node.textBetween(0, node.content.size, null, "*").indexOf(${quoted(text)})
        if (found >= 0) at = pos + 1 + found
      })
      if (at === null) return false
      const end = at + ${text.length}, {TextSelection} = app.session.packages
      view.focus()
      view.dispatch(state.tr.setSelection(TextSelection.create(state.doc, ${isCursor} ? end : at, end)))
      return true
    })()`)
    if (!isThere) throw new Error(`${this.name}'s page has not the text ${text}: ${await this.text()}`)
  }

  after(text) { return this.select(text, {isCursor: true}) }

  /// The texts that comments are on, by what was said first.
  anchors() {
    return this.value(`Object.fromEntries(app.session.comments.list.map(({text, from, to}) =>
      [text, from === null ? null : app.view.state.doc.textBetween(from, to)]))`)
  }
}

export const pause = milliseconds => new Promise(resolve => setTimeout(resolve, milliseconds))
