// A headless Chromium with one page or more, driven by its DevTools protocol over two pipes.

"use strict"

const fs = require("fs")
const os = require("os")
const path = require("path")
const {spawn, spawnSync} = require("child_process")

const PATIENCE = Number(process.env.PATIENCE || 30000)

/// The program, or null where the machine has none.
const chromium = () => ["chromium", "chromium-browser"].find(name => spawnSync(name, ["--version"]).status === 0) || null

const MODIFIERS = {Alt: 1, Ctrl: 2, Shift: 8}

// What the browser is told of a key that is not a letter.
const KEYS = {
  Enter: {key: "Enter", code: "Enter", windowsVirtualKeyCode: 13, text: "\r"},
  Backspace: {key: "Backspace", code: "Backspace", windowsVirtualKeyCode: 8},
  ArrowLeft: {key: "ArrowLeft", code: "ArrowLeft", windowsVirtualKeyCode: 37},
  ArrowDown: {key: "ArrowDown", code: "ArrowDown", windowsVirtualKeyCode: 40},
  ArrowUp: {key: "ArrowUp", code: "ArrowUp", windowsVirtualKeyCode: 38},
  Delete: {key: "Delete", code: "Delete", windowsVirtualKeyCode: 46},
  Home: {key: "Home", code: "Home", windowsVirtualKeyCode: 36},
  ArrowRight: {key: "ArrowRight", code: "ArrowRight", windowsVirtualKeyCode: 39},
  Tab: {key: "Tab", code: "Tab", windowsVirtualKeyCode: 9},
  Escape: {key: "Escape", code: "Escape", windowsVirtualKeyCode: 27},
  End: {key: "End", code: "End", windowsVirtualKeyCode: 35},
}

function keyOf(name) {
  if (KEYS[name]) return KEYS[name]
  const upper = name.toUpperCase()
  // Other characters have codes that are not their own.
  if (!/^[A-Z0-9 ]$/.test(upper)) return {key: name, text: name}
  return {key: name, code: /[A-Z]/.test(upper) ? `Key${upper}` : "", windowsVirtualKeyCode: upper.charCodeAt(0), text: name}
}

// A page of a browser, by its session.
class Tab {
  constructor(browser, session) {
    this.browser = browser
    this.session = session
  }

  call(method, params = {}) { return this.browser.call(method, params, this.session) }

  /// Opens the page at an address, in a window of this size.
  async open(url, {width = 1000, height = 460} = {}) {
    await this.call("Page.enable")
    // Each page takes keys, as the one in front does.
    await this.call("Emulation.setFocusEmulationEnabled", {enabled: true})
    await this.call("Emulation.setDeviceMetricsOverride", {width, height, deviceScaleFactor: 1, mobile: false})
    await this.call("Page.navigate", {url})
  }

  /// The value of an expression in the page.
  async value(expression) {
    const {result, exceptionDetails} = await this.call("Runtime.evaluate", {expression, returnByValue: true, awaitPromise: true})
    if (exceptionDetails) throw new Error(`the page says: ${exceptionDetails.exception.description || exceptionDetails.text}`)
    return result.value
  }

  /// Waits until an expression in the page is true, for so many milliseconds at most.
  async until(expression, patience = PATIENCE) {
    for (const start = Date.now(); Date.now() - start < patience;) {
      if (await this.value(expression)) return
      await new Promise(resolve => setTimeout(resolve, 50))
    }
    throw new Error(`the page does not come to ${expression}`)
  }

  /// Presses a key with modifiers, as `Ctrl-Shift-z`.
  async press(name) {
    const words = name.split("-"), key = keyOf(words.pop())
    const modifiers = words.reduce((sum, word) => sum + MODIFIERS[word], 0)
    const text = modifiers & (MODIFIERS.Ctrl | MODIFIERS.Alt) ? undefined : key.text
    await this.call("Input.dispatchKeyEvent", {...key, type: text ? "keyDown" : "rawKeyDown", modifiers, text})
    await this.call("Input.dispatchKeyEvent", {...key, type: "keyUp", modifiers, text: undefined})
  }

  /// A picture of the page, as a PNG.
  async picture() { return Buffer.from((await this.call("Page.captureScreenshot", {format: "png"})).data, "base64") }
}

class Browser {
  constructor(program) {
    this.folder = fs.mkdtempSync(path.join(os.tmpdir(), "live-page-"))
    this.process = spawn(program, [
      "--headless", "--no-sandbox", "--disable-gpu", "--disable-dev-shm-usage", "--no-first-run", "--remote-debugging-pipe",
      "--disable-background-timer-throttling", "--disable-renderer-backgrounding",
      "--hide-scrollbars", `--user-data-dir=${this.folder}`, "about:blank",
    ], {stdio: ["ignore", "ignore", "ignore", "pipe", "pipe"]})
    this.ended = new Promise(resolve => this.process.on("close", resolve))
    this.count = 0
    this.next = Promise.resolve()
    this.waiting = new Map()
    this.text = ""
    this.process.stdio[4].setEncoding("utf8").on("data", text => this.read(text))
  }

  // Messages end with a zero character.
  read(text) {
    const whole = (this.text + text).split("\0")
    this.text = whole.pop()
    for (const {id, result, error} of whole.map(line => JSON.parse(line))) {
      const taker = this.waiting.get(id)
      this.waiting.delete(id)
      if (!taker) continue
      if (error) taker.reject(new Error(error.message))
      else taker.resolve(result)
    }
  }

  call(method, params = {}, session = undefined) {
    const id = ++this.count
    const message = {id, method, params, ...(session && {sessionId: session})}
    this.process.stdio[3].write(JSON.stringify(message) + "\0")
    return new Promise((resolve, reject) => {
      const timer = setTimeout(() => reject(new Error(`Chromium does not answer ${method}`)), PATIENCE)
      const after = done => value => {
        clearTimeout(timer)
        done(value)
      }
      this.waiting.set(id, {resolve: after(resolve), reject: after(reject)})
    })
  }

  /// One more page, at an address, in a window of this size.
  async open(url, size) {
    this.next = this.next.then(() => this.attach())
    const tab = new Tab(this, await this.next)
    await tab.open(url, size)
    return tab
  }

  // The session of an empty page: that which the browser begins with, or a new one.
  async attach() {
    const {targetInfos} = await this.call("Target.getTargets")
    const empty = targetInfos.find(it => it.type == "page" && !it.attached)
    const {targetId} = empty || await this.call("Target.createTarget", {url: "about:blank", newWindow: true})
    const {sessionId} = await this.call("Target.attachToTarget", {targetId, flatten: true})
    return sessionId
  }

  async close() {
    await this.call("Browser.close").catch(() => this.process.kill())
    await this.ended
    fs.rmSync(this.folder, {recursive: true, force: true, maxRetries: 5})
  }
}

module.exports = {Browser, chromium}
