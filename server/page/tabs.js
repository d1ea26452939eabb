// Two panels beside the document, one of which is shown. The arrows go from one tab to the other.

export class Tabs {
  #tabs

  /// `onShow(id)` is told which tab was chosen.
  constructor(...words) {
    const onShow = words.pop()
    this.#tabs = words
    for (const tab of words) {
      tab.addEventListener("click", () => {
        this.#show(tab)
        onShow(tab.id)
      })
      tab.addEventListener("keydown", event => this.#walk(event))
    }
  }

  #show(chosen) {
    for (const tab of this.#tabs) {
      const isChosen = tab === chosen
      tab.setAttribute("aria-selected", String(isChosen))
      tab.tabIndex = isChosen ? 0 : -1
      document.getElementById(tab.getAttribute("aria-controls")).hidden = !isChosen
    }
  }

  #walk({key, target}) {
    const step = {ArrowRight: 1, ArrowLeft: -1}[key], count = this.#tabs.length
    if (!step) return
    const next = this.#tabs[(this.#tabs.indexOf(target) + step + count) % count]
    next.focus()
    next.click()
  }
}
