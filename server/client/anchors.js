// The places in the editor that comments are anchored at, as decorations that go along with the document.
//
// An anchor is known exactly in the log's documents, which all editors share. While the editor has steps that the log has not, it is
// carried past these; once the log has all, it stands where the log says again. So all editors come to show it at one place.

const within = (at, doc) => Math.max(0, Math.min(at, doc.content.size))

// A place in the view's document: `from` stays behind what is put in before it, `to` before what is put in after it.
const moved = (anchor, mapping) => ({...anchor, from: mapping.map(anchor.from, 1), to: mapping.map(anchor.to, -1)})

/// What stands at a comment in the editor, and which one is chosen: `{anchors, chosen}`, with `anchors` a map from comments' IDs to
/// `{from, to}`.
class Shown {
  constructor(anchors, chosen) { Object.assign(this, {anchors, chosen}) }

  apply(tr, told) {
    const anchors = told?.anchors ?? (tr.docChanged ? this.moved(tr.mapping) : this.anchors)
    const chosen = told?.chosen === undefined ? this.chosen : told.chosen
    return anchors === this.anchors && chosen === this.chosen ? this : new Shown(anchors, chosen)
  }

  moved(mapping) { return new Map([...this.anchors].map(([id, it]) => [id, moved(it, mapping)])) }

  /// The comments at a place that are not resolved, the innermost first.
  at(pos) {
    const found = [...this.anchors].filter(([, {from, to, resolved}]) => from <= pos && pos <= to && from < to && !resolved)
    return found.sort(([, a], [, b]) => a.to - a.from - (b.to - b.from)).map(([id]) => id)
  }
}

/// The plugin over ProseMirror's packages. `onChoose(id)` is told where the cursor comes into a comment, and null where it leaves.
export function anchorsPlugin({Plugin, PluginKey, Decoration, DecorationSet}, {onChoose = () => {}} = {}) {
  const key = new PluginKey("gezhufetAnchors")

  function decorated(doc, {anchors, chosen}) {
    const made = []
    for (const [id, it] of anchors) {
      const from = within(it.from, doc), to = within(it.to, doc)
      const names = ["gezhufet-comment", id === chosen && "gezhufet-comment-chosen", it.isNew && "gezhufet-comment-new"].filter(Boolean)
      if (from < to && (!it.resolved || id === chosen)) made.push(Decoration.inline(from, to, {class: names.join(" "), "data-comment": id}))
    }
    return DecorationSet.create(doc, made)
  }

  const plugin = new Plugin({
    key,
    state: {
      init: () => new Shown(new Map(), null),
      apply: (tr, shown) => shown.apply(tr, tr.getMeta(key)),
    },
    props: {decorations: state => decorated(state.doc, key.getState(state))},
    view: () => ({
      update(view, before) {
        const {selection} = view.state
        if (before.selection.eq(selection) || !selection.empty) return
        const [id = null] = key.getState(view.state).at(selection.head)
        if (id !== key.getState(view.state).chosen) onChoose(id)
      },
    }),
  })

  return {
    plugin,
    shownIn: state => key.getState(state),
    show: (view, told) => view.dispatch(view.state.tr.setMeta(key, told).setMeta("addToHistory", false)),
  }
}
