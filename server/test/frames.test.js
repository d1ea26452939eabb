// The frames that the server makes itself are those of ws.

import assert from "node:assert/strict"
import {test} from "node:test"
import {frameOf} from "../frames.js"
import {packageOf} from "../packages.js"

const {Sender} = packageOf("ws")

test("a frame is that of ws, whatever its length", () => {
  for (const length of [0, 1, 125, 126, 127, 65_535, 65_536, 70_000])
    for (const letter of ["a", "ä", "\u2028"]) {
      const text = letter.repeat(length)
      const parts = Sender.frame(Buffer.from(text), {fin: true, rsv1: false, opcode: 1, mask: false, readOnly: false})
      assert.ok(frameOf(text).equals(Buffer.concat(parts)), `${length} letters`)
    }
})
