// Tests wait for what is to come, and not for so long: a machine may be slow, and only what never comes fails.

import {setTimeout as wait} from "node:timers/promises"

/** Milliseconds, many more than anything takes. */
const PATIENCE = 180_000

/** Fails where a promise is not done in time. */
export function within(promise, what, time = PATIENCE) {
  let timer
  const late = new Promise((_, reject) => { timer = setTimeout(() => reject(new Error(`${what}: not in ${time} ms`)), time) })
  return Promise.race([promise, late]).finally(() => clearTimeout(timer))
}

/** Done once something holds; `holds` may give a promise. */
export async function until(holds, what, time = PATIENCE) {
  for (const end = Date.now() + time; !await holds(); await wait(10))
    if (Date.now() > end) throw new Error(`${what}: not in ${time} ms`)
}
